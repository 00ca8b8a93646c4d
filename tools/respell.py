#!/usr/bin/env python3
"""Respells this repository's own definitions and lemmas as today's library spells its own: words in snake case, facts in camel case,
and a dash only between two names. Run once at the top, after port.py: python3 tools/respell.py. It says how many words it turned."""

import glob
import re

NAMES = dict(
    pair.split("=")
    for pair in """
Every-mark=EveryMark Some-mark=SomeMark agreed-all=agreed_all agreed-at=agreed_at agreed-differ=agreed_differ agreed-more=agreed_more
agreed-past=agreed_past all-bytes=all_bytes all-decimal=all_decimal all-good=all_good all-ok=all_ok all-spaced=all_spaced among-above=among_above
among-push=among_push among-suc=among_suc and-false=and_false answer-lines=answer_lines answer-text=answer_text answers-fit=answers_fit
answers-unfit=answers_unfit ascends-low=ascends_low ascends-push=ascends_push ascends-wider=ascends_wider at-bitmap=at_bitmap
at-signatures=at_signatures back-from-value=back_from_value bad-byte=bad_byte behind-all=behind_all behind-fault=behind_fault behind-one=behind_one
behind-word=behind_word big-back=big_back big-front=big_front big-small=big_small big-there=big_there bitmap-size=bitmap_size
bitmap-written=bitmap_written bits-over=bits_over bundle-back=bundle_back bundle-large=bundle_large bundle-limits=bundle_limits cases-even=cases_even
clipped-none=clipped_none closed-open=closed_open concluded-text=concluded_text cond-le=cond_le count-above=count_above count-behind=count_behind
count-in=count_in count-le=count_le count-lt=count_lt count-mono=count_mono count-out=count_out count-suc=count_suc counted-long=counted_long
counted-text=counted_text counts-not=counts_not cut-part=cut_part decode-bitmap=decode_bitmap decode-broken=decode_broken decode-fault=decode_fault
decode-fine=decode_fine decode-more=decode_more decode-written=decode_written decodes-back=decodes_back each-good=each_good
edition-message=edition_message empty-word=empty_word entries-again=entries_again entries-back=entries_back entries-long=entries_long
entries-more=entries_more entries-written=entries_written entry-again=entry_again entry-second=entry_second field-again=field_again
field-large=field_large field-written=field_written filled-all=filled_all filled-first=filled_first fine-above=fine_above fine-no-key=fine_no_key
fine-not-above=fine_not_above finished-differ=finished_differ finished-extra=finished_extra first-bad=first_bad first-fault=first_fault
first-keys=first_keys first-same=first_same fits-other=fits_other fits-parts=fits_parts fits-quorum=fits_quorum fits-unpaired=fits_unpaired
found-written=found_written four-back=four_back four-decodes=four_decodes four-key=four_key four-number=four_number four-shape=four_shape
from-mapped=from_mapped front-more=front_more going-all=going_all going-bad=going_bad going-in=going_in going-none=going_none going-out=going_out
going-place=going_place good-decodes=good_decodes good-ends=good_ends good-itself=good_itself good-key=good_key good-stops=good_stops
grouped-push=grouped_push groups-long=groups_long groups-more=groups_more has-byte=has_byte has-little=has_little has-low=has_low
has-one-by=has_one_by has-repeat=has_repeat has-zero=has_zero hash-below=hash_below hash-more=hash_more hash-none=hash_none hex-byte=hex_byte
hex-bytes=hex_bytes hex-digit=hex_digit is-residue-key=is_residue_key judged-big=judged_big judged-other=judged_other judged-shortest=judged_shortest
key-at=key_at keys-of-w=keys_of_w kind-number=kind_number laid-over=laid_over layer-number=layer_number length-big-endian=length-big_endian
length-little-endian=length-little_endian length-varint-long=length-varint_long line-text=line_text lines-push=lines_push list-accepted=list_accepted
list-fits=list_fits list-judging=list_judging list-sound=list_sound little-back=little_back little-eight=little_eight little-is=little_is
little-none=little_none little-number=little_number little-padded=little_padded little-there=little_there long-found=long_found long-more=long_more
long-none=long_none long-passed=long_passed low-at=low_at made-broken=made_broken mapErr=map_err mapOk=map_ok max-attestations=max_attestations
max-bytes=max_bytes max-certificates=max_certificates max-input=max_input max-key=max_key max-members=max_members max-message=max_message
max-namespace=max_namespace max-payload=max_payload max-prefix=max_prefix max-signature=max_signature max-size=max_size members-around=members_around
members-ascend=members_ascend members-ascends=members_ascends members-at=members_at members-below=members_below members-in=members_in
members-out=members_out members-skip=members_skip members-split=members_split more-ok=more_ok never-open=never_open never-zero=never_zero
next-drop=next_drop next-part=next_part no-count=no_count no-entry=no_entry no-signature=no_signature not-above=not_above not-long=not_long
number-four=number_four ok-back=ok_back ok-canonical=ok_canonical ok-decodes=ok_decodes ok-laid-out=ok_laid_out ok-written=ok_written
ongoing-all=ongoing_all ongoing-extra=ongoing_extra ongoing-fault=ongoing_fault ongoing-more=ongoing_more ongoing-none=ongoing_none
ongoing-short=ongoing_short or-false=or_false or-odd=or_odd or-odd-by=or_odd_by or-true=or_true overlaid-more=overlaid_more payload-fits=payload_fits
payload-laid=payload_laid prefix-again=prefix_again prefix-at=prefix_at product-fits=product_fits put-fits=put_fits put-further=put_further
put-laid-out=put_laid_out put-more=put_more put-none=put_none put-not=put_not put-nothing=put_nothing quorumOf=quorum_of raw-keys=raw_keys
raws-at=raws_at raws-more=raws_more read-bitmap=read_bitmap read-bits=read_bits read-closed=read_closed read-field=read_field read-from=read_from
read-front=read_front read-list=read_list read-long=read_long read-open=read_open read-varint=read_varint read-written=read_written
reading-closes=reading_closes reading-ends=reading_ends reading-more=reading_more reading-stops=reading_stops reads-back=reads_back
reads-no-bitmap=reads_no_bitmap reads-nobody=reads_nobody reads-shortest=reads_shortest refused-text=refused_text residue-decodes=residue_decodes
residue-good=residue_good residue-hash=residue_hash residue-laws=residue_laws residue-signature=residue_signature residueMeaning=residue_meaning
roll-key=roll_key same-ascending=same_ascending seen-past=seen_past short-at=short_at shortest-at=shortest_at shortest-from-value=shortest_from_value
shortest-more=shortest_more shortest-one=shortest_one signature-four=signature_four signed-at=signed_at some-digits=some_digits some-hex=some_hex
some-long=some_long star-here=star_here starred-word=starred_word tail-is=tail_is take-little=take_little text-bytes=text_bytes two-tests=two_tests
unfit-beside=unfit_beside varint-long=varint_long verdict-text=verdict_text verdicts-all=verdicts_all verdicts-more=verdicts_more
writing-last=writing_last written-bit=written_bit written-size=written_size
""".split()
)
# A word is a whole name: no letter, digit, dash or prime beside it.
WORD = re.compile(r"(?<![\w'·-])[A-Za-z][\w'-]*[\w'](?![\w'·-])")


def main():
    taken = set()
    count = 0
    for path in sorted(p for end in ("rt", "antt", "edit") for p in glob.glob(f"crates/*/**/*.{end}", recursive=True)):
        if "/out/" in path:
            continue
        with open(path, encoding="utf-8") as f:
            text = f.read()
        taken |= set(WORD.findall(text)) & set(NAMES.values())
        turned, n = WORD.subn(lambda m: NAMES.get(m[0], m[0]), text)
        if turned != text:
            with open(path, "w", encoding="utf-8") as f:
                f.write(turned)
        count += sum(m in NAMES for m in WORD.findall(text))
    print(f"{count} words turned")
    print("stood before under a new name: " + ", ".join(sorted(taken)))


main()
