#!/usr/bin/env python3
"""Writes the table of test bundles: crates/table/stdin and crates/table/stdout.

usage: tools/bundle_table.py           writes both files
       tools/bundle_table.py --check   says whether the files are what it would write; status 1 if not

The expected output comes from a second reader of bundles, written in this file from docs/FORMATS.md and
docs/REFUSALS.md alone. Most cases also have their expected output written out by hand beside the bytes; the reader
has to agree with it.
"""
import os
import sys

# The second reader.

END_OF_BUFFER, INVALID_LENGTH, INVALID, EXTRA_DATA = 8, 9, 10, 11
BITMAP, SIGNATURES, CERTIFICATE, BUNDLE = 1, 2, 3, 4

MAX_INPUT = 65536
MAX_CERTIFICATES = 256
MAX_MESSAGE = 1024

MODULUS = 65521
WIDTH = 4
KEYS = [2, 3, 5, 7]
QUORUM = len(KEYS) - (len(KEYS) - 1) // 3


class Fault(Exception):
    """A fault of bytes: its number, layer and place."""

    def __init__(self, number, layer, place):
        super().__init__(number, layer, place)
        self.number, self.layer, self.place = number, layer, place

    def text(self):
        return '%d %d %d' % (self.number, self.layer, self.place)


def field(data, place, size, layer):
    """The bytes of a field that begins at a place."""
    if len(data) - place < size:
        raise Fault(END_OF_BUFFER, layer, place)
    return data[place:place + size]


def number(data):
    return int.from_bytes(data, 'big')


def read_varint(data, place, layer):
    """A varint of at most 32 bits in shortest form: its value, and the place behind it."""
    value = 0
    for i in range(5):
        if place + i == len(data):
            raise Fault(END_OF_BUFFER, layer, place)
        byte = data[place + i]
        value += (byte % 128) << (7 * i)
        if byte < 128:
            if (byte == 0 and i > 0) or value >= 1 << 32:
                break
            return value, place + i + 1
    raise Fault(INVALID, layer, place)


def read_certificate(data, bound):
    """A list certificate: the bitmap's length, the members, the signatures."""
    length = number(field(data, 0, 8, BITMAP))
    if length > bound:
        raise Fault(INVALID_LENGTH, BITMAP, 0)
    bits = int.from_bytes(field(data, 8, (length + 7) // 8, BITMAP), 'little')
    if bits >> length:
        raise Fault(INVALID, BITMAP, 8)
    members = [i for i in range(length) if bits >> i & 1]
    if not members:
        raise Fault(INVALID, CERTIFICATE, 0)
    at_count = 8 + (length + 7) // 8
    count, place = read_varint(data, at_count, SIGNATURES)
    if count > bound:
        raise Fault(INVALID_LENGTH, SIGNATURES, at_count)
    signatures = []
    for _ in range(count):
        signatures.append(field(data, place, WIDTH, SIGNATURES))
        place += WIDTH
    if count != len(members):
        raise Fault(INVALID, CERTIFICATE, at_count)
    if place < len(data):
        raise Fault(EXTRA_DATA, CERTIFICATE, place)
    return length, members, signatures


def payload_hash(message):
    """h of the payload: the empty namespace has the length 00."""
    return number(b'\0' + message) % MODULUS


def good(key, message, signature):
    return signature == (key * payload_hash(message) % MODULUS).to_bytes(WIDTH, 'big')


def accepted(message, certificate):
    length, members, signatures = certificate
    return (length == len(KEYS) and len(members) == len(signatures) and len(members) >= QUORUM
            and all(good(KEYS[m], message, s) for m, s in zip(members, signatures)))


def read_bundle(data):
    """The entries of a bundle: a message, a certificate's bytes, and where the certificate begins."""
    count = number(field(data, 0, 2, BUNDLE))
    if count > MAX_CERTIFICATES:
        raise Fault(INVALID_LENGTH, BUNDLE, 0)
    place = 2
    entries = []
    for _ in range(count):
        length = number(field(data, place, 2, BUNDLE))
        if length > MAX_MESSAGE:
            raise Fault(INVALID_LENGTH, BUNDLE, place)
        message = field(data, place + 2, length, BUNDLE)
        place += 2 + length
        length = number(field(data, place, 2, BUNDLE))
        certificate = field(data, place + 2, length, BUNDLE)
        entries.append((message, certificate, place + 2))
        place += 2 + length
    if place < len(data):
        raise Fault(EXTRA_DATA, BUNDLE, place)
    return entries


def judged(message, certificate, begins):
    """The verdict of an entry, as text."""
    try:
        verdict = accepted(message, read_certificate(certificate, len(KEYS)))
    except Fault as fault:
        return 'false ' + Fault(fault.number, fault.layer, begins + fault.place).text()
    return 'true' if verdict else 'false'


def verdicts(data):
    """The lines that the program `verdicts` prints."""
    try:
        if len(data) > MAX_INPUT:
            raise Fault(INVALID_LENGTH, BUNDLE, MAX_INPUT)
        entries = read_bundle(data)
    except Fault as fault:
        return ['refused ' + fault.text()]
    return ['%d %s' % (i, judged(*entry)) for i, entry in enumerate(entries)]


# The words of a line of the table.

MAX_DIGITS = 2000
MAX_RUN = 70000


def words(data):
    """Bytes as words: long runs of one byte as `xx*N`, the rest as hexadecimal digits."""
    out, plain, at = [], bytearray(), 0

    def flush():
        text = plain.hex()
        out.extend(text[i:i + MAX_DIGITS] for i in range(0, len(text), MAX_DIGITS))
        plain.clear()

    while at < len(data):
        run = 1
        while run < MAX_RUN and at + run < len(data) and data[at + run] == data[at]:
            run += 1
        if run < 24:
            plain += data[at:at + run]
        else:
            flush()
            out.append('%02x*%d' % (data[at], run))
        at += run
    flush()
    return out


def joined(line):
    """The name and the bytes of a line."""
    name, *parts = line.split(' ')
    data = b''
    for part in parts:
        if '*' in part:
            byte, times = part.split('*')
            data += bytes.fromhex(byte) * int(times)
        else:
            data += bytes.fromhex(part)
    return name, data


# What the cases are made of.

def two(value):
    return value.to_bytes(2, 'big')


def signature(member, message):
    return (KEYS[member] * payload_hash(message) % MODULUS).to_bytes(WIDTH, 'big')


def bitmap(length, members):
    return length.to_bytes(8, 'big') + sum(1 << m for m in members).to_bytes((length + 7) // 8, 'little')


def certificate(members, message):
    """The certificate of these members, by ascending member."""
    return bitmap(4, members) + bytes([len(members)]) + b''.join(signature(m, message) for m in sorted(members))


def entry(message, cert):
    return two(len(message)) + message + two(len(cert)) + cert


def bundle(*entries):
    return two(len(entries)) + b''.join(entries)


def one(cert, message=b'\x0a'):
    """A bundle of one entry; over the message 0A its certificate begins at 7."""
    return bundle(entry(message, cert))


def hexa(text):
    return bytes.fromhex(text)


def lines_true(count):
    return ['%d true' % i for i in range(count)]


M = b'\x0a'
GOOD = certificate([0, 1, 2], M)
GOOD_ENTRY = entry(M, GOOD)
BAD_ENTRY = entry(M, GOOD[:-1] + b'\x33')
EXAMPLE = bundle(GOOD_ENTRY, BAD_ENTRY)
FOUR = '0000000000000004'
NO_SIGNER_ENTRY = entry(M, hexa(FOUR + '00'))
SIGS = '000000140000001e00000032'

# 64 entries of 65,536 bytes together, over messages of zeros: every good signature is 0.
FULL = bundle(*[entry(bytes(size), certificate([0, 1, 3], bytes(size))) for size in [1024] * 62 + [382, 0]])

# Each case: name, bytes, and the lines by hand (None: the reader alone says them).
CASES = []


def case(name, data, *expected):
    CASES.append((name, data, list(expected)))


def by_reader(name, data):
    CASES.append((name, data, None))


def heading(text):
    CASES.append((None, text, None))


heading('Bundles that are read, and verdicts')
case('example', EXAMPLE, '0 true', '1 false')
case('no-entries', bundle())
case('quorum-012', one(certificate([0, 1, 2], M)), '0 true')
case('quorum-013', one(certificate([0, 1, 3], M)), '0 true')
case('quorum-023', one(certificate([0, 2, 3], M)), '0 true')
case('quorum-123', one(certificate([1, 2, 3], M)), '0 true')
case('all-four', one(certificate([0, 1, 2, 3], M)), '0 true')
case('below-quorum-two', one(certificate([0, 1], M)), '0 false')
case('below-quorum-one', one(certificate([3], M)), '0 false')
case('wrong-first-signature', one(hexa(FOUR + '0703' + '000000150000001e00000032')), '0 false')
case('wrong-second-signature', one(hexa(FOUR + '0703' + '000000140000001f00000032')), '0 false')
case('wrong-last-signature', one(hexa(FOUR + '0703' + '000000140000001e00000033')), '0 false')
case('wrong-last-of-four', one(certificate([0, 1, 2, 3], M)[:-1] + b'\x47'), '0 false')
case('swapped-signatures', one(hexa(FOUR + '0703' + '0000001e0000001400000032')), '0 false')
case('signatures-of-other-members', one(hexa(FOUR + '0e03' + SIGS)), '0 false')
case('descending-signatures', one(hexa(FOUR + '0703' + '000000320000001e00000014')), '0 false')
case('wrong-message', one(GOOD, b'\x0b'), '0 false')
case('wrong-message-length', one(GOOD, b'\x0a\x00'), '0 false')
case('leading-zero-message', one(GOOD, b'\x00\x0a'), '0 true')
case('zero-signatures', one(hexa(FOUR + '0703' + '00' * 12)), '0 false')

heading('Messages')
case('empty-message', one(certificate([0, 1, 2], b''), b''), '0 true')
case('empty-message-wrong', one(GOOD, b''), '0 false')
case('message-h-zero', one(certificate([1, 2, 3], hexa('fff1')), hexa('fff1')), '0 true')
case('message-65520', one(certificate([1, 2, 3], hexa('fff0')), hexa('fff0')), '0 true')
case('message-72', one(certificate([0, 2, 3], bytes(range(72))), bytes(range(72))), '0 true')
case('message-1023', one(certificate([0, 1, 2], b'\x5a' * 1023), b'\x5a' * 1023), '0 true')
case('message-1024', one(certificate([0, 1, 2], b'\x5a' * 1024), b'\x5a' * 1024), '0 true')
case('message-1024-wrong', one(certificate([0, 1, 2], b'\x5a' * 1023), b'\x5a' * 1024), '0 false')
case('message-1024-ff', one(certificate([0, 1, 3], b'\xff' * 1024), b'\xff' * 1024), '0 true')
case('message-1025', one(certificate([0, 1, 2], b'\x5a' * 1025), b'\x5a' * 1025), 'refused 9 4 2')
case('message-1025-nothing-behind', hexa('0001' '0401'), 'refused 9 4 2')
case('message-1024-nothing-behind', hexa('0001' '0400'), 'refused 8 4 4')
case('message-65535', hexa('0001' 'ffff' '0a'), 'refused 9 4 2')

heading('Signatures that do not decode: the certificate is read, and not accepted')
case('signature-65520', one(hexa(FOUR + '0703' + '000000140000001e0000fff0')), '0 false')
case('signature-65521', one(hexa(FOUR + '0703' + '000000140000001e0000fff1')), '0 false')
case('signature-h-plus-modulus', one(hexa(FOUR + '0703' + '000000140000001e00010023')), '0 false')
case('signature-first-plus-modulus', one(hexa(FOUR + '0703' + '000100050000001e00000032')), '0 false')
case('signature-65536', one(hexa(FOUR + '0703' + '000100000000001e00000032')), '0 false')
case('signature-largest', one(hexa(FOUR + '0703' + 'ffffffff0000001e00000032')), '0 false')
case('signature-65521-for-h-zero', one(hexa(FOUR + '0703' + '000000000000fff100000000'), b''), '0 false')
case('signatures-all-ff', one(hexa(FOUR + '0f04' + 'ff' * 16)), '0 false')

heading('Layer 1, the bitmap')
case('certificate-empty', one(b''), '0 false 8 1 7')
case('certificate-empty-message-empty', one(b'', b''), '0 false 8 1 6')
case('bitmap-length-one-byte', one(hexa('00')), '0 false 8 1 7')
case('bitmap-length-seven-bytes', one(hexa('00000000000000')), '0 false 8 1 7')
case('bitmap-length-seven-bytes-ff', one(hexa('ff' * 7)), '0 false 8 1 7')
case('bitmap-length-5', one(hexa('0000000000000005' '1f05' + SIGS + '0000004600000000')), '0 false 9 1 7')
case('bitmap-length-5-alone', one(hexa('0000000000000005')), '0 false 9 1 7')
case('bitmap-length-8', one(hexa('0000000000000008' '0703' + SIGS)), '0 false 9 1 7')
case('bitmap-length-64', one(hexa('0000000000000040' + '07' + '00' * 7 + '03' + SIGS)), '0 false 9 1 7')
case('bitmap-length-65', one(hexa('0000000000000041' + '07' + '00' * 8 + '03' + SIGS)), '0 false 9 1 7')
case('bitmap-length-256', one(hexa('0000000000000100' '0703' + SIGS)), '0 false 9 1 7')
case('bitmap-length-little-endian', one(hexa('0400000000000000' '0703' + SIGS)), '0 false 9 1 7')
case('bitmap-length-2-32', one(hexa('0000000100000000' '0703' + SIGS)), '0 false 9 1 7')
case('bitmap-length-2-32-plus-4', one(hexa('0000000100000004' '0703' + SIGS)), '0 false 9 1 7')
case('bitmap-length-largest', one(hexa('ff' * 8)), '0 false 9 1 7')
case('bitmap-bytes-missing', one(hexa(FOUR)), '0 false 8 1 15')
case('bitmap-bytes-missing-length-3', one(hexa('0000000000000003')), '0 false 8 1 15')
case('bitmap-spare-bit-4', one(hexa(FOUR + '1703' + SIGS)), '0 false 10 1 15')
case('bitmap-spare-bit-7', one(hexa(FOUR + '8703' + SIGS)), '0 false 10 1 15')
case('bitmap-spare-bits-nothing-behind', one(hexa(FOUR + 'ff')), '0 false 10 1 15')
case('bitmap-length-3', one(hexa('0000000000000003' '0703' + SIGS)), '0 false')
case('bitmap-length-3-spare-bit', one(hexa('0000000000000003' '0803' + SIGS)), '0 false 10 1 15')
case('bitmap-length-1', one(hexa('0000000000000001' '0101' '00000014')), '0 false')
case('bitmap-length-3-counts-differ', one(hexa('0000000000000003' '0702' '000000140000001e')), '0 false 10 3 16')
case('bitmap-length-0', one(hexa('0000000000000000')), '0 false 10 3 7')
case('bitmap-length-0-more-behind', one(hexa('0000000000000000' '0703' + SIGS)), '0 false 10 3 7')

heading('Layer 2, the count and the signatures')
case('count-missing', one(hexa(FOUR + '07')), '0 false 8 2 16')
case('count-5', one(hexa(FOUR + '0705' + SIGS + '0000004600000000')), '0 false 9 2 16')
case('count-5-nothing-behind', one(hexa(FOUR + '0705')), '0 false 9 2 16')
case('count-127', one(hexa(FOUR + '077f')), '0 false 9 2 16')
case('count-128', one(hexa(FOUR + '078001')), '0 false 9 2 16')
case('count-largest', one(hexa(FOUR + '07ffffffff0f')), '0 false 9 2 16')
case('count-2-28', one(hexa(FOUR + '078080808001')), '0 false 9 2 16')
case('count-80-00', one(hexa(FOUR + '078000')), '0 false 10 2 16')
case('count-83-00', one(hexa(FOUR + '078300' + SIGS)), '0 false 10 2 16')
case('count-80-80-00', one(hexa(FOUR + '07808000')), '0 false 10 2 16')
case('count-five-80', one(hexa(FOUR + '078080808080')), '0 false 10 2 16')
case('count-five-80-then-01', one(hexa(FOUR + '07808080808001')), '0 false 10 2 16')
case('count-2-32', one(hexa(FOUR + '078080808010')), '0 false 10 2 16')
case('count-five-bytes-ends-00', one(hexa(FOUR + '078380808000' + SIGS)), '0 false 10 2 16')
case('count-fifth-byte-7f', one(hexa(FOUR + '07ffffffff7f')), '0 false 10 2 16')
case('count-fifth-byte-8f', one(hexa(FOUR + '07ffffffff8f00')), '0 false 10 2 16')
case('count-ends-after-1', one(hexa(FOUR + '0783')), '0 false 8 2 16')
case('count-ends-after-2', one(hexa(FOUR + '078080')), '0 false 8 2 16')
case('count-ends-after-4', one(hexa(FOUR + '07ffffffff')), '0 false 8 2 16')
case('signature-none-of-3', one(hexa(FOUR + '0703')), '0 false 8 2 17')
case('signature-first-cut', one(hexa(FOUR + '0703' '000000')), '0 false 8 2 17')
case('signature-second-missing', one(hexa(FOUR + '0703' '00000014')), '0 false 8 2 21')
case('signature-second-cut', one(hexa(FOUR + '0703' '0000001400')), '0 false 8 2 21')
case('signature-third-missing', one(hexa(FOUR + '0703' '000000140000001e')), '0 false 8 2 25')
case('signature-third-cut', one(hexa(FOUR + '0703' '000000140000001e000000')), '0 false 8 2 25')
case('signature-fourth-missing', one(hexa(FOUR + '0f04' + SIGS)), '0 false 8 2 29')

heading('Layer 3, the certificate')
case('no-signer', one(hexa(FOUR + '00')), '0 false 10 3 7')
case('no-signer-count-0', one(hexa(FOUR + '0000')), '0 false 10 3 7')
case('counts-differ-none', one(hexa(FOUR + '0700')), '0 false 10 3 16')
case('counts-differ-fewer', one(hexa(FOUR + '0702' '000000140000001e')), '0 false 10 3 16')
case('counts-differ-more', one(hexa(FOUR + '0704' + SIGS + '00000046')), '0 false 10 3 16')
case('certificate-one-byte-over', one(GOOD + b'\x00'), '0 false 11 3 29')
case('certificate-four-bytes-over', one(GOOD + hexa('00000046')), '0 false 11 3 29')
case('certificate-twice', one(GOOD + GOOD), '0 false 11 3 29')
case('certificate-over-not-accepted', one(hexa(FOUR + '0101' '00000000' 'ff')), '0 false 11 3 21')

heading('Orders inside a certificate')
case('spare-bits-before-no-signer', one(hexa(FOUR + 'f0')), '0 false 10 1 15')
case('spare-bits-before-count', one(hexa(FOUR + 'f78000')), '0 false 10 1 15')
case('no-signer-before-missing-count', one(hexa(FOUR + '00')), '0 false 10 3 7')
case('no-signer-before-bad-varint', one(hexa(FOUR + '008000')), '0 false 10 3 7')
case('no-signer-before-large-count', one(hexa(FOUR + '0005')), '0 false 10 3 7')
case('no-signer-before-missing-signatures', one(hexa(FOUR + '0003')), '0 false 10 3 7')
case('no-signer-before-left-over', one(hexa(FOUR + '0000ff')), '0 false 10 3 7')
case('large-count-before-missing-signatures', one(hexa(FOUR + '0705' '00000014')), '0 false 9 2 16')
case('large-count-before-differing-counts', one(hexa(FOUR + '0706' + '00' * 24)), '0 false 9 2 16')
case('missing-signatures-before-differing-counts', one(hexa(FOUR + '0704' + SIGS)), '0 false 8 2 29')
case('missing-signature-before-differing-counts', one(hexa(FOUR + '0302' '0000001400')), '0 false 8 2 21')
case('differing-counts-before-left-over', one(hexa(FOUR + '0702' + SIGS)), '0 false 10 3 16')
case('left-over-before-signatures-are-checked', one(hexa(FOUR + '0703' + 'ff' * 13)), '0 false 11 3 29')
case('length-before-bitmap-bytes', one(hexa('0000000000000009' 'ff')), '0 false 9 1 7')

heading('Layer 4, the bundle')
case('empty-input', b'', 'refused 8 4 0')
case('count-one-byte', hexa('00'), 'refused 8 4 0')
case('count-one-byte-ff', hexa('ff'), 'refused 8 4 0')
case('count-257', two(257) + entry(b'', certificate([0, 1, 2], b'')) * 257, 'refused 9 4 0')
case('count-257-nothing-behind', hexa('0101'), 'refused 9 4 0')
case('count-65535', hexa('ffff'), 'refused 9 4 0')
case('count-256-nothing-behind', hexa('0100'), 'refused 8 4 2')
case('message-length-missing', hexa('0001'), 'refused 8 4 2')
case('message-length-cut', hexa('0001' '00'), 'refused 8 4 2')
case('message-length-cut-large', hexa('0001' 'ff'), 'refused 8 4 2')
case('message-missing', hexa('0001' '0001'), 'refused 8 4 4')
case('message-cut', hexa('0001' '0003' '0a0a'), 'refused 8 4 4')
case('certificate-length-missing', hexa('0001' '0001' '0a'), 'refused 8 4 5')
case('certificate-length-missing-message-empty', hexa('0001' '0000'), 'refused 8 4 4')
case('certificate-length-cut', hexa('0001' '0001' '0a' '00'), 'refused 8 4 5')
case('certificate-missing', hexa('0001' '0001' '0a' '0016'), 'refused 8 4 7')
case('certificate-cut', bundle(GOOD_ENTRY)[:-1], 'refused 8 4 7')
case('certificate-length-largest', hexa('0001' '0001' '0a' 'ffff') + GOOD, 'refused 8 4 7')
case('second-entry-missing', two(2) + GOOD_ENTRY, 'refused 8 4 29')
case('second-message-cut', two(2) + GOOD_ENTRY + hexa('0002' '0a'), 'refused 8 4 31')
case('second-message-1025', two(2) + GOOD_ENTRY + hexa('0401'), 'refused 9 4 29')
case('second-certificate-cut', EXAMPLE[:-1], 'refused 8 4 34')
case('left-over-one-byte', EXAMPLE + b'\x00', 'refused 11 4 56')
case('left-over-behind-no-entries', hexa('0000' '00'), 'refused 11 4 2')
case('left-over-entry', two(1) + GOOD_ENTRY + BAD_ENTRY, 'refused 11 4 29')

heading('A fault of the bundle behind an entry that has a fault of its own')
case('left-over-behind-faulty-entry', bundle(NO_SIGNER_ENTRY) + b'\xff', 'refused 11 4 16')
case('missing-entry-behind-faulty-entry', two(2) + NO_SIGNER_ENTRY, 'refused 8 4 16')
case('long-message-behind-faulty-entry', two(2) + NO_SIGNER_ENTRY + hexa('0401'), 'refused 9 4 16')
case('cut-certificate-behind-faulty-entry', two(2) + NO_SIGNER_ENTRY + GOOD_ENTRY[:-1], 'refused 8 4 21')
case('left-over-behind-empty-certificate', bundle(entry(M, b'')) + b'\x00', 'refused 11 4 7')
case('long-message-behind-left-over-certificate', two(2) + entry(M, GOOD + b'\x00') + hexa('ffff'), 'refused 9 4 30')

heading('Entries with and without faults')
case('mixed',
     bundle(GOOD_ENTRY, NO_SIGNER_ENTRY, BAD_ENTRY, entry(M, b''), GOOD_ENTRY, entry(M, hexa(FOUR + '0703' + '00000014')),
            entry(b'', hexa(FOUR + '0705')), entry(M, GOOD + b'\x01\x02'), entry(b'', certificate([1, 2, 3], b'')),
            entry(b'', hexa('0000000000000005'))),
     '0 true', '1 false 10 3 34', '2 false', '3 false 8 1 75', '4 true', '5 false 8 2 121', '6 false 9 2 134',
     '7 false 11 3 162', '8 true', '9 false 9 1 194')
case('faulty-then-good', bundle(entry(M, hexa(FOUR + '17')), GOOD_ENTRY), '0 false 10 1 15', '1 true')
case('fault-of-third-entry', bundle(GOOD_ENTRY, GOOD_ENTRY, entry(M, GOOD[:-4])), '0 true', '1 true', '2 false 8 2 79')
case('certificate-ends-where-next-entry-begins', bundle(entry(M, GOOD[:-1]), GOOD_ENTRY), '0 false 8 2 25', '1 true')
case('three-empty-entries', bundle(*[entry(b'', b'')] * 3), '0 false 8 1 6', '1 false 8 1 10', '2 false 8 1 14')

heading('Many entries')
case('entries-256', bundle(*[entry(b'', certificate([0, 1, 2], b''))] * 256), *lines_true(256))
case('entries-255', bundle(*[entry(b'', certificate([1, 2, 3], b''))] * 255), *lines_true(255))
case('entries-256-last-wrong', bundle(*[entry(b'', certificate([0, 1, 2], b''))] * 255, entry(b'', GOOD)),
     *lines_true(255), '255 false')
by_reader('entries-256-every-third-wrong',
          bundle(*[entry(bytes([i]), certificate([0, 2, 3], bytes([i - (i % 3 == 1)]))) for i in range(256)]))
by_reader('entries-256-mixed-faults',
          bundle(*[entry(bytes([i]), certificate([0, 1, 2, 3], bytes([i]))[:26 - i % 29 if i % 2 else 26]) for i in range(256)]))
case('entries-256-left-over', bundle(*[entry(b'', certificate([0, 1, 2], b''))] * 256) + b'\x00', 'refused 11 4 6658')

heading('Long inputs')
case('input-65536-all-accepted', FULL, *lines_true(64))
case('input-65536-left-over-in-certificate', hexa('0001' '0001' '0a' 'fff9') + GOOD + bytes(65507), '0 false 11 3 29')
case('input-65536-left-over-in-bundle', EXAMPLE + bytes(65480), 'refused 11 4 56')
case('input-65536-zeros', bytes(65536), 'refused 11 4 2')
case('input-65535-left-over-in-bundle', EXAMPLE + bytes(65479), 'refused 11 4 56')
case('input-65537-one-byte-over', FULL + b'\x00', 'refused 9 4 65536')
case('input-65537-one-entry', hexa('0001' '0001' '0a' 'fffa') + GOOD + bytes(65508), 'refused 9 4 65536')
case('input-65537-count-257', two(257) + bytes(65535), 'refused 9 4 65536')
case('input-65537-ff', b'\xff' * 65537, 'refused 9 4 65536')
case('input-70000', bytes(70000), 'refused 9 4 65536')

heading('The example cut off at each place')
for end in range(len(EXAMPLE)):
    by_reader('cut-%02d' % end, EXAMPLE[:end])

heading('The example with one bit turned in each byte')
for place in range(len(EXAMPLE)):
    turned = EXAMPLE[place] ^ (1 << place % 8)
    by_reader('turned-%02d' % place, EXAMPLE[:place] + bytes([turned]) + EXAMPLE[place + 1:])

heading('Bytes without a plan')
state = 1
for k in range(24):
    bytes_k = bytearray()
    for _ in range(8 + 4 * k):
        state = (state * 1103515245 + 12345) % (1 << 31)
        bytes_k.append(state >> 16 & 255)
    by_reader('noise-%02d' % k, bytes(bytes_k))
    by_reader('noise-in-certificate-%02d' % k, one(hexa(FOUR + '0f') + bytes([k % 6]) + bytes(bytes_k)))


def table():
    """The texts of both files."""
    names = [name for name, _, _ in CASES if name]
    assert len(names) == len(set(names)), 'a name stands twice'
    stdin, stdout = [], []
    for name, data, expected in CASES:
        if name is None:
            stdin += ([''] if stdin else []) + ['# ' + data]
            continue
        lines = verdicts(data)
        assert expected is None or lines == expected, (name, lines, expected)
        line = ' '.join([name] + words(data))
        assert joined(line) == (name, data), name
        stdin.append(line)
        stdout += [name] + lines
    return '\n'.join(stdin) + '\n', '\n'.join(stdout) + '\n'


def main():
    folder = os.path.join(os.path.dirname(os.path.abspath(__file__)), '..', 'crates', 'table')
    texts = dict(zip(('stdin', 'stdout'), table()))
    count = sum(1 for name, _, _ in CASES if name)
    if sys.argv[1:] == ['--check']:
        for name, text in texts.items():
            with open(os.path.join(folder, name), encoding='ascii') as f:
                if f.read() != text:
                    sys.exit('crates/table/%s is not what this program writes' % name)
        print('%d bundles, both files as written' % count)
    elif not sys.argv[1:]:
        for name, text in texts.items():
            with open(os.path.join(folder, name), 'w', encoding='ascii') as f:
                f.write(text)
        print('%d bundles written' % count)
    else:
        sys.exit(__doc__)


if __name__ == '__main__':
    main()
