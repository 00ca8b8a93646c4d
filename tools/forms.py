#!/usr/bin/env python3
"""Lists the places of src/ whose form an older Rattle asked for: tools/forms.py [COMMIT] (default: the working tree).

Each heading is a kind of place, as docs/DESIGN-PASS.md counts them. The patterns find candidates; the page says which of them are
places, and what became of each. Tests, comments and `ghost use` lines are left out.
"""
import collections
import re
import subprocess
import sys


def git(*words):
    return subprocess.run(["git", *words], capture_output=True, text=True, check=True).stdout


def sources(commit):
    """The files of src/, each as its numbered lines of code, at a commit or in the working tree."""
    names = git("ls-tree", "-r", "--name-only", commit) if commit else git("ls-files")
    files = {}
    for name in names.split():
        if re.match(r"crates/\w+/src/.*\.rt$", name):
            text = git("show", f"{commit}:{name}") if commit else open(name).read()
            lines = text.split("#[cfg(test)]")[0].split("\n")
            code = [(number, re.sub(r"//.*", "", line)) for number, line in enumerate(lines, 1)]
            files[name[7:]] = [(number, line) for number, line in code if not line.startswith("ghost use")]
    return files


def is_clause(line):
    return line.strip().startswith(("ensures", "requires", "ghost"))


def found(files, pattern, unless=None):
    """Lines of code, clauses left out, that match."""
    for name, lines in files.items():
        for number, line in lines:
            if not is_clause(line) and re.search(pattern, line) and not (unless and re.search(unless, line)):
                yield f"{name}:{number}: {line.strip()[:110]}"


def repeated(files, pattern, least):
    """What a pattern catches in clauses, by how often it stands."""
    times = collections.Counter(match for lines in files.values() for _, line in lines if is_clause(line) for match in re.findall(pattern, line))
    return [f"{count} x {match[:110]}" for match, count in times.most_common() if count >= least]


def items(lines, word):
    """The functions or structs of a file, each with its body."""
    for at, (_, line) in enumerate(lines):
        name = re.search(rf"\b{word} (\w+)", line)
        if not name or is_clause(line):
            continue
        for begin in range(at, len(lines)):
            head = lines[begin][1].rstrip()
            if not is_clause(head) and head.endswith("{"):
                end = next(i for i in range(begin, len(lines)) if lines[i][1].rstrip() == re.match(r" *", line).group(0) + "}")
                yield name.group(1), "\n".join(text for _, text in lines[begin + 1: end] if not is_clause(text))
                break
            if head.endswith(";"):
                break


def shape(body):
    """A body without its types, constants and numbers."""
    body = re.sub(r"\b[A-Z]\w*(::<[^>]*>)?", "T", body)
    body = re.sub(r"\b\d[\d_]*(u8|u32|u64|usize)?\b", "N", body)
    return re.sub(r"\s+", " ", body).strip()


def twins(files):
    """Functions and structs of one shape; a body of a word or two is none."""
    for word in ("fn", "struct"):
        alike = collections.defaultdict(list)
        for name, lines in files.items():
            for item, body in items(lines, word):
                if len(shape(body)) >= 16:
                    alike[shape(body)].append(f"{name} {item}")
        for body, places in alike.items():
            if len(places) > 1:
                yield f"{word}: {', '.join(places)}: {body[:70]}"


def main():
    files = sources(sys.argv[1] if len(sys.argv) > 1 else None)
    apart = r"Some\(.*\) => Some|Ok\(.*\) => Ok|None => None|Err\(.*\) => Err|None => (false|true)"
    bytewise = r"\[bytes\[|\[\*a, |\b(\w)\[0\], \1\[1\]|bytes\[0\], bytes|len\[0\], len"
    lists = [
        ("1a own enums", found(files, r"^\s*(pub )?enum ")),
        ("1b numbers for kinds, arm by arm", found(files, r"=> \d+,")),
        ("1c flags in structs", found(files, r"^\s*(pub )?\w+: bool,")),
        ("2 functions and structs alike but for types, constants and numbers", twins(files)),
        ("3a loops over a range, and `while`", found(files, r"\bfor .* in .*\.\..*\{|\bwhile ")),
        ("3b counters kept by hand", found(files, r"\+= (1|more|put_\w+\(.*\)\?);|\bat = ")),
        ("3c numbered loops", found(files, r"\bfor .*\.enumerate\(\)")),
        ("4a equality, order and copying by hand", found(files, r"impl.* (Clone|PartialEq|Eq|PartialOrd|Ord|Default|Debug|Copy) for|fn stands_before")),
        ("4b an Option or a Result taken apart and put together again", found(files, apart)),
        ("4c numbers read or written one byte at a time", found(files, bytewise)),
        ("4d conversions by a name of their own", found(files, r"\bfn (from_\w+|to_\w+|number|values|misread|refusal)\b")),
        ("5a facts that are asked for, by their text", repeated(files, r"requires(?: \w+)? (\{.*\})", 1)),
        ("5b a place beside its bytes", found(files, r"bytes: &\[u8\], at: usize|^\s*start: usize,|\(varint: \w+, at: usize", r"out: &mut")),
        ("5c the keys of a roll, spelled by its fields", repeated(files, r"(first_keys K\.KeyCheck\.key [\w.]+ [\w.]+)", 1)),
        ("5d ghost fields of one text", repeated(files, r"(ghost \w+: \{[^→]*\}),", 2)),
        ("6a a length beside a buffer", found(files, r"^\s*(pub(\(crate\))? )?(len|count): usize,")),
        ("6b tables of a fixed size", found(files, r"\[[^\]=]*; [A-Z_]*[A-Z]\]", r"MAX_\w+: usize|fn ")),
        ("6c places in a buffer in place of its parts", found(files, r"\bSpans?\b|\bspans\b")),
        ("7 function pointers and dyn", found(files, r"\bdyn |: fn\(")),
    ]
    for title, places in lists:
        places = list(places)
        print(f"{title}: {len(places)}")
        for place in places:
            print(f"    {place}")


main()
