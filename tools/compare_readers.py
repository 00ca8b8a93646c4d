#!/usr/bin/env python3
"""Compares the built program `verdicts` with tools/second_reader.py: whole outputs, on inputs made from a fixed seed.

usage: tools/compare_readers.py [COUNT]      after `rt run` in crates/verdicts; status 1 if an output differs

A quarter of the inputs are random bytes, a quarter the example bundle with edits, a quarter bundles whose certificates are good,
bad or edited, and a quarter such bundles with edits. The inputs at the limits of size and count come last.
"""
import collections
import os
import random
import subprocess
import sys

TOP = os.path.dirname(os.path.dirname(os.path.abspath(__file__)))
sys.path.insert(0, os.path.join(TOP, "tools"))
import second_reader  # noqa: E402

PROGRAM = os.path.join(TOP, "crates", "verdicts", "out", "verdicts")
MODULUS = 65521
KEYS = [2, 3, 5, 7]
rand = random.Random(20261126)


def some_bytes(length):
    return bytes(rand.choice([0, 0, 1, 2, 4, 127, 128, 255, rand.randrange(256)]) for _ in range(length))


def edited(data):
    data = bytearray(data)
    for _ in range(rand.randrange(1, 4)):
        at = rand.randrange(len(data) + 1)
        kind = rand.randrange(4)
        if kind == 0 and at < len(data):
            data[at] = some_bytes(1)[0]
        elif kind == 1:
            del data[at:]
        elif kind == 2:
            data += some_bytes(1)
        else:
            data[at:at] = some_bytes(1)
    return bytes(data)


def certificate(message, members, length=4, wrong=None):
    payload = int.from_bytes(b"\0" + message, "big") % MODULUS
    bits = sum(1 << member for member in members)
    signatures = b"".join(
        (KEYS[member] * payload % MODULUS + (member == wrong)).to_bytes(4, "big") for member in members
    )
    return length.to_bytes(8, "big") + bits.to_bytes((length + 7) // 8, "little") + bytes([len(members)]) + signatures


def entry():
    message = some_bytes(rand.choice([0, 1, 2, 72, 1023, 1024, 1025]))
    members = sorted(rand.sample(range(4), rand.choice([0, 1, 2, 3, 3, 4, 4])))
    length = rand.choice([4, 4, 4, 4, 3 if 3 not in members else 4, 5, 64])
    made = certificate(message, members, length, rand.choice([None, None, None] + members))
    return message, rand.choice([made, made, edited(made)])


def bundle(entries):
    field = lambda data: len(data).to_bytes(2, "big") + data  # noqa: E731
    return len(entries).to_bytes(2, "big") + b"".join(field(message) + field(made) for message, made in entries)


def inputs(count):
    with open(os.path.join(TOP, "example", "bundle.bin"), "rb") as example:
        example = example.read()
    for number in range(count):
        made = bundle([entry() for _ in range(rand.choice([0, 1, 1, 2, 3, 8]))])
        yield [some_bytes(rand.randrange(40)), edited(example), made, edited(made)][number % 4]
    good = (b"\x0a", certificate(b"\x0a", [0, 1, 2]))
    yield from (b"", bytes(65536), bytes(65537), bytes(70000), bundle([good] * 256), bundle([good] * 257))


def main():
    count, different, kinds = 0, 0, collections.Counter()
    for data in inputs(int(sys.argv[1]) if len(sys.argv) > 1 else 25000):
        ran = subprocess.run([PROGRAM], input=data, capture_output=True)
        wanted = second_reader.verdicts(data)
        count += 1
        if (ran.stdout.decode(), ran.stderr, ran.returncode) != (wanted, b"", 0):
            different += 1
            print(f"differs: {data.hex()[:200]}: {ran.stdout[:80]} for {wanted[:80]!r}")
        for line in wanted.splitlines():
            words = line.split()
            kinds[" ".join(words[:3] if words[0] == "refused" else words[1:4])] += 1
    print("; ".join(f"{kind}: {times}" for kind, times in sorted(kinds.items())))
    print(f"{count} inputs, {different} differ")
    return different != 0


if __name__ == "__main__":
    sys.exit(main())
