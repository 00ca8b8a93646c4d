#!/usr/bin/env python3
"""What the program `verdicts` does, in Python, written from README.md and docs/ alone: a bundle on standard input, verdicts out.

    crates/verdicts/out/verdicts < example/bundle.bin | diff - <(python3 tools/second_reader.py < example/bundle.bin)
"""
import sys
P = 65521
KEYS = [2, 3, 5, 7]
N = 4
QUORUM = N - (N - 1) // 3
BOUND = min(N, 64)
W = 4
NS = b""


class Fault(Exception):
    def __init__(self, no, layer, place):
        self.t = (no, layer, place)


def be(b):
    return int.from_bytes(b, "big")


def varint(b):
    """('end',) | ('bad',) | ('ok', number, size)"""
    v = 0
    for i in range(5):
        if i >= len(b):
            return ("end",)
        v |= (b[i] & 127) << (7 * i)
        if b[i] < 128:
            if (i > 0 and b[i] == 0) or v >= 1 << 32:
                return ("bad",)
            return ("ok", v, i + 1)
    return ("bad",)


def write_varint(v):
    out = bytearray()
    while v >= 128:
        out.append(v % 128 + 128)
        v //= 128
    out.append(v)
    return bytes(out)


def read_certificate(c):
    if len(c) < 8:
        raise Fault(8, 1, 0)
    length = be(c[:8])
    if length > BOUND:
        raise Fault(9, 1, 0)
    nb = (length + 7) // 8
    if len(c) - 8 < nb:
        raise Fault(8, 1, 8)
    bits = c[8:8 + nb]
    members = [i for i in range(8 * nb) if bits[i // 8] >> (i % 8) & 1]
    if any(i >= length for i in members):
        raise Fault(10, 1, 8)
    if not members:
        raise Fault(10, 3, 0)
    C = 8 + nb
    r = varint(c[C:])
    if r[0] == "end":
        raise Fault(8, 2, C)
    if r[0] == "bad":
        raise Fault(10, 2, C)
    count, size = r[1], r[2]
    if count > BOUND:
        raise Fault(9, 2, C)
    at = C + size
    sigs = []
    for _ in range(count):
        if len(c) - at < W:
            raise Fault(8, 2, at)
        sigs.append(c[at:at + W])
        at += W
    if count != len(members):
        raise Fault(10, 3, C)
    if at != len(c):
        raise Fault(11, 3, at)
    return length, members, sigs


def accepted(cert, message):
    length, members, sigs = cert
    if length != N or len(sigs) != len(members) or len(members) < QUORUM:
        return False
    h = be(write_varint(len(NS)) + NS + message) % P
    return all(be(s) < P and be(s) == KEYS[m] * h % P for m, s in zip(members, sigs))


def read_bundle(b):
    if len(b) > 65536:
        raise Fault(9, 4, 65536)
    if len(b) < 2:
        raise Fault(8, 4, 0)
    count = be(b[:2])
    if count > 256:
        raise Fault(9, 4, 0)
    p = 2
    entries = []
    for _ in range(count):
        if len(b) - p < 2:
            raise Fault(8, 4, p)
        ml = be(b[p:p + 2])
        if ml > 1024:
            raise Fault(9, 4, p)
        if len(b) - p - 2 < ml:
            raise Fault(8, 4, p + 2)
        q = p + 2 + ml
        if len(b) - q < 2:
            raise Fault(8, 4, q)
        cl = be(b[q:q + 2])
        if len(b) - q - 2 < cl:
            raise Fault(8, 4, q + 2)
        entries.append((b[p + 2:q], q + 2, b[q + 2:q + 2 + cl]))
        p = q + 2 + cl
    if p != len(b):
        raise Fault(11, 4, p)
    return entries


def verdicts(b):
    try:
        entries = read_bundle(b)
    except Fault as f:
        return "refused %d %d %d\n" % f.t
    out = []
    for i, (msg, at, c) in enumerate(entries):
        try:
            cert = read_certificate(c)
        except Fault as f:
            no, layer, place = f.t
            out.append("%d false %d %d %d\n" % (i, no, layer, place + at))
            continue
        out.append("%d %s\n" % (i, "true" if accepted(cert, msg) else "false"))
    return "".join(out)


if __name__ == "__main__":
    sys.stdout.write(verdicts(sys.stdin.buffer.read()))
