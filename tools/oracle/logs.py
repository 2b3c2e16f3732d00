#!/usr/bin/env python3
"""Writes the input of crate fieldlog, and what must be printed for it: logs one after another, each begun by a setup of its own.
Called as `logs.py DIRECTORY`: DIRECTORY/stdin and DIRECTORY/stdout."""
import pathlib
import random
import sys

import fieldlog

REF = b"%040x"
EXAMPLE = b"""4,2,1
+,7,0000000000000000000000000000000000000001,/north/pond
+,7,0000000000000000000000000000000000000001,/north/edge
+,9,0000000000000000000000000000000000000002,/south/edge
?,0,8,/**/edge
"""
ALL = b"?,0,18446744073709551615,/**\n"


def add(value, reference, path):
    return b"+,%d,%s,%s\n" % (value, REF % reference, path)


def setup(m, l, tau):
    return b"%d,%d,%d\n" % (m, l, tau)


def before_setup():
    """Number 4: the store is all zero at first."""
    return add(1, 1, b"/a") + ALL + b"?,2,1,/*\n" + add(1, 1, b"a")


def limits():
    """Paths of 200 and 201 bytes, 32 and 33 labels, M x 2^L - 1 entries and one more, refused setups and ranges."""
    log = setup(1, 2, 1) + add(1, 1, b"/" + b"p" * 199) + add(1, 2, b"/" + b"p" * 200)
    log += b"?,0,9," + b"/*" * 32 + b"\n" + b"?,0,9," + b"/*" * 33 + b"\n" + b"?,0,9,/" + b"p" * 199 + b"\n" + b"?,0,9,/" + b"p" * 200 + b"\n"
    log += add(2, 3, b"/x") + add(3, 4, b"/y") + add(3, 4, b"/y") + add(4, 5, b"/z") + ALL + b"?,9,1,/**\n"
    for m, l, tau in [(0, 1, 1), (4097, 1, 1), (1, 0, 1), (1, 9, 1), (1, 1, 0), (1, 1, 101), (61, 1, 1), (2**64 - 1, 1, 1), (30, 1, 1)]:
        log += setup(m, l, tau) + ALL
    log += b"".join(add(i, i, b"/f/%d" % (i % 7)) + (ALL if i % 10 == 9 else b"") for i in range(61)) + ALL
    return log + setup(60, 1, 1) + add(0, 0, b"/") + add(2**64 - 1, 2**160 - 1, b"/a,b,,c") + ALL


def misread():
    """Every way a line can be misread, lines of 512 and 513 bytes, each of the 256 bytes in a path and a pattern."""
    bad = [b"", b",", b"+", b"?", b"+,", b"1", b"1,2", b"1,2,3,4", b"01,2,3", b"1,02,3", b"1,2,03", b"1,2,3 ", b" 1,2,3", b"1,2,", b",2,3", b"-1,2,3"]
    bad += [b"18446744073709551616,1,1", b"1,18446744073709551616,1", b"99999999999999999999999,1,1", b"+,1", b"+,1," + b"0" * 40, b"+,1," + b"0" * 39 + b",/a"]
    bad += [b"+,1," + b"0" * 41 + b",/a", b"+,1," + b"A" * 40 + b",/a", b"+,1," + b"g" * 40 + b",/a", b"+,x," + b"0" * 40 + b",/a", b"++,1," + b"0" * 40 + b",/a"]
    bad += [b"?,1,2", b"?,1,,/a", b"?,,2,/a", b"?,1,2a,/a", b"??,1,2,/a", b"?,18446744073709551616,1,/a", b"\xff,1,2", b"1,2,3\r", b"#"]
    good = [b"+,1," + b"0" * 40 + b",", b"?,1,2,", b"?,0,0,/a,b", b"?,007,1,/a", b"+,0," + b"0" * 40 + b",/0"]
    log = setup(2, 2, 2) + b"".join(line + b"\n" for line in bad + good)
    for n in (511, 512, 513, 514, 1023, 1024, 5000):
        log += b"?,0,1,/" + b"a" * (n - 7) + b"\n"
    for b in range(256):
        if b != 10:
            log += setup(1, 1, 1) * (b % 8 == 0) + add(b, b, b"/b/" + bytes([b]) + b"x") + b"?,0,999,/b/" + bytes([b]) + b"*\n"
    return log


def season(rnd):
    """A random log: few labels, values and references, so that many are equal."""
    m, l = rnd.choice([(1, 2), (1, 5), (3, 4), (7, 3), (7, 3), (15, 2), (30, 1), (60, 1)])
    log = setup(m, l, rnd.choice([1, 1, 2, 3, 100]))
    added = []
    labels = [b"a", b"b", b"ab", b"ba", b"field", b"map", b"\xc3\xa9", b"x" * 30]
    for _ in range(rnd.randrange(20, 90)):
        path = b"".join(b"/" + rnd.choice(labels) for _ in range(rnd.randrange(1, 6)))
        value = rnd.choice([0, 1, 2, 255, 256, 65535, 2**32, 2**63, 2**64 - 1, rnd.randrange(1000)])
        kind = rnd.random()
        if kind < 0.1 and added:
            log += rnd.choice(added)
        elif kind < 0.6:
            added.append(add(value, rnd.randrange(3), path))
            log += added[-1]
        else:
            low, high = sorted([rnd.choice([0, 1, 200, 256]), rnd.choice([1, 255, 2**32, 2**64 - 1])])
            pattern = b"".join(b"/" + rnd.choice([b"**", b"*", b"a*", b"*b", b"*a*", rnd.choice(labels)]) for _ in range(rnd.randrange(1, 5)))
            log += b"?,%d,%d,%s\n" % (low, high, pattern)
    return log + ALL


def main(folder):
    rnd = random.Random(6)
    log = before_setup() + EXAMPLE + limits() + misread() + b"".join(season(rnd) for _ in range(40)) + b"?,0,1,/no/line/end"
    pathlib.Path(folder, "stdin").write_bytes(log)
    pathlib.Path(folder, "stdout").write_bytes(fieldlog.run(log))


if __name__ == "__main__":
    main(sys.argv[1])
