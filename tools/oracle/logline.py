#!/usr/bin/env python3
"""Lines for crates/logline_vectors and what they must print, read from document 01 with Python's own strings and integers.

logline.py DIR writes DIR/stdin and DIR/stdout. A setup is printed as `setup ` and its three numbers as a reply, an addition as `add `
and its row (or `path over 200`), a search as `search `, its range and the length of its pattern as a reply, and the pattern; a line
that is misread as `misread`, one over 512 bytes as `long`. The last line lacks its 0A.
"""
import random
import re
import sys

NUMBER = re.compile(rb"0|[1-9][0-9]*")
REFERENCE = re.compile(rb"[0-9a-f]{40}")
REF = b"00112233445566778899aabbccddeeff01234567"


def number(field):
    n = int(field) if NUMBER.fullmatch(field) else None
    return n if n is not None and n < 2**64 else None


def read(line):
    """What a line is printed as."""
    if len(line) > 512:
        return b"long\n"
    if line.startswith(b"+,"):
        fields = line.split(b",", 3)
        if len(fields) == 4 and number(fields[1]) is not None and REFERENCE.fullmatch(fields[2]):
            if len(fields[3]) > 200:
                return b"add path over 200\n"
            return b"add -,%d,%s,%s\n" % (number(fields[1]), bytes.fromhex(fields[2].decode()).hex().encode(), fields[3])
    elif line.startswith(b"?,"):
        fields = line.split(b",", 3)
        if len(fields) == 4 and number(fields[1]) is not None and number(fields[2]) is not None:
            return b"search =,%d,%d,%d\n%s\n" % (number(fields[1]), number(fields[2]), len(fields[3]), fields[3])
    else:
        fields = line.split(b",")
        if len(fields) == 3 and all(number(f) is not None for f in fields):
            return b"setup =,%d,%d,%d\n" % tuple(number(f) for f in fields)
    return b"misread\n"


def padded(line, n):
    return line + b"x" * (n - len(line))


def known():
    """Every rule of document 01 from both sides."""
    top = str(2**64 - 1).encode()
    yield from (b"4,2,1", b"0,0,0", b"4096,8,100", top + b"," + top + b"," + top, b"18446744073709551609,1,1")
    # not three numbers
    yield from (b"", b",", b",,", b"4", b"4,2", b"4,2,", b"4,,1", b",2,1", b"4,2,1,", b"4,2,1,0", b"4;2;1", b"x,2,1", b"4,x,1", b"4,2,x")
    # not decimal, leading zeros, too large
    bad = (b"00", b"07", b"+4", b"-4", b" 4", b"4 ", b"4\r", b"\t4", b"0x4", b"1e3", b"4.", b"1_0", b"\xd9\xa4", b"18446744073709551616",
           b"18446744073709551620", b"18446744073709551700", b"28446744073709551615", b"99999999999999999999", b"100000000000000000000", b"9" * 300)
    for n in bad:
        yield from (n + b",2,1", b"4," + n + b",1", b"4,2," + n, b"+," + n + b"," + REF + b",/a", b"?," + n + b",9,/a", b"?,0," + n + b",/a")
    # additions
    for n in (b"0", b"7", b"10", b"255", b"256", b"4294967296", top):
        yield b"+," + n + b"," + REF + b",/north/pond"
    for path in (b"", b",", b",,,", b"/a,b,c", b"/a\r", b" ", b"/\x80\xff", bytes(range(11, 256)) + b"\x00", b"/" + b"y" * 199, b"/" + b"y" * 200, b"+,1"):
        yield b"+,7," + REF + b"," + path
        yield b"?,0,8," + path
    for ref in (b"", REF[:-1], REF + b"0", REF[:-1] + b"g", REF[:-1] + b"F", b"/" + REF[1:], b":" + REF[1:], b"`" + REF[1:], REF[:-1] + b" ", b"0" * 40, b"f" * 40, b"9" * 40, b"a" * 40):
        yield b"+,7," + ref + b",/a"
    yield from (b"+", b"+,", b"+,7", b"+,7,", b"+,7," + REF, b"+,,"  + REF + b",/a", b"+,7,,/a", b"++,7," + REF + b",/a", b" +,7," + REF + b",/a", b"+7," + REF + b",/a", b"+,7;" + REF + b",/a")
    # searches
    yield from (b"?,0,8,/**/edge", b"?,9,8,/a", b"?,0," + top + b",", b"?,0,8", b"?,0", b"?,", b"?", b"??,0,8,/a", b" ?,0,8,/a", b"?,,8,/a", b"?,0,,/a", b"?0,8,/a")
    # 511 to 514 bytes, and more
    for n in (511, 512, 513, 514, 1025, 3000):
        yield from (padded(b"?,0,8,/", n), padded(b"+,7," + REF + b",/", n), padded(b"4,2,1", n), b"," * n, b"\xff" * n)
    yield from (b"4,2,1", b"\r", b"4,2,1\r", b"\x00", b"4,2,1\x00")


def scrambled(rnd):
    """A sound line with one to three bytes put in, left out or changed."""
    n = lambda: str(rnd.choice([rnd.randrange(10), rnd.randrange(2**16), rnd.randrange(2**64), 2**64 + rnd.randrange(9)])).encode()
    ref = bytes(rnd.choice(b"0123456789abcdef") for _ in range(40))
    text = bytes(rnd.choice(b"/,*abc\x7f\x80\xff ") for _ in range(rnd.randrange(30)))
    line = bytearray(rnd.choice([n() + b"," + n() + b"," + n(), b"+," + n() + b"," + ref + b"," + text, b"?," + n() + b"," + n() + b"," + text]))
    for _ in range(rnd.choice([0, 0, 1, 2, 3])):
        at = rnd.randrange(len(line))
        what = rnd.randrange(3)
        if what == 0:
            line.insert(at, rnd.choice(b"0,+? g\r\xff"))
        elif what == 1 and len(line) > 1:
            del line[at]
        else:
            line[at] = rnd.choice(b"019,+?afAF \r")
    return bytes(line)


def main():
    rnd = random.Random(512)
    lines = list(known()) + [scrambled(rnd) for _ in range(400)] + [b"", b"5,6,7"]
    folder = sys.argv[1]
    assert all(b"\n" not in line for line in lines)
    open(folder + "/stdin", "wb").write(b"\n".join(lines))
    open(folder + "/stdout", "wb").write(b"begin\n" + b"".join(read(line) for line in lines))


main()
