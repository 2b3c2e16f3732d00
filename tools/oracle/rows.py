#!/usr/bin/env python3
"""The expected stdout of crates/rows_vectors, from document 01 alone: entries are tuples here, never bytes of rows.

Run: python3 tools/oracle/rows.py > crates/rows_vectors/stdout"""


def sequence(entry):
    value, path, mark, after = entry
    return (value, path + b"\0", bytes(19) + bytes([mark]), after)


def line(entry, wide):
    value, path, mark, after = entry
    text = f"{value},{path.decode()},{(bytes(19) + bytes([mark])).hex()}"
    return text + (f",{after:02x}" if wide else "")


def generated(count):
    x = 1
    for _ in range(count):
        x = (x * 1103515245 + 12345) % 2**31
        bits = x >> 16
        path = b"".join(b"/" + (b"b" if x >> (18 + k) & 1 else b"a") for k in range(bits % 4 + 1))
        yield (x >> 22) % 5, path, (x >> 25) % 3, bits % 251


def compared(a, b):
    word = "comes before" if sequence(a) < sequence(b) else "equals" if a == b else "comes after"
    same = "and is the same as" if a == b else "and is not the same as"
    print(line(a, False), word, same, line(b, False), sep="\n")


def sorted_records(count, width):
    wide = width > 229
    print(f"sort {count} of {width}\n010203")
    entries = [e if wide else e[:3] + (0,) for e in generated(count)]
    for e in sorted(entries, key=sequence):
        print(line(e, wide))
    print("04")


compared((7, b"/a", 9, 0), (7, b"/a/b", 1, 0))
compared((7, b"/a/b", 1, 0), (7, b"/a", 9, 0))
compared((7, b"/b", 0, 0), (7, b"/a/b", 0, 0))
compared((1, b"/z", 9, 0), (256, b"/a", 0, 0))
compared((5, b"/a", 2, 0), (5, b"/a", 1, 0))
compared((5, b"/a", 2, 0), (5, b"/a", 2, 0))
for count, width in [(0, 229), (1, 229), (2, 229), (3, 229), (100, 229), (1000, 229), (100, 860)]:
    sorted_records(count, width)
