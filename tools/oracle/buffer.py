#!/usr/bin/env python3
"""Cases for crates/buffer_vectors and what they must print, from Python's own slices and integers.

buffer.py DIR writes DIR/stdin and DIR/stdout. A case is 16 bytes: kind, three small numbers, 4 bytes not used, 8 bytes of data.
The state is 64 bytes, zero at first; after each case it is printed in hex. Kinds: 0 copy the data to a, 1 move c bytes from a
to b, 2 clear b bytes at a, 3 and 4 write the data as a number of 4 or 8 bytes at a and print the number that stands one byte
before. A case that does not fit changes and prints nothing but the state.
"""
import random
import sys

SIZE = 64


def case(kind, a=0, b=0, c=0, data=b""):
    return bytes([kind, a, b, c, 0, 0, 0, 0]) + data.ljust(8, b"\0")


def cases():
    rnd = random.Random(229)
    noise = lambda: bytes(rnd.randrange(256) for _ in range(8))
    for at in range(0, SIZE, 8):
        yield case(0, at, data=noise())
    # overlapping moves, both ways, and their edges
    for from_, to, n in [(0, 1, 63), (1, 0, 63), (0, 8, 40), (8, 0, 40), (0, 0, 64), (5, 5, 9), (0, 32, 32), (32, 0, 32), (64, 0, 0), (0, 64, 0)]:
        yield case(1, from_, to, n)
    # moves, clears and copies that do not fit
    yield from (case(1, 0, 1, 64), case(1, 1, 0, 64), case(1, 0, 0, 65), case(2, 60, 5), case(2, 0, 65), case(0, 57, data=noise()))
    yield from (case(0, 56, data=noise()), case(2, 64, 0), case(2, 63, 1), case(2, 10, 5))
    for x in [0, 1, 255, 256, 65535, 65536, 16777215, 16777216, 2**31, 2**32 - 1]:
        yield case(3, 60, data=x.to_bytes(4, "big"))
    for x in [0, 1, 2**32 - 1, 2**32, 2**56 - 1, 2**56, 2**63, 2**64 - 1]:
        yield case(4, 56, data=x.to_bytes(8, "big"))
    yield from (case(3, 0, data=noise()), case(3, 61, data=noise()), case(4, 57, data=noise()))
    for _ in range(300):
        yield case(rnd.randrange(5), rnd.randrange(66), rnd.randrange(66), rnd.randrange(66), noise())


def run(state, c):
    kind, a, b, n, data = c[0], c[1], c[2], c[3], c[8:]
    if kind == 0 and a + 8 <= SIZE:
        state[a : a + 8] = data
    if kind == 1 and a + n <= SIZE and b + n <= SIZE:
        state[b : b + n] = bytes(state[a : a + n])
    if kind == 2 and a + b <= SIZE:
        state[a : a + b] = bytes(b)
    width = {3: 4, 4: 8}.get(kind)
    if width and 1 <= a and a + width <= SIZE:
        state[a : a + width] = data[:width]
        yield str(int.from_bytes(state[a - 1 : a - 1 + width], "big"))
    yield state.hex()


def main(folder):
    state = bytearray(SIZE)
    every = list(cases())
    with open(f"{folder}/stdin", "wb") as f:
        f.write(b"".join(every))
    with open(f"{folder}/stdout", "w") as f:
        for c in every:
            for line in run(state, c):
                f.write(line + "\n")


main(sys.argv[1])
