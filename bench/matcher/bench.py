#!/usr/bin/env python3
"""Times single calls of the compiled matcher, through the program matcher_vectors.

Run at the root of the repository, after `rt run` in crates/matcher_vectors:  python3 bench/matcher/bench.py

Each case is a line of input, repeated; the time of lines of the same length whose case is trivial is taken away,
so that reading, decoding and printing do not count. The least processor time of many runs is printed, in microseconds
for a call; what is under 1 is lost in the noise.
"""
import resource
import subprocess
import tempfile

PROGRAM = "crates/matcher_vectors/out/matcher_vectors"
RUNS = 100

CASES = [
    ("fits, 8 `**` against 100 labels, fails", "f", b"/**/a" * 8 + b"/**/b", b"/a" * 100),
    ("fits, 9 `*` against 190 bytes, fails", "f", b"/*a*a*a*a*a*a*a*a*b", b"/" + b"a" * 190),
    ("fits, 16 `**` against 100 labels, fails", "f", b"/**/a" * 15 + b"/**/b", b"/a" * 100),
    ("fits, 99 `*` against 199 bytes, fails", "f", b"/" + b"*a" * 98 + b"*b", b"/" + b"a" * 199),
    ("fits, `**` and `*` together, fails", "f", b"/**/*a*a*b" * 15, b"/aaaa" * 40),
    ("fits, one `*` and 98 bytes against 199 bytes, fails", "f", b"/*" + b"a" * 98 + b"b", b"/" + b"a" * 199),
    ("fits, `**` and 31 labels against 100, fails", "f", b"/**" + b"/a*" * 30 + b"/b", b"/a" * 100),
    ("fits, a plain path of 60 bytes", "f", b"/north/*/field-2026-*/**/yield.csv", b"/north/harvest/field-2026-07-21/combine-3/rows/11/yield.csv"),
    ("reach, the same with 40 bytes known", "r", b"/north/*/field-2026-*/**/yield.csv", b"/north/harvest/field-2026-07-21/combine-3"),
    ("reach, 8 `**` and 100 labels known whole", "r", b"/**/a" * 8 + b"/**/b", b"/a" * 100 + b"\0"),
    ("path check, 200 bytes", "p", b"/" + b"a" * 199, b""),
    ("pattern check, 200 bytes", "q", b"/" + b"*a" * 99 + b"*", b""),
]


def seconds(lines):
    text = "".join(l + "\n" for l in lines).encode()
    assert len(text) <= 65536
    best = 1e9
    with tempfile.TemporaryFile() as f:
        f.write(text)
        for _ in range(RUNS):
            f.seek(0)
            before = resource.getrusage(resource.RUSAGE_CHILDREN)
            subprocess.run([PROGRAM], stdin=f, stdout=subprocess.DEVNULL, check=True)
            after = resource.getrusage(resource.RUSAGE_CHILDREN)
            best = min(best, after.ru_utime + after.ru_stime - before.ru_utime - before.ru_stime)
    return best


def main():
    for name, letter, a, b in CASES:
        line = f"{letter} {a.hex()} {b.hex() or '-'}"
        # a path that fails at its first byte, and the same bytes to read and to decode
        other = f"p {b'x'.hex()}{a[1:].hex()} {b.hex() or '-'}"
        n = 65536 // (len(line) + 1)
        each = (seconds([line] * n) - seconds([other] * n)) / n * 1e6
        print(f"{each:8.1f} us   {name}" if each >= 1 else f" under 1 us   {name}")


if __name__ == "__main__":
    main()
