#!/usr/bin/env python3
"""Runs the program `fieldlog` on logs that arrive in pieces of every size, and compares what it prints with fieldlog.py's.
Called as `pieces.py PROGRAM [LOGS]`."""
import random
import subprocess
import sys

import fieldlog
import logs


def printed(program, log, rnd):
    """What the program prints for a log that is written in pieces: a piece may end anywhere, at a line's end or within a number."""
    with subprocess.Popen([program], stdin=subprocess.PIPE, stdout=subprocess.PIPE) as run:
        at, out = 0, []
        largest = rnd.choice([1, 3, 60, 4095, 4096, 4097, 100000])
        if largest < 60:
            log = log[:3000]
        while at < len(log):
            piece = log[at : at + rnd.randint(1, largest)]
            run.stdin.write(piece)
            run.stdin.flush()
            at += len(piece)
        run.stdin.close()
        out = run.stdout.read()
    return log, out


def edges():
    """Empty input, lines without an end, lines whose 512th and 513th byte stand on both sides of a seam of 4,096."""
    yield from (b"", b"\n", b"\n\n", b"4,2,1", b"4,2,1\n", b"x", b"?,0,1,/a", logs.EXAMPLE, logs.EXAMPLE[:-1], logs.misread(), logs.limits())
    for n in (511, 512, 513, 514, 4096, 9000):
        for before in (3583, 3584, 3585, 4095, 4096):
            yield b"#" * 400 + b"\n" + b"#" * (before - 402) + b"\n" + b"?,0,1,/" + b"a" * (n - 7) + b"\n4,2,1\n" + logs.ALL


def main(program, count):
    rnd = random.Random(12)
    cases = list(edges()) + [logs.before_setup() + logs.season(rnd) for _ in range(count)]
    for number, log in enumerate(cases):
        given, out = printed(program, log, rnd)
        if out != fieldlog.run(given):
            sys.exit(f"log {number} differs")
    print(f"{len(cases)} logs, all alike")


if __name__ == "__main__":
    main(sys.argv[1], int(sys.argv[2]) if len(sys.argv) > 2 else 60)
