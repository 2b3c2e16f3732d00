#!/usr/bin/env python3
"""Writes the input of crate nivruska_vectors, the rows of Table 1's nine keys, and what must be printed for it: Table 5 as the paper prints it, with
positions counted from its strings. Called as `table5.py DIRECTORY`."""
import pathlib
import sys

from fieldlog import printed_row
from paper import TABLE_1, TABLE_5, table_5_tuples


def nodes(number):
    """The nodes of a line of Table 5: how each branches, and one past its last path byte and its last value byte."""
    value = path = 0
    for v, p, *d in table_5_tuples(number)[:-1]:
        value, path = value + len(v), path + len(p)
        yield b"=,%d,%d,%d\n" % (d[0], path + 1, value + 1)


def main(folder):
    rows = {n: value + reference + bytes([len(path) - 1]) + path[:-1].ljust(200, b"\0") for n, (reference, value, path) in TABLE_1.items()}
    order = sorted(TABLE_5, key=lambda n: (TABLE_1[n][1], TABLE_1[n][2], TABLE_1[n][0]))
    out = b"=,0,0,0\n" + b"".join(b"=,0,%d,0\n" % (i + 1) for i in range(9))
    for number in order:
        out += printed_row(rows[number]) + b"\n" + b"".join(nodes(number))
    out += b"=,0,9,0\n"
    pathlib.Path(folder, "stdin").write_bytes(b"".join(rows[number] for number in sorted(rows)))
    pathlib.Path(folder, "stdout").write_bytes(out)


if __name__ == "__main__":
    main(sys.argv[1])
