#!/usr/bin/env python3
"""The outside cases of crate `trie_build`: sets of rows, how they are split by paper.py, and the bytes of their levels by index.py.

trie_build.py stdin writes what trie_build_vectors reads, trie_build.py stdout what it must print. A set: tau, the kind of the node above (0 for
none), the number of its rows, its rows. The line before a level's bytes: the kind of the set's node, its positions in path and in value.
"""
import random
import sys

import paper
from index import build, encode, row, row_sequence

PATHS = (b"/a", b"/a/b", b"/a/b/c", b"/ab", b"/ab/c", b"/b", b"/\xff", b"/a" * 16, b"/" + b"z" * 199)


def random_set(source):
    """Few values, paths and references, so that many keys are equal in one dimension or in both."""
    return [
        (bytes(19) + bytes([source.randrange(3)]), source.choice((0, 1, 255, 256, 2**63, 2**64 - 1)).to_bytes(8, "big"), source.choice(PATHS) + b"\0")
        for _ in range(source.randrange(1, 13))
    ]


def table_3():
    """The sets of Table 3 with the nodes above them: the first four are the sets of key 9 (P4), partitioned by V, P, V and not at all."""
    for numbers, above in zip(paper.TABLE_3, (0, paper.V, paper.P, paper.V, 0)):
        yield 2, above, sorted((paper.TABLE_1[number] for number in numbers), key=row_sequence)


def sets():
    yield from table_3()
    table = sorted(paper.TABLE_1.values(), key=row_sequence)
    for tau in (1, 3, 9, 100):
        yield tau, 0, table
    yield 1, 0, []
    source = random.Random(4)
    for above, tau in zip((0, 0, 0, 0, 1, 2, 1, 2, 1), (1, 1, 1, 1, 2, 2, 2, 5, 100)):
        yield tau, above, sorted(random_set(source), key=row_sequence)


def split(keys, tau, above):
    """The positions are those of Definition 5; for the sets of Table 3 they are what the paper prints."""
    positions = paper.dsc(keys, paper.P), paper.dsc(keys, paper.V)
    printed = {tuple(sorted(paper.TABLE_1[n] for n in numbers)): pair for numbers, pair in paper.TABLE_3.items()}
    assert printed.get(tuple(sorted(keys)), positions) == positions
    return paper.rho(keys[0], keys, paper.OTHER.get(above, paper.V), tau)[0][1], *positions


def main():
    for tau, above, keys in sets():
        if sys.argv[1] == "stdin":
            sys.stdout.buffer.write(bytes([tau, above, len(keys)]) + b"".join(map(row, keys)))
        else:
            if keys:
                print(*split(keys, tau, above))
            print(encode(build(keys, tau)).hex() if keys else "")


main()
