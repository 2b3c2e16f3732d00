#!/usr/bin/env python3
"""Input for crates/trie_vectors and what it must print: tries drawn by the second program, node by node.

tries.py DIR writes DIR/stdin and DIR/stdout. The lines are described in crates/trie_vectors/src/main.rt. A trie is drawn by index.py's
nodes and never by their bytes, which are only counted. The seeds are fixed.
"""
import random
import sys

import paper
from index import LEAF, P, R, V, encode, with_key

KINDS = {LEAF: b"leaf", V: b"V", P: b"P"}


# Drawing


def text(path):
    """Path bytes as they are printed: `%` and two digits for one that would not be read as it stands."""
    return b"".join(bytes([b]) if 0x21 <= b <= 0x7E and b not in b'%"' else b"%%%02x" % b for b in path)


def strings(s):
    return b'%s "%s"' % (s[V].hex().encode(), text(s[P]))


def drawn(node, indent=0):
    """The lines of a node, its suffixes or its children, two spaces deeper each."""
    yield b"  " * indent + KINDS[node.dimension] + b" " + strings(node.strings)
    for suffix in node.suffixes:
        yield b"  " * (indent + 1) + b"- " + strings(suffix) + b" " + suffix[R].hex().encode()
    for child in node.children:
        yield from drawn(child, indent + 1)


def picture(trie):
    """How many bytes a trie has, and its lines; None is the empty trie."""
    return [b"%d bytes" % len(encode(trie))] + list(drawn(trie)) if trie else [b"0 bytes"]


# Sets: a title, keys in the sequence of their addition, and keys that are asked for and were never added


def key(value, reference, path):
    return (reference.to_bytes(20, "big"), value.to_bytes(8, "big"), path + b"\0")


def line(mark, k):
    return b"%s,%d,%s,%s" % (mark, int.from_bytes(k[V], "big"), k[R].hex().encode(), k[P][:-1])


LISTING = [key(7, 1, b"/north/pond"), key(7, 1, b"/north/edge"), key(9, 2, b"/south/edge")]

NINE = list(paper.TABLE_1.values())


def sequences(rnd):
    """The nine keys in five sequences: as in Table 1, the other way round, and three at random."""
    yield NINE
    yield NINE[::-1]
    for _ in range(3):
        yield rnd.sample(NINE, len(NINE))


def neighbours(k):
    """Keys that differ from k in one thing: another reference, another value, a longer and a shorter path."""
    reference, value, path = k
    yield (bytes([reference[0] ^ 1]) + reference[1:], value, path)
    yield (reference[:-1] + bytes([reference[-1] ^ 128]), value, path)
    yield (reference, value[:-1] + bytes([value[-1] ^ 1]), path)
    yield (reference, bytes([value[0] ^ 128]) + value[1:], path)
    yield (reference, value, path[:-1] + b"x\0")
    if len(path) > 3:
        yield (reference, value, path[:-2] + b"\0")


def distinct(make, n, rnd):
    """n different keys in the sequence in which they were made."""
    keys = {}
    while len(keys) < n:
        keys[make(rnd)] = None
    return list(keys)


FIELDS = [b"north", b"south", b"northwest", b"pond", b"pond1", b"pond12", b"edge", b"e", b"\xc3\xa9t\xc3\xa9", b"a b", b'"50%"']


def farm(rnd):
    """Few labels, values from two near clusters and anywhere: some values equal, some paths equal, some both."""
    path = b"".join(b"/" + rnd.choice(FIELDS) for _ in range(rnd.randint(1, 4)))
    value = rnd.choice([1700000000 + rnd.randrange(20), 1700000000 + 3600 * rnd.randrange(20), rnd.randrange(2**64)])
    return key(value, rnd.randrange(4), path)


def one_path(rnd):
    return key(rnd.choice([rnd.randrange(300), rnd.randrange(2**64)]), rnd.randrange(2**160), b"/north/pond/log")


def one_value(rnd):
    return key(7, rnd.randrange(2**160), b"/" + b"/".join(rnd.choice(FIELDS) for _ in range(rnd.randint(1, 5))))


def one_of_each(rnd):
    return key(2**64 - 1, rnd.randrange(2**160), b"/north/pond/log")


def prefixes(rnd):
    """Paths that begin one another, to the longest, of labels and inside a label; three values."""
    n = rnd.choice([2, 3, 4, 5, 20, 50, 100, 198, 199, 200])
    whole = rnd.choice([b"/a" * 100, b"/" + b"a" * 199])
    path = whole[: n if whole[n - 1 : n] != b"/" else n - 1]
    return key(rnd.choice([0, 1, 256]), rnd.randrange(3), path)


def few(rnd):
    """Two values and short paths over two letters: every split of a node occurs."""
    path = b"".join(b"/" + bytes(rnd.choice(b"ab") for _ in range(rnd.randint(1, 2))) for _ in range(rnd.randint(1, 2)))
    return key(rnd.choice([0x0101, 0x0102, 0x0201, 0x0202]), rnd.randrange(3), path)


def sets():
    rnd = random.Random(210)
    yield b"the empty trie", []
    yield b"the listing of document 01", LISTING
    for keys in sequences(rnd):
        yield b"the nine keys of Table 1", keys
    for title, make, n in [(b"farm", farm, 200), (b"one path", one_path, 60), (b"one value", one_value, 60),
                           (b"one path and value", one_of_each, 60), (b"prefixes", prefixes, 60), (b"few letters", few, 100)]:
        yield title, distinct(make, n, rnd)


# The files


def small_case(title, keys):
    """The lines of a set added one by one, asked for, and drawn, and what they print."""
    never = [n for k in keys[::7] for n in neighbours(k) if n not in keys]
    lines = [b"# " + title] + [line(b"+", k) for k in keys] + [line(b"?+", k) for k in keys + never] + [b""]
    trie = None
    for k in keys:
        trie = with_key(trie, k)
    return lines, [b"# " + title] + [b"1"] * len(keys) + [b"0"] * len(never) + picture(trie)


def main():
    given, printed = [], []
    for title, keys in sets():
        lines, answers = small_case(title, keys)
        given += lines
        printed += answers
    folder = sys.argv[1]
    open(folder + "/stdin", "wb").write(b"".join(l + b"\n" for l in given))
    open(folder + "/stdout", "wb").write(b"".join(l + b"\n" for l in printed))


main()
