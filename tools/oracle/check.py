#!/usr/bin/env python3
"""Holds the second program against document 01's own examples, then against plainer programs on random inputs (cross.py).

check.py [seed] runs every function named check_* here and there; the first assertion that fails ends it.
"""
import random
import sys

import cross
import fieldlog
import paper
from cross import ALL, JUNK, PLENTY, book_of, reference, rows_of
from index import LEAF, P, R, RECORD, V, Book, build, need, position, row, row_sequence, walks
from patterns import fits, path_goes_on, pattern_fault, value_goes_on


# Document 01's examples


LISTING_IN = b"""4,2,1
+,7,0000000000000000000000000000000000000001,/north/pond
+,7,0000000000000000000000000000000000000001,/north/edge
+,9,0000000000000000000000000000000000000002,/south/edge
?,0,8,/**/edge
"""
LISTING_OUT = b"""=,0,0,0
=,0,1,0
=,0,2,0
=,0,3,0
-,7,0000000000000000000000000000000000000001,/north/edge
=,0,1,4
"""


def check_fieldlog_listing():
    assert fieldlog.run(LISTING_IN) == LISTING_OUT
    assert fieldlog.run(LISTING_IN[:-1]) == LISTING_OUT


def check_fieldlog_lines():
    """READINGS 26 to 30, each line after a setup 1,1,1."""
    ref = b"0" * 40
    for line, number in [
        (b"", 12), (b"+", 12), (b"+,7," + ref, 12), (b"+,7," + ref + b",", 1), (b"?,0,8", 12), (b"?,0,8,", 7), (b"4,2,1,", 12), (b"4,2", 12),
        (b"00,2,1", 12), (b"+4,2,1", 12), (b" 4,2,1", 12), (b"4,2,1\r", 12), (b"0,2,1", 5), (b"4294967300,2,1", 5), (b"30,1,1", 0),
        (b"31,1,1", 6),
        (b"18446744073709551615,2,1", 5), (b"18446744073709551616,2,1", 12), (b"+,07," + ref + b",/a", 12), (b"+,7," + ref[1:] + b",/a", 12),
        (b"+,7," + b"0" * 41 + b",/a", 12), (b"+,7," + b"A" * 40 + b",/a", 12), (b"+,7," + ref + b",/a\r", 1), (b"+,7," + ref + b",/a,b", 0),
        (b"+,18446744073709551615," + ref + b",/a", 0), (b"?,9,8,/a", 10), (b"?,0,8,/a**b", 7), (b"?,0,8,/a,*", 0), (b"?, 0,8,/a", 12),
        (b"-,7," + ref + b",/a", 12), (b"?,0,8," + b"/a" * 33, 8), (b"+,7," + ref + b",/" + b"a" * 200, 2),
        (b"+,7," + ref + b",/" + b"a" * (512 - 46), 2), (b"+,7," + ref + b",/" + b"a" * (513 - 46), 12),
    ]:
        values = b"1,0" if (number, line[:1]) == (0, b"+") else b"0,0"
        assert fieldlog.run(b"1,1,1\n" + line + b"\n") == b"=,0,0,0\n=,%d,%s\n" % (number, values), line
    assert fieldlog.run(b"") == b"" and fieldlog.run(b"\n") == b"=,12,0,0\n" and fieldlog.run(b"a\n\n") == b"=,12,0,0\n" * 2
    assert fieldlog.run(b"?,9,8,//\n+,1," + ref + b",/a\n") == b"=,4,0,0\n" * 2, "before the first setup"
    assert fieldlog.run(b"2,1,1\n" + (b"+,1," + ref + b",/a\n") * 2).endswith(b"=,0,1,0\n=,100,1,0\n")


def check_p1_to_p12_and_table_3():
    key = paper.TABLE_1
    for numbers, expected in paper.TABLE_3.items():
        keys = [key[n] for n in numbers]
        assert (position(keys, P), position(keys, V)) == expected
    assert len(paper.TABLE_3) == 5  # P1, P2 and P3 are lines of Table 3
    sets = paper.rho(key[9], list(key.values()), V, 2)
    assert [(len(keys), d) for keys, d in sets] == [(9, V), (4, P), (3, V), (2, LEAF)]  # P4, and by the index itself:
    steps = dict(walks(build(sorted(key.values(), key=row_sequence), 2)))[key[9]]
    assert steps == ((V, 2, 5), (P, 10, 7), (V, 14, 7), (LEAF, 18, 9))
    assert fits(b"/**/pond*/*.c", b"/north/pond3/map.c")  # P5
    assert not fits(b"/**/pond*/*.c", b"/north/pond3/sub/map.c")  # P6
    assert not fits(b"/a*a", b"/a") and fits(b"/a*a", b"/aa")  # P7, P8
    assert fits(b"/north/**", b"/north")  # P9
    assert not path_goes_on(b"/fs/*", b"/gs/")  # P10
    assert not value_goes_on(256, 300, bytes(7)) and value_goes_on(255, 300, bytes(7))  # P11, P12


def check_table_5():
    """"Table 5 whole (a level read back, M 9, L 1, τ 2)": each key's record, from the strings that the table prints."""
    book = book_of(9, 1, 2, [(k[P][:-1], int.from_bytes(k[V], "big"), k[R]) for k in paper.TABLE_1.values()])
    expected = []
    for number in sorted(paper.TABLE_1, key=lambda n: row_sequence(paper.TABLE_1[n])):
        key, tuples = paper.TABLE_1[number], paper.table_5_tuples(number)
        assert paper.interleaving(key, list(paper.TABLE_1.values()), 2) == tuples
        lengths = [(sum(len(t[1]) for t in tuples[:i]), sum(len(t[0]) for t in tuples[:i])) for i in range(1, len(tuples))]
        steps = [(t[2], p + 1, v + 1) for t, (p, v) in zip(tuples, lengths)]
        expected.append(row(key) + bytes([len(steps)]) + bytes(sum(steps, ())).ljust(630, b"\0"))
    assert book.read_level(PLENTY, 0, JUNK) == (0, 9, 0, b"".join(expected) + JUNK[9 * RECORD :])
    assert book.read_level(PLENTY, 0, JUNK[: 9 * RECORD - 1]) == (11, 9, 0, JUNK[: 9 * RECORD - 1])
    assert book.read_level(PLENTY, 1, b"") == book.read_level(PLENTY, ALL, b"") == (0, 0, 0, b"")
    assert [len(k) for k in expected] == [RECORD] * 9 and book.tries()[0] is None


def check_where_a_reader_goes_astray():
    assert fits(b"/**/a/b", b"/a/a/b")
    book = book_of(4, 1, 1, [(b"/a/b", 1, reference(1)), (b"/a", 1, reference(1)), (b"/a", 256, reference(1))])
    assert rows_of(book, b"/**")[0] == [(1, b"/a", reference(1)), (1, b"/a/b", reference(1)), (256, b"/a", reference(1))]
    assert [r[0] for r in rows_of(book, b"/**", 2, 256)[0]] == [256]
    # inside a label: root /no, children r and t; /north* rules out t, whose label is not complete
    book = book_of(4, 1, 1, [(b"/north/x", 1, reference(1)), (b"/note/x", 1, reference(1))])
    assert rows_of(book, b"/north*/**")[1] == 2 and rows_of(book, b"/no*/x")[1] == 3
    # the child's own string is not looked at before entering it: r is entered for /nora, and no row comes
    assert rows_of(book, b"/nora/x") == ([], 2)
    assert rows_of(book, b"/zzz") == ([], 1), "a root is entered whatever it says"


def check_table_of_refusals():
    """The examples, the numbers before them in the sequence of checks, and that nothing changes."""
    ok = dict(path=b"/a", value=1, reference=reference(1))
    book = book_of(4, 2, 1, [(b"/a", 1, reference(1))])
    image = book.image()
    for number, length, change in [
        (1, PLENTY, dict(path=b"/north//pond")), (1, PLENTY, dict(path=b"", reference=b"")), (1, PLENTY, dict(path=b"/")),
        (1, PLENTY, dict(path=b"/a\x7f")), (1, PLENTY, dict(path=b"/a*")), (1, PLENTY, dict(path=b"a/b")), (1, PLENTY, dict(path=b"/a/")),
        (1, PLENTY, dict(path=b"/\0")), (2, PLENTY, dict(path=b"/" + b"a" * 200)), (2, PLENTY, dict(path=b"/" * 201)),
        (3, PLENTY, dict(reference=bytes(19))), (3, PLENTY, dict(reference=bytes(21))), (4, 15, {}),
        (4, need(4, 2) - 1, dict(path=b"/" * 201)), (100, need(4, 2), {}),
    ]:
        assert book.add(length, **{**ok, **change}) == (number, int(number == 100), 0)
    for number, length, pattern, low, high, space in [
        (7, PLENTY, b"/a**b", 9, 8, 0), (7, PLENTY, b"/***", 0, 1, 0), (7, PLENTY, b"", 0, 1, 0), (7, PLENTY, b"/a//b", 0, 1, 0),
        (7, PLENTY, b"/\0", 0, 1, 0), (8, PLENTY, b"/a" * 33, 9, 8, 0), (8, PLENTY, b"/" * 33, 0, 1, 0), (8, PLENTY, b"/" + b"a" * 200, 0, 1, 0),
        (10, PLENTY, b"/a", 9, 8, 0), (4, 15, b"//", 9, 8, 0), (11, PLENTY, b"/a", 0, 8, 228), (0, PLENTY, b"/b", 0, 8, 0),
        (0, PLENTY, b"/a" * 32, 0, 8, 0),
    ]:
        expected = (number, int(number == 11), int(number == 0), JUNK[:space])
        assert book.search(length, pattern, low, high, JUNK[:space]) == expected
    for number, length, m, l, tau in [
        (5, 0, 0, 2, 1), (5, PLENTY, 2**32 + 4, 2, 1), (5, PLENTY, 4097, 1, 1), (5, PLENTY, 1, 0, 1), (5, PLENTY, 1, 9, 1), (5, PLENTY, 1, 1, 0),
        (5, PLENTY, 1, 1, 101), (6, 20479, 4, 2, 1),
    ]:
        assert book.setup(length, m, l, tau) == (number, 0, 0)
    assert book.image() == image and book.setup(20480, 4, 2, 1) == (0, 0, 0) and book.image() == book_of(4, 2, 1).image() != image
    full = book_of(1, 1, 1, [(b"/a", 1, reference(1))])
    assert full.add(PLENTY, b"/b", 1, reference(1)) == full.add(PLENTY, b"/a", 1, reference(1)) == (9, 0, 0)
    new = Book()
    assert new.add(PLENTY, **ok) == new.search(PLENTY, b"/a", 0, 1, b"")[:3] == new.read_level(PLENTY, 0, b"")[:3] == (4, 0, 0)
    assert new.setup(PLENTY, 4097, 1, 1) == (5, 0, 0) and new.add(PLENTY, **ok) == (4, 0, 0) and new.image() == b""


def check_longest():
    """A path of 200 and of 201 bytes, 32 and 33 labels, a path of 100 labels, M × 2^L − 1 entries and one more."""
    longest, many = b"/" + b"a" * 199, b"/a" * 100
    book = book_of(1, 2, 1, [(longest, ALL, reference(1)), (many, 0, reference(1))])
    assert book.add(PLENTY, longest + b"a", 1, reference(1)) == (2, 0, 0)
    assert rows_of(book, b"/**")[0] == [(0, many, reference(1)), (ALL, longest, reference(1))]
    assert [pattern_fault(b"/a" * n) for n in (32, 33)] == [0, 8] and rows_of(book, b"/**" + b"/*" * 31)[0] == [(0, many, reference(1))]
    assert fits(b"/**/a" * 16, many) and not fits(b"/**/a" * 15 + b"/b", many)
    assert path_goes_on(longest + b"*b", longest) and not path_goes_on(longest + b"*b", longest + b"\0")
    for m, l in [(1, 1), (1, 3), (2, 2), (3, 2), (5, 1), (59, 1)]:
        limit = m * 2**l - 1
        book = book_of(m, l, 1, [(b"/p%d" % (n % 7), n // 2, reference(n)) for n in range(limit)])
        assert book.add(PLENTY, b"/x", 0, reference(0)) == (9, 0, 0) and book.held() == limit
        assert len(rows_of(book, b"/**")[0]) == limit


def main(seed):
    for name, check in [*globals().items(), *vars(cross).items()]:
        if name.startswith("check_"):
            print(name, flush=True)
            check(random.Random(seed)) if check.__code__.co_argcount else check()
    print("all hold")


if __name__ == "__main__":
    main(int(sys.argv[1]) if len(sys.argv) > 1 else 1)
