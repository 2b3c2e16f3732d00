"""Plainer programs, and random inputs, to hold the second program against: check.py runs every function here named check_*.

Patterns as regular expressions, continuation by listing all paths and all values, levels and small tries as paper.py has them.
"""
import itertools
import re

import paper
from index import (BOTH, FRONT, LEAF, NOTHING_KNOWN, P, R, RECORD, ROOM, ROW, V, Book, Entry, Node, branching_byte, encode, joined, key_of, need,
                   row_sequence, walks)
from patterns import LABEL_BYTES, fits, path_goes_on, pattern_fault, value_goes_on

ALL = 2**64 - 1
PLENTY = 1 << 24  # a length that is enough for every store below
JUNK = bytes(range(7, 250)) * 2000


def reference(n):
    return n.to_bytes(20, "big")


def book_of(m, l, tau, entries=()):
    book = Book()
    assert book.setup(PLENTY, m, l, tau) == (0, 0, 0)
    for held, (path, value, ref) in enumerate(entries, start=1):
        assert book.add(PLENTY, path, value, ref) == (0, held, 0)
    return book


def rows_of(book, pattern, low=0, high=ALL):
    """The rows of an accepted search as (value, path, reference), and its nodes."""
    number, rows, nodes, after = book.search(PLENTY, pattern, low, high, JUNK)
    assert number == 0 and after[rows * ROW :] == JUNK[rows * ROW :]
    cut = [after[at : at + ROW] for at in range(0, rows * ROW, ROW)]
    assert all(r[29 + r[28] :] == bytes(200 - r[28]) for r in cut)
    return [(int.from_bytes(r[:8], "big"), r[29 : 29 + r[28]], r[8:28]) for r in cut], nodes


# Plainer programs


def all_formed(letters, longest):
    """Every formed path over some letters, up to a length, by plain enumeration."""
    for length in range(2, longest + 1):
        for rest in itertools.product(letters + b"/", repeat=length - 1):
            text = b"/" + bytes(rest)
            if b"//" not in text and text[-1:] != b"/":
                yield text


def regular(pattern):
    """A pattern as one regular expression, a second meaning for Definition 3."""
    out = b""
    for label in pattern.split(b"/")[1:]:
        out += b"(?:/[^/]+)*" if label == b"**" else b"/(?=[^/])" + re.escape(label).replace(rb"\*", b"[^/]*")
    return re.compile(out, re.DOTALL)


def beginnings(pattern, longest, letters=b"ab"):
    """All that begins a path of at most `longest` bytes that fits, the end byte included."""
    fitting = [path + b"\0" for path in all_formed(letters, longest) if regular(pattern).fullmatch(path)]
    return {path[:n] for path in fitting for n in range(len(path) + 1)}


def formed_patterns(letters, longest):
    return [text for text in all_formed(letters + b"*", longest) if pattern_fault(text) == 0]


def check_fits_and_goes_on(rnd):
    """All patterns of up to 5 bytes over a and `*`: known bytes of up to 4 bytes can be continued exactly when some path of up to
    10 bytes begins with them and fits; a path that fits after n known bytes need not be longer than n + 1 + the pattern."""
    known = [bytes(k) for n in range(5) for k in itertools.product(b"/ab\0*", repeat=n)]
    for pattern in formed_patterns(b"a", 5):
        begun = beginnings(pattern, 10)
        for text in known:
            assert path_goes_on(pattern, text) == (text in begun), (pattern, text)
    paths = list(all_formed(b"ab", 7))
    for pattern in rnd.sample(formed_patterns(b"ab", 7), 300) + [b"/**/a/**/b", b"/**/**", b"/*/**/*", b"/a*b*a/**"]:
        meaning = regular(pattern)
        assert all(fits(pattern, path) == bool(meaning.fullmatch(path)) for path in rnd.sample(paths, 100)), pattern


def check_label_bytes():
    assert len(LABEL_BYTES) == 221
    for b in range(256):
        allowed = (32 <= b <= 126 or 128 <= b <= 255) and b != 47 and b != 42
        assert (Book.add(book_of(1, 1, 1), PLENTY, bytes([47, b]), 0, reference(0))[0] == 0) == allowed
        assert (pattern_fault(bytes([47, b])) == 0) == (allowed or b == 42) and path_goes_on(b"/**", bytes([47, b])) == allowed


def check_value_goes_on(rnd):
    for _ in range(2000):
        low, high = sorted(rnd.choice([rnd.randrange(600), rnd.randrange(2**16)]) for _ in BOTH)
        some = rnd.choice([low, high, rnd.randrange(600), rnd.randrange(2**16)]).to_bytes(8, "big")[: rnd.randrange(9)]
        begun = [v for v in range(low, high + 1) if v.to_bytes(8, "big").startswith(some)] if high - low < 700 else None
        if begun is not None:
            assert value_goes_on(low, high, some) == bool(begun)
    assert value_goes_on(0, 0, b"") and value_goes_on(ALL, ALL, b"\xff" * 8) and not value_goes_on(0, ALL, bytes(9))


def random_path(rnd, letters, longest):
    """Labels of one to three of the letters, cut to a length."""
    labels = [bytes(rnd.choices(letters, k=rnd.randint(1, 3))) for _ in range(rnd.randint(1, 4))]
    return (b"/" + b"/".join(labels))[: rnd.randint(2, longest)].rstrip(b"/")


def random_entries(rnd, count, letters, longest, values):
    """Distinct entries; with few letters and values, paths and values repeat and references tell entries apart."""
    found = {}
    while len(found) < count:
        found[Entry(random_path(rnd, letters, longest), rnd.choice(values), reference(rnd.randrange(2 + len(found))))] = None
    return list(found)


def random_values(rnd):
    return rnd.choice([[5], range(3), range(250, 262), [n << 8 * rnd.randrange(7) for n in range(40)], [rnd.randrange(2**64) for _ in range(30)]])


def frozen(node):
    """A node of index.py in the form of paper.Box.frozen."""
    children = tuple((branching_byte(node, child), frozen(child)) for child in node.children)
    return (node.dimension, node.strings[V], node.strings[P], children, tuple(s[R] for s in node.suffixes))


def tuples_of(node, so_far=()):
    """For each key of a trie its interleaving: the strings of its nodes, then its suffix."""
    so_far += ((node.strings[V], node.strings[P], node.dimension),)
    for suffix in node.suffixes:
        whole = [b"".join(t[at] for t in so_far) for at in (0, 1)]
        yield (suffix[R], whole[0] + suffix[V], whole[1] + suffix[P]), list(so_far) + [(suffix[V], suffix[P])]
    for child in node.children:
        yield from tuples_of(child, so_far)


def record_by_definition(key, keys, tau):
    """A record from Definitions 5 and 7 alone: the sets that a key belongs to, and their discriminative positions."""
    steps = [(d, paper.dsc(part, P), paper.dsc(part, V)) for part, d in paper.rho(key, keys, V, tau)]
    path = key[P][:-1]
    return b"".join([key[V], key[R], bytes([len(path)]), path.ljust(200, b"\0"), bytes([len(steps)]), bytes(sum(steps, ())).ljust(630, b"\0")])


def decode(data, at):
    """The node that stands at `at` and where it ends, read as docs/STORE-FORMAT.md says."""
    d, v, p, body = data[at], data[at + 1], data[at + 2], int.from_bytes(data[at + 3 : at + 7], "big")
    strings = {V: data[at + 7 : at + 7 + v], P: data[at + 7 + v : at + 7 + v + p]}
    at += 7 + v + p
    end, children, suffixes = at + body, [], []
    while at < end:
        if d != LEAF:
            child, at = decode(data, at)
            children.append(child)
        else:
            v, p = data[at], data[at + 1]
            suffixes.append((data[at + 2 : at + 22], data[at + 22 : at + 22 + v], data[at + 22 + v : at + 22 + v + p]))
            at += 22 + v + p
    assert at == end
    return Node(d, strings, tuple(children), tuple(suffixes)), end


def image_holds(book):
    """The image decodes to the book's tries, each in its region with zeros after it, within 245 bytes an entry and 210 nodes."""
    image, m = book.image(), book.m
    assert len(image) == need(m, book.l) and image[:16] == b"".join(n.to_bytes(4, "big") for n in (m, book.l, book.tau, book.held()))
    assert image[16:FRONT] == bytes(FRONT - 16)
    starts = [FRONT] + [FRONT + ROOM * m * 2**i for i in range(book.l)] + [len(image)]
    for trie, start, end in zip(book.tries(), starts, starts[1:]):
        stop = start
        if trie:
            again, stop = decode(image, start)
            assert again == trie and encode(again) == image[start:stop]
            found = list(walks(trie))
            assert stop - start <= 245 * len(found) and max(len(steps) for _, steps in found) <= 210
        assert image[stop:end] == bytes(end - stop)


def tries_hold(book):
    """Levels by the rule of digits, each key's way by Definitions 7 and 8; the small trie by Algorithms 2 and 3; no entry lost."""
    small, *levels = book.tries()
    oldest_first, rest = [], book.held() // book.m
    for i in reversed(range(book.l)):
        expected = book.m * 2**i if rest // 2**i % 2 else 0
        keys = [key_of(e) for e in book.entries[len(oldest_first) : len(oldest_first) + expected]]
        oldest_first += keys
        assert (levels[i] is None) == (expected == 0)
        if levels[i]:
            found = dict(tuples_of(levels[i]))
            assert sorted(found) == sorted(keys) and all(found[key] == paper.interleaving(key, keys, book.tau) for key in keys)
            records = b"".join(record_by_definition(key, keys, book.tau) for key in sorted(keys, key=row_sequence))
            assert book.read_level(PLENTY, i, JUNK) == (0, len(keys), 0, records + JUNK[len(records) :])
    box = None
    latest = [key_of(e) for e in book.entries[len(oldest_first) :]]
    assert len(latest) == book.held() % book.m
    for key in latest:
        box = paper.insert(box, key)
    assert (small is None and box is None) or frozen(small) == box.frozen()
    assert sorted(key for key, _ in walks(small)) == sorted(latest) if small else latest == []


def rows_in_trie(node, pattern, low, high, known=NOTHING_KNOWN):
    """What a walk through the trie finds that enters only the children the rule admits, as Algorithm 1 does."""
    known = joined(known, node.strings)
    for suffix in node.suffixes:
        path, value = known[P] + suffix[P], int.from_bytes(known[V] + suffix[V], "big")
        if low <= value <= high and regular(pattern).fullmatch(path[:-1]):
            yield (value, path[:-1], suffix[R])
    for child in node.children:
        seen = dict(known)
        seen[node.dimension] += bytes([branching_byte(node, child)])
        if value_goes_on(low, high, seen[V]) and path_goes_on(pattern, seen[P]):
            yield from rows_in_trie(child, pattern, low, high, known)


def search_holds(book, pattern, low, high):
    """Rows: a filter by regular expression, and what a pruned walk finds."""
    rows, nodes = rows_of(book, pattern, low, high)
    meaning = regular(pattern)
    assert rows == sorted((e.value, e.path, e.reference) for e in book.entries if low <= e.value <= high and meaning.fullmatch(e.path))
    walked = [found for trie in book.tries() if trie for found in rows_in_trie(trie, pattern, low, high)]
    assert sorted(walked) == rows and nodes <= 2 * book.held()


def children_with_known(node, known=NOTHING_KNOWN):
    """For every child below a node, entered or not: the bytes known at its parent with the branching byte added."""
    known = joined(known, node.strings)
    for child in node.children:
        seen = dict(known)
        seen[node.dimension] += bytes([branching_byte(node, child)])
        yield seen
        yield from children_with_known(child, known)


def check_node_counts(rnd):
    """Paths of up to 5 bytes, patterns of up to 4, values below 600: continuation by listing all paths and all values."""
    patterns = formed_patterns(b"a", 4)
    begun = {pattern: beginnings(pattern, 10) for pattern in patterns}
    for _ in range(40):
        entries = random_entries(rnd, rnd.randrange(1, 24), b"ab", 5, rnd.choice([[5], range(3), range(250, 262), range(600)]))
        book = book_of(rnd.randrange(1, 30), 5, rnd.randrange(1, 4), entries)
        children = [seen for trie in book.tries() if trie for seen in children_with_known(trie)]
        roots = sum(trie is not None for trie in book.tries())
        for pattern in rnd.sample(patterns, 12):
            low, high = sorted(rnd.choice([rnd.randrange(4), rnd.randrange(248, 264), rnd.randrange(600)]) for _ in BOTH)
            values = {v.to_bytes(8, "big")[:n] for v in range(low, high + 1) for n in range(9)}
            admitted = sum(seen[V] in values and seen[P] in begun[pattern] for seen in children)
            assert rows_of(book, pattern, low, high)[1] == roots + admitted, (entries, pattern, low, high)


def random_pattern(rnd, letters, entries):
    """A pattern over the letters, or made from a held path by putting stars in."""
    if rnd.random() < 0.5 or not entries:
        labels = [rnd.choice([b"**", b"*", bytes(rnd.choices(letters + b"*", k=rnd.randint(1, 3)))]) for _ in range(rnd.randint(1, 4))]
    else:
        labels = [rnd.choice([label, label, b"*", b"**", label[:1] + b"*"]) for label in rnd.choice(entries).path.split(b"/")[1:]]
    return b"/" + b"/".join(labels)


def check_random_books(rnd):
    for _ in range(60):
        letters = rnd.choice([b"ab", b"abcdefgh", b" -/a\x80\xff".replace(b"/", b"")])
        m, l, tau = rnd.choice([1, 2, 3, 5, 8, 40, 60]), rnd.randint(1, 4), rnd.choice([1, 1, 2, 3, 100])
        count = rnd.randrange(min(m * 2**l, 60))
        values = random_values(rnd)
        entries = random_entries(rnd, count, letters, rnd.choice([3, 6, 14]), values)
        book = book_of(m, l, tau, entries)
        image_holds(book)
        tries_hold(book)
        for _ in range(12):
            pattern = random_pattern(rnd, letters, entries)
            ends = [rnd.choice([0, ALL, rnd.choice(list(values)), rnd.randrange(2**64)]) for _ in BOTH]
            if pattern_fault(pattern) == 0:
                search_holds(book, pattern, *sorted(ends))


# "Sequence of checks", and the reasons, as a list to look up
SEQUENCE = {"setup": (5, 6), "add": (4, 2, 1, 3, 9, 100), "search": (4, 8, 7, 10, 11), "read_level": (4, 11)}
LABEL = rb"[\x20-\x29\x2b-\x2e\x30-\x7e\x80-\xff]"
PATH = re.compile(rb"(?:/%b+)+" % LABEL)
PATTERN = re.compile(rb"(?:/(?:\*\*|(?=[^/])\*?(?:%b+\*)*%b*))+" % (LABEL, LABEL))


def reasons(kind, arguments, length, front, entries):
    """Which numbers have their reason; `front` is (M, L, τ) or None, `entries` those accepted since the latest accepted setup."""
    holds = {4: front is None or length < 1024 * front[0] * 2 ** front[1] + 4096}
    if kind == "setup":
        m, l, tau = arguments
        holds[5] = m not in range(1, 4097) or l not in range(1, 9) or tau not in range(1, 101)
        holds[6] = not holds[5] and length < 1024 * m * 2**l + 4096
    if kind == "add":
        path, value, ref = arguments
        holds.update({2: len(path) > 200, 1: not PATH.fullmatch(path), 3: len(ref) != 20, 100: Entry(*arguments) in entries})
        holds[9] = front is not None and len(entries) == front[0] * 2 ** front[1] - 1
    if kind == "search":
        pattern, low, high, answer = arguments
        holds.update({8: len(pattern) > 200 or pattern.count(b"/") > 32, 7: not PATTERN.fullmatch(pattern), 10: low > high})
        sound = not (holds[8] or holds[7] or holds[10])
        holds[11] = sound and 229 * sum(low <= e.value <= high and bool(regular(pattern).fullmatch(e.path)) for e in entries) > len(answer)
    if kind == "read_level":
        level, answer = arguments
        there = front is not None and level < front[1] and len(entries) // front[0] >> level & 1
        holds[11] = there and 860 * front[0] * 2**level > len(answer)
    return holds


def random_call(rnd):
    """A call of any kind, often with a fault or two."""
    kind = rnd.choice(["setup"] + ["add"] * 12 + ["search"] * 4 + ["read_level"] * 2)
    odd = rnd.random() < 0.2
    answer = JUNK[: rnd.choice([0, 228, 229, 860, 1718, 1720, 20000])]
    texts = [b"", b"/", b"//", b"/a" * 33, b"/a" * 100, b"/" * 201, b"/a**b", b"/***", b"/\x7f", b"/a\0", b"a", b"/" + b"b" * 200]
    if kind == "setup":
        m, l, tau = rnd.choice([1, 2, 3, 9]), rnd.randint(1, 3), rnd.randint(1, 3)
        return kind, rnd.choice([(0, l, tau), (m, 9, tau), (m, l, 101), (4096, 8, tau), (2**64 - 1, l, tau)]) if odd else (m, l, tau)
    if kind == "add":
        path = rnd.choice(texts) if odd else random_path(rnd, b"ab", 3)
        return kind, (path, rnd.randrange(3), reference(rnd.randrange(2))[: 19 if rnd.random() < 0.05 else 20])
    if kind == "search":
        pattern = rnd.choice(texts) if odd else random_pattern(rnd, b"ab", [])
        return kind, (pattern, rnd.randrange(3), rnd.randrange(1, 4), answer)
    return kind, (rnd.choice([0, 0, 1, 2, 3, ALL]), answer)


def check_random_calls(rnd):
    """Lists of calls with any length lent: the number, the values of calls that have no rows, and that refusals change nothing."""
    seen = {}
    for _ in range(60):
        book, front, entries = Book(), None, []
        for _ in range(60):
            length = rnd.choice([0, 15, 16, 5000, 8191, 8192] + [PLENTY] * 20)
            kind, arguments = random_call(rnd)
            holds = reasons(kind, arguments, length, front, entries)
            number = next((n for n in SEQUENCE[kind] if holds[n]), 0)
            before = book.image()
            answer = getattr(book, kind)(length, *arguments)
            assert answer[0] == number, (kind, arguments, length, answer, number)
            seen[kind, number] = seen.get((kind, number), 0) + 1
            if (kind, number) == ("setup", 0):
                front, entries = arguments, []
            elif (kind, number) == ("add", 0):
                entries.append(Entry(*arguments))
            else:
                assert book.image() == before
            if kind in ("setup", "add"):
                assert answer[1:] == (len(entries) if (kind, number) in (("add", 0), ("add", 100)) else 0, 0)
            elif number:
                assert answer[3] == arguments[-1] and answer[2] == 0 and (answer[1] == 0 or number == 11)
            if front:
                assert book.entries == entries
                image_holds(book)
                tries_hold(book)
    assert {pair for pair in seen} == {(kind, n) for kind, numbers in SEQUENCE.items() for n in (0, *numbers)}, seen


def deepest_entries():
    """A chain that branches in every byte but the first and last: at each path byte from 2 to 200 and each value byte one key
    leaves the trunk. Depth 208 in the small trie and in a level."""
    trunk = b"/" + b"a" * 199
    yield Entry(trunk, 0, reference(0))
    for at in range(1, 200):
        yield Entry(trunk[:at] + b"b" + trunk[at + 1 :], 0, reference(0))
    for byte in range(8):
        yield Entry(trunk, 1 << 8 * byte, reference(0))


def check_deepest():
    for m in (208, 209):
        book = book_of(m, 1, 1, deepest_entries())
        image_holds(book)
        trie = next(trie for trie in book.tries() if trie)
        assert max(len(steps) for _, steps in walks(trie)) == 208, m
        assert len(rows_of(book, b"/**")[0]) == 208


def check_thousands(rnd):
    """Some thousands of entries, in levels and in the small trie."""
    entries = random_entries(rnd, 3000, b"abcdefgh", 14, range(10**6, 10**6 + 5000))
    for m, l in [(1000, 2), (4096, 1)]:
        book = book_of(m, l, 2, entries)
        image_holds(book)
        search_holds(book, b"/**/a*/*b", 10**6 + 100, 10**6 + 2000)
