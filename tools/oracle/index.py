"""Document 01's index and its book, written down in the obvious way: the program that the proved index is compared with.

Sentences in quotes are document 01's. Nothing here is fast: levels are partitioned set by set, the small trie is the entries added
one by one, the rows of a search are a filter over all entries. Patterns and paths are in patterns.py.

A key is (reference, value bytes, path bytes with the end byte), so that key[V] and key[P] are its bytes in a dimension.
"""
from typing import NamedTuple

from patterns import fits, path_fault, path_goes_on, pattern_fault, value_goes_on

LEAF, V, P = 0, 1, 2  # "1 for V, 2 for path, 0 for a leaf"
R = 0  # a key's place for the reference
BOTH = (V, P)
OTHER = {V: P, P: V}

ACCEPTED, ALREADY_THERE = 0, 100
REFERENCE_LENGTH, STORE, SETUP_LIMITS, SETUP_MEMORY, FULL, RANGE, ANSWER_SPACE = 3, 4, 5, 6, 9, 10, 11

ROW, RECORD, RECORD_NODES = 229, 860, 210
FRONT = 4096  # what stands before the small trie
ROOM = 1024  # what the store lends for one entry


# Entries


class Entry(NamedTuple):
    """"An entry is a path, a value and a reference." """

    path: bytes
    value: int
    reference: bytes


def key_of(entry):
    """"Inside the index an end byte 00 follows the path"; the value is "taken as 8 bytes, highest first"."""
    return (entry.reference, entry.value.to_bytes(8, "big"), entry.path + b"\0")


def row_sequence(key):
    """"Rows come by value, then path bytes (end byte included), then reference bytes." """
    return (key[V], key[P], key[R])


# Tries


class Node(NamedTuple):
    """A node of a level or of the small trie: dimension, its strings {V: .., P: ..}, children ascending by branching byte, and for
    a leaf its suffixes (keys of which only the rest is left): in row sequence in a level, as they were added in the small trie."""

    dimension: int
    strings: dict
    children: tuple = ()
    suffixes: tuple = ()


def branching_byte(node, child):
    """A child's string in its parent's dimension begins with the byte that leads to it."""
    return child.strings[node.dimension][0]


def key_rest(key, taken):
    """What remains of a key after the first taken[V] value bytes and the first taken[P] path bytes."""
    return (key[R], key[V][taken[V] :], key[P][taken[P] :])


# Building a level


def position(keys, d):
    """"the first position at which two of its keys differ, counted from 1; for keys all equal there, one past the end"."""
    columns = zip(*(key[d] for key in keys))  # to the shortest key's end; before it they differ, or all are equal
    for at, column in enumerate(columns, start=1):
        if len(set(column)) > 1:
            return at
    return len(keys[0][d]) + 1


def differs(keys, d):
    return any(key[d] != keys[0][d] for key in keys)


def parts(keys, d):
    """"Partitioning in a dimension groups keys by the byte at that position": the parts, ascending by that byte."""
    at = position(keys, d) - 1
    groups = {}
    for key in keys:
        groups.setdefault(key[d][at], []).append(key)
    return [groups[byte] for byte in sorted(groups)]


def chosen_dimension(keys, wanted, tau):
    """"A set with more than τ keys is partitioned in the wanted dimension if it differs there, else in the other if it differs
    there"; "until it has at most τ keys or differs in neither dimension; it is then a leaf"."""
    if len(keys) > tau:
        for d in (wanted, OTHER[wanted]):
            if differs(keys, d):
                return d
    return LEAF


BEGINNING = {V: 1, P: 1}  # the positions above a root


def build(keys, tau, wanted=V, above=BEGINNING):
    """The level of a set of keys in row sequence: "Start with the value dimension V", "The next wanted dimension is the one not
    just used", "A node carries the path and value bytes from its parent's discriminative positions up to, not including, its own
    (Definition 8). A leaf keeps what remains of each key." """
    own = {d: position(keys, d) for d in BOTH}
    strings = {d: keys[0][d][above[d] - 1 : own[d] - 1] for d in BOTH}
    dimension = chosen_dimension(keys, wanted, tau)
    if dimension == LEAF:
        taken = {d: own[d] - 1 for d in BOTH}
        return Node(LEAF, strings, suffixes=tuple(key_rest(key, taken) for key in keys))
    return Node(dimension, strings, tuple(build(part, tau, OTHER[dimension], own) for part in parts(keys, dimension)))


# The small trie


def small_leaf(rest):
    """"one path and value per leaf, with all their references"."""
    return Node(LEAF, {d: rest[d] for d in BOTH}, suffixes=((rest[R], b"", b""),))


def agreeing(string, bytes_):
    """The number of bytes before the first difference, or all of the string's where none differs."""
    at = 0
    while at < len(string) and string[at : at + 1] == bytes_[at : at + 1]:
        at += 1
    return at


def split(node, rest, agreed, dimension):
    """"a new parent takes, in each dimension, the node's bytes before the first difference, or all of them where none differs; the
    old node and a new leaf keep the rest"."""
    old = node._replace(strings={d: node.strings[d][agreed[d] :] for d in BOTH})
    new = small_leaf(key_rest(rest, agreed))
    strings = {d: node.strings[d][: agreed[d]] for d in BOTH}
    return Node(dimension, strings, tuple(sorted((old, new), key=lambda child: child.strings[dimension][0])))


def split_dimension(differing, above):
    """"The parent branches in the dimension that differs. If both differ, it branches in the dimension that the node above does
    not use, and at the root in V." """
    if len(differing) == 1:
        return differing[0]
    return V if above is None else OTHER[above]


def added(node, rest, above=None):
    """The trie at `node` with a key's rest added; `above` is the dimension of the node above, None at the root. "An addition walks
    down while strings agree." "If all strings agree and no child has the byte, a leaf is added." """
    agreed = {d: agreeing(node.strings[d], rest[d]) for d in BOTH}
    differing = [d for d in BOTH if agreed[d] < len(node.strings[d])]
    if differing:
        return split(node, rest, agreed, split_dimension(differing, above))
    rest = key_rest(rest, agreed)
    if node.dimension == LEAF:
        return node._replace(suffixes=node.suffixes + ((rest[R], b"", b""),))
    byte = rest[node.dimension][0]
    children = {branching_byte(node, child): child for child in node.children}
    children[byte] = added(children[byte], rest, node.dimension) if byte in children else small_leaf(rest)
    return node._replace(children=tuple(children[b] for b in sorted(children)))


def with_key(root, key):
    """The small trie with a key added; `root` is None where the trie is empty."""
    return small_leaf(key) if root is None else added(root, key)


# Searching and reading back


def joined(known, strings):
    """"The bytes known at a node are the strings from the root to it, its own included, joined in each dimension." """
    return {d: known[d] + strings[d] for d in BOTH}


NOTHING_KNOWN = {V: b"", P: b""}


def nodes_entered(node, pattern, low, high, known=NOTHING_KNOWN):
    """The number of nodes entered from `node` on, which is entered. "A child [...] is entered exactly when the bytes known at its
    parent, with the branching byte added, can be continued to a path that matches and a value in range." """
    known = joined(known, node.strings)
    count = 1
    for child in node.children:
        seen = dict(known)
        seen[node.dimension] += bytes([branching_byte(node, child)])
        if value_goes_on(low, high, seen[V]) and path_goes_on(pattern, seen[P]):
            count += nodes_entered(child, pattern, low, high, known)
    return count


def walks(node, known=NOTHING_KNOWN, steps=()):
    """For each key of a trie: the key and the steps (dimension, path position, value position) from the root to its leaf. A node's
    positions are one past the bytes known at it."""
    known = joined(known, node.strings)
    steps += ((node.dimension, len(known[P]) + 1, len(known[V]) + 1),)
    for suffix in node.suffixes:
        yield (suffix[R], known[V] + suffix[V], known[P] + suffix[P]), steps
    for child in node.children:
        yield from walks(child, known, steps)


def row(key):
    """"A row has 229 bytes: value 8, reference 20, path length 1, path with zeros to 200." """
    path = key[P][:-1]
    return key[V] + key[R] + bytes([len(path)]) + path.ljust(200, b"\0")


def record(key, steps):
    """"the row [...], then in one byte the number of nodes from the root to the entry's leaf, then three bytes a node [...], zeros
    up to 210 nodes"."""
    return row(key) + bytes([len(steps)]) + b"".join(map(bytes, steps)).ljust(3 * RECORD_NODES, b"\0")


# The store's bytes (docs/STORE-FORMAT.md)


def encode(node):
    """A node, 7 bytes and its strings, then its body: its children, or a leaf's suffixes of 22 bytes and their strings."""
    body = b"".join(map(encode, node.children))
    for suffix in node.suffixes:
        body += bytes([len(suffix[V]), len(suffix[P])]) + suffix[R] + suffix[V] + suffix[P]
    value, path = node.strings[V], node.strings[P]
    return bytes([node.dimension, len(value), len(path)]) + len(body).to_bytes(4, "big") + value + path + body


def need(m, l):
    """"A store needs 1,024 × M × 2^L + 4,096 bytes." """
    return ROOM * m * 2**l + FRONT


# The book


class Book:
    """"It has M, L, τ and a sequence of entries, oldest first; held is their number." Each call is given the length lent and
    answers (number, first, second), a search and a reading back also the answer buffer's bytes afterwards."""

    def __init__(self):
        """Before the first accepted setup there is no M, L and τ (READINGS 2): everything but setup is 4."""
        self.m = self.l = self.tau = None
        self.strike_out()

    def strike_out(self):
        """No entries, and no tries built from them: `levels` and `latest` only spare building a trie twice."""
        self.entries, self.known = [], set()
        self.levels, self.latest = {}, (0, None)

    def held(self):
        return len(self.entries)

    def limit(self):
        """"The store can hold M × 2^L − 1." """
        return self.m * 2**self.l - 1

    def is_short(self, length):
        """"4 holds exactly where the length lent is below the need for the book's M and L"."""
        return self.m is None or length < need(self.m, self.l)

    def setup(self, length, m, l, tau):
        """Checks "5, 6"; "an accepted setup notes M, L and τ and strikes out all entries"."""
        if not (1 <= m <= 4096 and 1 <= l <= 8 and 1 <= tau <= 100):
            return SETUP_LIMITS, 0, 0
        if length < need(m, l):
            return SETUP_MEMORY, 0, 0
        self.m, self.l, self.tau = m, l, tau
        self.strike_out()
        return ACCEPTED, 0, 0

    def add(self, length, path, value, reference):
        """Checks "4, 2, 1, 3, 9, then 100"; "an accepted addition (neither refused nor 100) puts its entry last"."""
        if self.is_short(length):
            return STORE, 0, 0
        if path_fault(path):
            return path_fault(path), 0, 0
        if len(reference) != 20:
            return REFERENCE_LENGTH, 0, 0
        if self.held() == self.limit():
            return FULL, 0, 0
        entry = Entry(bytes(path), value, bytes(reference))
        if entry in self.known:
            return ALREADY_THERE, self.held(), 0
        self.entries.append(entry)
        self.known.add(entry)
        return ACCEPTED, self.held(), 0

    def search(self, length, pattern, low, high, answer):
        """Checks "4, 8, 7, 10, 11"; "rows and nodes"."""
        if self.is_short(length):
            return STORE, 0, 0, answer
        if pattern_fault(pattern):
            return pattern_fault(pattern), 0, 0, answer
        if low > high:
            return RANGE, 0, 0, answer
        rows = self.rows(pattern, low, high)
        nodes = sum(nodes_entered(trie, pattern, low, high) for trie in self.tries() if trie)
        return self.filled(rows, ROW, nodes, answer)

    def read_level(self, length, level, answer):
        """Checks "4, 11"; "It returns the row count and zero. A level that is empty, or numbered L or above, gives no rows." """
        if self.is_short(length):
            return STORE, 0, 0, answer
        trie = self.level_trie(level)
        found = sorted(walks(trie), key=lambda walk: row_sequence(walk[0])) if trie else []
        return self.filled([record(key, steps) for key, steps in found], RECORD, 0, answer)

    def filled(self, rows, size, second, answer):
        """11 is "rows × 229 (for a level read back, × 860) above the answer buffer's length" and "returns the row count and zero".
        "Bytes after the last row, record or line are unchanged." """
        if len(rows) * size > len(answer):
            return ANSWER_SPACE, len(rows), 0, answer
        written = b"".join(rows)
        return ACCEPTED, len(rows), second, written + answer[len(written) :]

    def rows(self, pattern, low, high):
        """"the entries whose path matches and whose value is in range", in row sequence."""
        found = [e for e in self.entries if low <= e.value <= high and fits(pattern, e.path)]
        return [row(key) for key in sorted(map(key_of, found), key=row_sequence)]

    def level_span(self, level):
        """Which entries lie in a level, as (first, one past the last): "level i holds M × 2^i entries where binary digit i of held
        ÷ M, rounded down, is 1, and none otherwise"; "the earlier ones lie in the levels by the rule of digits, oldest in the
        highest"."""
        full = self.held() // self.m
        above = full >> (level + 1) << (level + 1)
        return above * self.m, (above + (full & 1 << level)) * self.m

    def level_trie(self, level):
        """The trie of a level, None where it is empty."""
        first, end = span = self.level_span(level) if level < self.l else (0, 0)
        if first == end:
            return None
        if self.levels.get(level, (None, None))[0] != span:
            keys = sorted(map(key_of, self.entries[first:end]), key=row_sequence)
            self.levels[level] = (span, build(keys, self.tau))
        return self.levels[level][1]

    def small(self):
        """"The last entries, as many as held ÷ M leaves over, added in sequence make the small trie"; None where there are none."""
        first = self.held() // self.m * self.m
        done, trie = self.latest if self.latest[0] > first else (first, None)
        for entry in self.entries[done:]:
            trie = with_key(trie, key_of(entry))
        self.latest = (self.held(), trie)
        return trie

    def tries(self):
        """The small trie and levels 0 to L − 1; None for one that is empty."""
        return [self.small()] + [self.level_trie(level) for level in range(self.l)]

    def image(self):
        """The store's bytes up to its need, as docs/STORE-FORMAT.md says; no bytes before the first accepted setup."""
        if self.m is None:
            return b""
        front = b"".join(n.to_bytes(4, "big") for n in (self.m, self.l, self.tau, self.held()))
        regions = [ROOM * self.m] + [ROOM * self.m * 2**level for level in range(self.l)]
        bytes_of = [encode(trie) if trie else b"" for trie in self.tries()]
        return front.ljust(FRONT, b"\0") + b"".join(b.ljust(size, b"\0") for b, size in zip(bytes_of, regions))
