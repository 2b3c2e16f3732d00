"""What document 000 prints, as data, and its definitions word for word: what check.py holds the index against.

Written key by key and with positions, as the paper does, and not node by node as index.py is.
"""
LEAF, V, P = 0, 1, 2
OTHER = {V: P, P: V}


def table_1_key(path, value, reference):
    """"`$` is the end byte; the five printed bytes of each reference are filled out with zeros"."""
    return (bytes.fromhex(reference).ljust(20, b"\0"), bytes.fromhex(value), path.replace("$", "\0").encode())


TABLE_1 = {
    1: table_1_key("/Sources/Map.go$", "00 00 00 00 5D A8 94 2A", "A1 A6 06 B0 B3"),
    2: table_1_key("/crypto/ecc.h$", "00 00 00 00 5F BD 8D C4", "D4 47 39 D8 F8"),
    3: table_1_key("/crypto/ecc.c$", "00 00 00 00 5F BD 8D C4", "D4 47 39 D8 F8"),
    4: table_1_key("/Sources/Schema.go$", "00 00 00 00 5D A8 94 8C", "41 D1 7A 7B 4D"),
    5: table_1_key("/fs/ext3/inode.c$", "00 00 00 00 5E F2 9C 59", "96 98 D9 F5 06"),
    6: table_1_key("/fs/ext4/inode.h$", "00 00 00 00 5E BD 23 C2", "FF CA AE 8F 57"),
    7: table_1_key("/fs/ext4/inode.c$", "00 00 00 00 5F BD 3D 5A", "68 8D 97 3C BE"),
    8: table_1_key("/Sources/Schedule.go$", "00 00 00 00 5D A8 97 8B", "99 07 EE 0A 7B"),
    9: table_1_key("/Sources/Scheduler.go$", "00 00 00 00 5D A8 97 8B", "99 07 EE 0A 7B"),
}

# keys: dsc(K, P), dsc(K, V)
TABLE_3 = {(1, 2, 3, 4, 5, 6, 7, 8, 9): (2, 5), (1, 4, 8, 9): (10, 7), (4, 8, 9): (14, 7), (8, 9): (18, 9), (9,): (23, 9)}

# key: its tuples (value bytes, path bytes, dimension), the last without a dimension
ROOT = ("00 00 00 00", "/", V)
TABLE_5 = {
    1: (ROOT, ("5D A8", "Sources/", P), ("94 2A", "Map.go$", LEAF), ("", "")),
    4: (ROOT, ("5D A8", "Sources/", P), ("", "Sche", V), ("94 8C", "ma.go$", LEAF), ("", "")),
    8: (ROOT, ("5D A8", "Sources/", P), ("", "Sche", V), ("97 8B", "dule", LEAF), ("", ".go$")),
    9: (ROOT, ("5D A8", "Sources/", P), ("", "Sche", V), ("97 8B", "dule", LEAF), ("", "r.go$")),
    5: (ROOT, ("5E", "fs/ext", LEAF), ("F2 9C 59", "3/inode.c$")),
    6: (ROOT, ("5E", "fs/ext", LEAF), ("BD 23 C2", "4/inode.h$")),
    2: (ROOT, ("5F BD", "", P), ("8D C4", "crypto/ecc.", LEAF), ("", "h$")),
    3: (ROOT, ("5F BD", "", P), ("8D C4", "crypto/ecc.", LEAF), ("", "c$")),
    7: (ROOT, ("5F BD", "", P), ("3D 5A", "fs/ext4/inode.c$", LEAF), ("", "")),
}


def table_5_tuples(number):
    """A line of Table 5 as bytes."""
    return [(bytes.fromhex(v), p.replace("$", "\0").encode(), *d) for v, p, *d in TABLE_5[number]]


def dsc(keys, d):
    """Definition 5, by Definition 2: the longest prefix that all share, and one."""
    length = len(keys[0][d])
    while any(key[d][:length] != keys[0][d][:length] for key in keys):
        length -= 1
    return length + 1


def psi(key, keys, d):
    """The part of Definition 6 that holds `key`; beyond the end all keys have the empty string there."""
    at = dsc(keys, d)
    return [other for other in keys if other[d][at - 1 : at] == key[d][at - 1 : at]]


def rho(key, keys, d, tau):
    """Definition 7, by the cases of Figure 1."""
    if len(keys) > tau and len(psi(key, keys, d)) < len(keys):
        return [(keys, d)] + rho(key, psi(key, keys, d), OTHER[d], tau)
    if len(keys) > tau and len(psi(key, keys, OTHER[d])) < len(keys):
        return rho(key, keys, OTHER[d], tau)
    return [(keys, LEAF)]


def interleaving(key, keys, tau):
    """Definition 8, its last value string corrected: tuples (value bytes, path bytes, dimension), the last without a dimension."""
    before = {V: 1, P: 1}
    tuples = []
    for part, dimension in rho(key, keys, V, tau):
        here = {d: dsc(part, d) for d in (V, P)}
        tuples.append((key[V][before[V] - 1 : here[V] - 1], key[P][before[P] - 1 : here[P] - 1], dimension))
        before = here
    return tuples + [(key[V][before[V] - 1 :], key[P][before[P] - 1 :])]


class Box:
    """A node that Algorithms 2 and 3 change in place."""

    def __init__(self, d, p, v, references=()):
        self.d, self.s, self.children, self.references = d, {P: p, V: v}, {}, list(references)

    def frozen(self):
        """As nested tuples: dimension, value bytes, path bytes, children by byte, references."""
        children = tuple((byte, child.frozen()) for byte, child in sorted(self.children.items()))
        return (self.d, self.s[V], self.s[P], children, tuple(self.references))


def insert(root, key):
    """Algorithm 2, line by line; positions counted from 0. Gives the root."""
    reference, k = key[0], {V: key[V], P: key[P]}
    if root is None:
        return Box(LEAF, k[P], k[V], [reference])
    above, n, g = None, root, {P: 0, V: 0}
    while True:
        i = {P: 0, V: 0}
        for d in (P, V):
            while i[d] < len(n.s[d]) and g[d] < len(k[d]) and n.s[d][i[d]] == k[d][g[d]]:
                g[d] += 1
                i[d] += 1
        if g[P] == len(k[P]) and g[V] == len(k[V]):
            n.references.append(reference)
            return root
        if i[P] < len(n.s[P]) or i[V] < len(n.s[V]):
            return restructure(root, reference, k, n, above, g, i)
        byte = k[n.d][g[n.d]]
        if byte not in n.children:
            n.children[byte] = Box(LEAF, k[P][g[P] :], k[V][g[V] :], [reference])
            return root
        above, n = n, n.children[byte]


def restructure(root, reference, k, n, above, g, i):
    """Algorithm 3, with the dimension of line 3 as document 01 has it: the one that the node above does not use."""
    if i[P] < len(n.s[P]) and i[V] == len(n.s[V]):
        d = P
    elif i[P] == len(n.s[P]) and i[V] < len(n.s[V]):
        d = V
    else:
        d = OTHER[above.d] if above else V
    parent = Box(d, n.s[P][: i[P]], n.s[V][: i[V]])
    sibling = Box(LEAF, k[P][g[P] :], k[V][g[V] :], [reference])
    n.s = {e: n.s[e][i[e] :] for e in (P, V)}
    parent.children = {sibling.s[d][0]: sibling, n.s[d][0]: n}
    if above is None:
        return parent
    above.children[parent.s[above.d][0]] = parent
    return root
