#!/usr/bin/env python3
"""Cases for crates/matcher_vectors with their answers, written apart from the definitions in specs/.

Forms are tested by splitting at `/`. Whether a path matches, and what known bytes say, is decided by a set of
states that walks along the bytes. Each small random case is decided a second time: `fits` by a regular
expression, `reach` by trying every path over a small alphabet; the two must agree.

Run it at the root of the repository: it writes stdin and stdout of crates/matcher_vectors. The seed is fixed.

A case is a line: a letter and one or two byte strings in hex (`-` for none). The answer is a line: the letter and a number.
    p PATH              document 01's number for a path: 0, 1, 2
    q PATTERN           document 01's number for a pattern: 0, 7, 8
    f PATTERN PATH      1 if the path matches, 0 if not
    r PATTERN KNOWN     2 match, 1 incomplete, 0 mismatch
"""
import itertools
import random
import re

END = 0
SLASH = ord("/")
STAR = ord("*")
LABEL_BYTES = frozenset(range(0x20, 0x7F)) | frozenset(range(0x80, 0x100))
LABEL_BYTES -= {SLASH, STAR}


def labels(text):
    return text.split(b"/")[1:]


def path_formed(path):
    return path[:1] == b"/" and all(l and set(l) <= LABEL_BYTES for l in labels(path))


def path_number(path):
    if len(path) > 200:
        return 2
    return 0 if path_formed(path) else 1


def pattern_label_formed(l):
    return l == b"**" or (l and set(l) <= LABEL_BYTES | {STAR} and b"**" not in l)


def pattern_number(pattern):
    if len(pattern) > 200 or pattern.count(b"/") > 32:
        return 8
    return 0 if pattern[:1] == b"/" and all(map(pattern_label_formed, labels(pattern))) else 7


# A state is ("between", i): labels from i on of the pattern are left, and a label of the path has ended;
# ("deep", i, some): inside a label that the `**` at i takes; ("in", i, j, some): inside a label, at j of the
# pattern's label i; "done": after the end byte. `some` says whether the path's label has a byte yet.
def closure(states, ls):
    todo, seen = list(states), set(states)
    while todo:
        s = todo.pop()
        more = []
        if s[0] == "between" and s[1] < len(ls) and ls[s[1]] == b"**":
            more = [("between", s[1] + 1)]
        elif s[0] == "deep" and s[2]:
            more = [("between", s[1])]
        elif s[0] == "in":
            if s[2] < len(ls[s[1]]) and ls[s[1]][s[2]] == STAR:
                more = [("in", s[1], s[2] + 1, s[3])]
            elif s[2] == len(ls[s[1]]) and s[3]:
                more = [("between", s[1] + 1)]
        for m in more:
            if m not in seen:
                seen.add(m)
                todo.append(m)
    return seen


def step(states, ls, c):
    out = set()
    for s in states:
        if s[0] == "between":
            if s[1] == len(ls):
                if c == END:
                    out.add(("done",))
            elif c == SLASH:
                out.add(("deep", s[1], False) if ls[s[1]] == b"**" else ("in", s[1], 0, False))
        elif s[0] == "deep":
            if c in LABEL_BYTES:
                out.add(("deep", s[1], True))
        elif s[0] == "in" and s[2] < len(ls[s[1]]) and c in LABEL_BYTES:
            if ls[s[1]][s[2]] == STAR:
                out.add(("in", s[1], s[2], True))
            elif ls[s[1]][s[2]] == c:
                out.add(("in", s[1], s[2] + 1, True))
    return closure(out, ls)


def walk(pattern, text):
    ls = labels(pattern)
    states = closure({("between", 0)}, ls)
    for i, c in enumerate(text):
        states = step(states, ls, c) if i > 0 or c == SLASH else set()
    return states, ls


def reach(pattern, known):
    if pattern_number(pattern) != 0:
        return 0
    states, ls = walk(pattern, known)
    if ("done",) in states:
        return 2
    letters = {SLASH, END, ord("x")} | (set(pattern) & LABEL_BYTES)
    seen = set()
    while states - seen:
        seen |= states
        states = set().union(*(step(states, ls, c) for c in letters))
    return 1 if ("done",) in seen else 0


def fits(pattern, path):
    return int(pattern_number(pattern) == 0 and path_number(path) == 0 and ("done",) in walk(pattern, path + b"\0")[0])


# the second opinion, for small cases over the letters a and b
def expression(pattern):
    parts = []
    for l in labels(pattern):
        if l == b"**":
            parts.append(rb"(?:/[^/]+)*")
        else:
            parts.append(b"/" + b"".join(b"[^/]*" if c == STAR else re.escape(bytes([c])) for c in l))
    return re.compile(b"".join(parts), re.DOTALL)


def fits_by_expression(pattern, path):
    return int(pattern_number(pattern) == 0 and path_number(path) == 0 and bool(expression(pattern).fullmatch(path)))


PATHS = [bytes(t) for n in range(2, 10) for t in itertools.product(b"/ab", repeat=n)]
PATHS = [p for p in PATHS if path_formed(p)]


def reach_by_trial(pattern, known):
    if pattern_number(pattern) != 0:
        return 0
    e = expression(pattern)
    some = [p for p in PATHS if (p + b"\0").startswith(known) and e.fullmatch(p)]
    if not some:
        return 0
    return 2 if known[-1:] == b"\0" else 1


def random_label(r, letters, most):
    return bytes(r.choice(letters) for _ in range(r.randint(1, most)))


def random_pattern(r):
    ls = []
    for _ in range(r.randint(1, 3)):
        ls.append(b"**" if r.random() < 0.3 else random_label(r, b"aab*", 3))
    return b"".join(b"/" + l for l in ls)


def random_path(r):
    return b"".join(b"/" + random_label(r, b"aab", 2) for _ in range(r.randint(1, 4)))


def damaged(r, text):
    """text with one byte put in, taken out or changed"""
    t = bytearray(text)
    i = r.randint(0, len(t))
    c = r.choice(b"/*a\x00\x1f\x20\x7e\x7f\x80\xff")
    kind = r.randint(0, 2)
    if kind == 0 or i == len(t):
        t.insert(i, c)
    elif kind == 1:
        del t[i]
    else:
        t[i] = c
    return bytes(t)


def named():
    yield "P5 to P9"
    yield "f", b"/**/pond*/*.c", b"/north/pond3/map.c"
    yield "f", b"/**/pond*/*.c", b"/north/pond3/sub/map.c"
    yield "f", b"/a*a", b"/a"
    yield "f", b"/a*a", b"/aa"
    yield "f", b"/north/**", b"/north"
    yield "P10"
    yield "r", b"/fs/*", b"/gs/"
    yield "where a reader of the paper goes astray: `**` tried again, pruning in the middle of a label"
    yield "f", b"/**/a/b", b"/a/a/b"
    for known in (b"/no", b"/nx", b"/north/ed", b"/north/eb", b"/north\0", b"/north/edge\0"):
        yield "r", b"/**/edge", known
        yield "r", b"/north/edge", known
        yield "r", b"/n*h/*", known
    yield "nothing known, the first byte, the end byte"
    for pattern in (b"/*", b"/**", b"/a", b"/a*", b"/**/a", b"/a/**", b"/*a*/b"):
        for known in (b"", b"/", b"/\0", b"\0", b"/a", b"/a/", b"/a\0", b"/a/\0", b"/a\0\0", b"/b", b"/ba", b"/a/b\0"):
            yield "r", pattern, known
    yield "known bytes that begin no path"
    for known in (b"//", b"/a//", b"a", b"*", b"/*", b"/a*", b"/\x7f", b"/a\x1f", b"/a\0a", b"/a\0/", b"\0\0", b"/a/\x00/"):
        yield "r", b"/**", known
    yield "bytes of a label"
    for c in (0x00, 0x0A, 0x1F, 0x20, 0x2A, 0x2E, 0x2F, 0x30, 0x7E, 0x7F, 0x80, 0xFF):
        yield "p", b"/a" + bytes([c]) + b"b"
        yield "q", b"/a" + bytes([c]) + b"b"
        yield "r", b"/a*", b"/a" + bytes([c])
        yield "f", b"/a*b", b"/a" + bytes([c]) + b"b"
    yield "lengths: 0, 1, 200 and 201 bytes"
    for text in (b"", b"/", b"a", b"/a", b"/" + b"a" * 199, b"/" + b"a" * 200, b"//" + b"a" * 199, b"/a" * 100, b"/a" * 100 + b"a"):
        yield "p", text
        yield "q", text
    yield "f", b"/" + b"a" * 199, b"/" + b"a" * 199
    yield "f", b"/*", b"/" + b"a" * 200
    yield "f", b"/" + b"a" * 200, b"/" + b"a" * 199
    yield "r", b"/" + b"a" * 199, b"/" + b"a" * 150
    yield "r", b"/a*/b", b"/" + b"a" * 230
    yield "r", b"/a*", b"/" + b"a" * 230 + b"\0"
    yield "r", b"/**/b", b"/a" * 110 + b"\0"
    yield "r", b"/**/b", b"/a" * 110 + b"/b\0"
    yield "labels: 32, 33, and 33 of them empty"
    for pattern in (b"/a" * 32, b"/a" * 33, b"/" * 32, b"/" * 33, b"/**" * 32, b"/**" * 33):
        yield "q", pattern
        yield "f", pattern, b"/a" * 32
        yield "f", pattern, b"/a" * 33
    yield "stars"
    for pattern in (b"/*", b"/**", b"/***", b"/****", b"/a**", b"/**a", b"/a**b", b"/*a*", b"/*/**", b"/**/**", b"/a/***/b", b"*", b"**", b"/a/", b"//", b"/**/"):
        yield "q", pattern
        yield "f", pattern, b"/a"
        yield "f", pattern, b"/a/b"
        yield "r", pattern, b"/a"
    yield "many wild elements"
    yield "f", b"/**/a" * 8 + b"/**/b", b"/a" * 100
    yield "f", b"/**/a" * 8, b"/a" * 100
    yield "f", b"/*a*a*a*a*a*a*a*a*b", b"/" + b"a" * 190
    yield "f", b"/*a*a*a*a*a*a*a*a*b", b"/" + b"a" * 190 + b"b"
    yield "r", b"/**/a" * 8 + b"/**/b", b"/a" * 100


def drawn():
    r = random.Random(20261115)
    yield "drawn: fits"
    for _ in range(300):
        pattern, path = random_pattern(r), random_path(r)
        if r.random() < 0.1:
            path = damaged(r, path)
        if r.random() < 0.1:
            pattern = damaged(r, pattern)
        assert fits(pattern, path) == fits_by_expression(pattern, path), (pattern, path)
        yield "f", pattern, path
    yield "drawn: reach"
    for _ in range(300):
        pattern, known = random_pattern(r), random_path(r)[: r.randint(0, 5)]
        if r.random() < 0.25:
            known += b"\0"
        if r.random() < 0.15:
            known = damaged(r, known)
        if len(pattern) + len(known) > 9:
            pattern = pattern[: 9 - len(known)]
        if set(known) <= set(b"/ab\0"):
            assert reach(pattern, known) == reach_by_trial(pattern, known), (pattern, known)
        yield "r", pattern, known
    yield "drawn: forms"
    for _ in range(120):
        yield "p", damaged(r, random_path(r))
        yield "q", damaged(r, damaged(r, random_pattern(r)))


ANSWERS = {"p": path_number, "q": pattern_number, "f": fits, "r": reach}


def main():
    cases, answers = [], []
    for case in itertools.chain(named(), drawn()):
        if isinstance(case, str):
            cases.append("# " + case)
            continue
        letter, *texts = case
        cases.append(" ".join([letter] + [t.hex() or "-" for t in texts]))
        answers.append(f"{letter} {ANSWERS[letter](*texts)}")
    folder = "crates/matcher_vectors/"
    for name, lines in (("stdin", cases), ("stdout", answers)):
        with open(folder + name, "w") as f:
            f.write("\n".join(lines) + "\n")
    print(f"{len(answers)} cases, {sum(map(len, cases)) + len(cases)} bytes")


if __name__ == "__main__":
    main()
