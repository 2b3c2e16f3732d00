#!/usr/bin/env python3
"""Prints docs/STORE-FORMAT.md's worked example: the store after document 01's `fieldlog` listing's first four lines, field by field,
and the small trie after each of its three additions."""
from index import LEAF, P, R, V, Book, branching_byte, encode, need

NAME = {V: "V", P: "path", LEAF: "leaf"}
ADDITIONS = [(b"/north/pond", 7, 1), (b"/north/edge", 7, 1), (b"/south/edge", 9, 2)]
FRONT_FIELDS = [("M", 0), ("L", 4), ("τ", 8), ("held", 12)]


def hexed(data):
    return data.hex(" ").upper()


def quoted(path):
    """Path bytes as a reader sees them, the end byte as Table 1 prints it."""
    return '"' + path.decode().replace("\0", "$") + '"'


def line(at, data, what):
    return f"{at:6,}  {hexed(data):<32}  {what}".rstrip()


def lines(at, data, what):
    """A field, 10 bytes to a line."""
    for start in range(0, len(data), 10):
        yield line(at + start, data[start : start + 10], what if start == 0 else "")


def dumped_node(node, at, name):
    """A node's bytes from `at` on, a line for each field."""
    data = encode(node)
    v, p = len(node.strings[V]), len(node.strings[P])
    body = len(data) - 7 - v - p
    kind = "a leaf" if node.dimension == LEAF else f"branches in {NAME[node.dimension]}"
    yield f"        -- {name}: {len(data)} bytes, {at:,} to {at + len(data) - 1:,}"
    yield line(at, data[:1], f"d: {kind}")
    yield line(at + 1, data[1:2], "v")
    yield line(at + 2, data[2:3], "p")
    yield line(at + 3, data[3:7], f"b: a body of {body} bytes, from {at + 7 + v + p:,}")
    yield from lines(at + 7, node.strings[V], f"{v} value byte{'s' * (v != 1)}")
    yield from lines(at + 7 + v, node.strings[P], f"{p} path byte{'s' * (p != 1)} {quoted(node.strings[P])}")
    at += 7 + v + p
    for suffix in node.suffixes:
        yield line(at, bytes([len(suffix[V])]), "suffix: v")
        yield line(at + 1, bytes([len(suffix[P])]), "suffix: p")
        yield from lines(at + 2, suffix[R], "suffix: reference")
        at += 22 + len(suffix[V]) + len(suffix[P])
    for child in node.children:
        yield from dumped_node(child, at, f"child {branching_byte(node, child):02X} of {name}")
        at += len(encode(child))


def drawn_node(node, lead="", edge="", below=""):
    """A node and what hangs below it: dimension, value bytes, path bytes, references by their last byte."""
    refs = "".join(f", reference ..{s[R][-1:].hex()}" for s in node.suffixes)
    yield f"{lead}{edge}{NAME[node.dimension]:<4} V {hexed(node.strings[V]) or '(none)'}  P {quoted(node.strings[P])}{refs}"
    for child in node.children:
        last = child is node.children[-1]
        byte = branching_byte(node, child)
        named = f"{byte:02X}" if node.dimension == V else f"'{chr(byte)}'"
        yield from drawn_node(child, lead + below, f"+-- {named:<4}", "        " if last else "|       ")


def main():
    book = Book()
    book.setup(65536, 4, 2, 1)
    for path, value, ref in ADDITIONS:
        book.add(65536, path, value, ref.to_bytes(20, "big"))
        print(f"after +,{value},..{ref:02x},{path.decode()}\n")
        print("\n".join(drawn_node(book.small())) + "\n")
    image, end = book.image(), 4096 + len(encode(book.small()))
    for what, at in FRONT_FIELDS:
        print(line(at, image[at : at + 4], f"{what} = {int.from_bytes(image[at:at + 4], 'big')}"))
    print("    16  zeros to 4,095")
    print("\n".join(dumped_node(book.small(), 4096, "root")))
    assert image[16:4096] + image[end:] == bytes(len(image) - 16 - (end - 4096)) and len(image) == need(4, 2)
    print(f"{end:6,}  zeros to {len(image) - 1:,}: the rest of the small trie's region, level 0 (8,192) and level 1 (12,288) are empty")


if __name__ == "__main__":
    main()
