#!/usr/bin/env python3
"""Document 01's `fieldlog` over the book: reads standard input, prints. Sentences in quotes are document 01's."""
import re
import sys

from index import ACCEPTED, ROW, Book

STORE, ANSWER = 65536, bytes(16384)  # "The store has 65,536 bytes [...]; the answer buffer has 16,384"
MISREAD = 12


def lines(data):
    """"Lines, read or written, end with byte 0A hex; the last one read may lack it, and nothing after a final 0A is no line." """
    found = data.split(b"\n")
    return found[:-1] if found[-1] == b"" else found


def number(field):
    """"Numbers are decimal below 2^64 without leading zeros"; None for anything else."""
    if re.fullmatch(rb"0|[1-9][0-9]*", field) and int(field) < 2**64:
        return int(field)
    return None


def reference(field):
    """"a reference is 40 lower-case hex digits"; None for anything else."""
    return bytes.fromhex(field.decode()) if re.fullmatch(rb"[0-9a-f]{40}", field) else None


def read_line(line):
    """A line as (its first field or "setup", three arguments), None where it is misread. "There is no quoting: a line is read field
    by field, and the path or pattern is all that remains, commas included." "Anything else, or a line over 512 bytes without its
    0A, is 12"."""
    if len(line) > 512:
        return None
    kind, *fields = line.split(b",", 3)
    if kind == b"+" and len(fields) == 3:
        call = ("+", number(fields[0]), reference(fields[1]), fields[2])
    elif kind == b"?" and len(fields) == 3:
        call = ("?", number(fields[0]), number(fields[1]), fields[2])
    elif len(fields) == 2:
        call = ("setup", number(kind), number(fields[0]), number(fields[1]))
    else:
        return None
    return None if None in call else call


def printed_row(row):
    """"one line `-,value,reference,path` for each row"."""
    value, digits, path = int.from_bytes(row[:8], "big"), row[8:28].hex(), row[29 : 29 + row[28]]
    return b"-,%d,%s,%s" % (value, digits.encode(), path)


def answer_line(book, line):
    """The lines that one line prints, the last of them `=,number,first,second`."""
    call = read_line(line)
    rows = []
    if call is None:
        answer = (MISREAD, 0, 0)
    elif call[0] == "setup":
        answer = book.setup(STORE, *call[1:])
    elif call[0] == "+":
        answer = book.add(STORE, path=call[3], value=call[1], reference=call[2])
    else:
        *answer, buffer = book.search(STORE, call[3], call[1], call[2], ANSWER)
        if answer[0] == ACCEPTED:
            rows = [buffer[at : at + ROW] for at in range(0, answer[1] * ROW, ROW)]
    return [printed_row(row) for row in rows] + [b"=,%d,%d,%d" % tuple(answer)]


def run(data):
    """All that is printed for all that is read."""
    book = Book()
    printed = [out for line in lines(data) for out in answer_line(book, line)]
    return b"".join(line + b"\n" for line in printed)


if __name__ == "__main__":
    sys.stdout.buffer.write(run(sys.stdin.buffer.read()))
