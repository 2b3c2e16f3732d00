"""Holds the Rust book against the Python one (tools/oracle/index.py) on random lists of calls.

    second/cross.py [FROM TO]

Replies, answer buffers and images; the first difference of each list is printed.
"""
import pathlib
import subprocess
import sys

HERE = pathlib.Path(__file__).resolve().parent
ROOT = HERE.parent
sys.path.insert(0, str(ROOT / "tools/oracle"))
from index import Book  # noqa: E402

BLOCK = 1024


def value(word):
    return bytes.fromhex(word[1:]) if word.startswith("x") else int(word)


def image_line(book):
    image = book.image()
    blocks = [(at // BLOCK, image[at : at + BLOCK]) for at in range(0, len(image), BLOCK)]
    return " ".join(["image", str(len(image)), *(f"{at}:{block.hex()}" for at, block in blocks if any(block))])


def reply_line(book, name, arguments):
    number, first, second, *answer = getattr(book, name)(*arguments)
    return f"reply {number} {first} {second} x{b''.join(answer).hex()}"


def compare(lines):
    """Lists, calls and differences."""
    lists = calls = differences = 0
    book, answer, call, skipping = None, None, "", False
    for line in lines:
        name, *words = line.split()
        if name == "list":
            book, skipping, lists = Book(), False, lists + 1
            seed = words[0]
        elif skipping:
            continue
        elif name in ("reply", "image"):
            wanted = answer if name == "reply" else image_line(book)
            if wanted.strip() != line.strip():
                print(f"list {seed}, after: {call[:300]}\n  Rust   {line[:300]}\n  Python {wanted[:300]}")
                skipping, differences = True, differences + 1
        else:
            call, calls = line.strip(), calls + 1
            answer = reply_line(book, name, [value(word) for word in words])
    return lists, calls, differences


def main():
    program = ROOT / "target/second/print_lists"
    program.parent.mkdir(parents=True, exist_ok=True)
    subprocess.run(["rustc", "--edition", "2021", "-O", "-o", program, HERE / "print_lists.rs"], check=True, stderr=subprocess.DEVNULL)
    bounds = sys.argv[1:] or ["0", "2000"]
    with subprocess.Popen([program, *bounds], stdout=subprocess.PIPE, text=True) as printing:
        lists, calls, differences = compare(printing.stdout)
    print(f"{lists} lists, {calls} calls, {differences} lists differ")
    sys.exit(differences > 0)


main()
