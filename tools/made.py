"""What is made from the tree: of a paper the part between two marks, pictures, and a table of
names."""

import pathlib
import sys

BEGIN = "<!-- made by ./papers --write: from here -->"
END = "<!-- made by ./papers --write: to here -->"
ROOT = pathlib.Path(__file__).resolve().parent.parent


def put(text, lines):
    """A paper's text with these lines between the marks; none where it has not both marks, once."""
    if text.count(BEGIN) != 1 or text.count(END) != 1 or text.index(END) < text.index(BEGIN):
        return None
    head, rest = text.partition(BEGIN)[0], text.partition(END)[2]
    return "\n".join([head + BEGIN, "", *lines, "", END + rest])


def compare(root, name, lines, write=False):
    """What is wrong with the made part of a paper; with `write` the part is written first."""
    paper = root / "docs" / name
    text = paper.read_text()
    new = put(text, lines)
    if new is None:
        yield f"docs/{name} has not the two marks, {BEGIN} and {END}"
    elif new != text and write:
        paper.write_text(new)
        print(f"docs/{name} is written", file=sys.stderr)
    elif new != text:
        old = set(text.splitlines())
        differ = [line for line in new.splitlines() if line not in old]
        first = differ[0][:80] if differ else "lines that are gone, or in another order"
        yield f"docs/{name} is not what ./papers --write makes: {len(differ)} lines, first {first}"


def whole(root, name, text, write=False):
    """What is wrong with a file that is made as a whole; with `write` it is written first."""
    file, new = root / name, text.encode()
    old = file.read_bytes() if file.is_file() else None
    if old != new and write:
        file.write_bytes(new)
        print(f"{name} is written", file=sys.stderr)
    elif old is None:
        yield f"{name} is not there: ./papers --write makes it"
    elif old != new:
        pairs = enumerate(zip(old.split(b"\n"), new.split(b"\n")), 1)
        differ = [line for line, (had, has) in pairs if had != has]
        where = f"from line {differ[0]} on" if differ else "its end"
        yield f"{name} is not what ./papers --write makes: {where}"


def main(module):
    """A module by itself: checks its paper, or writes it."""
    words = sys.argv[1:]
    if words not in ([], ["--write"]):
        print(module.__doc__, end="", file=sys.stderr)
        sys.exit(2)
    wrong = list(module.wrong(ROOT, write=bool(words)))
    for line in wrong:
        print(line)
    sys.exit(1 if wrong else 0)
