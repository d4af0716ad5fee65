#!/usr/bin/env python3
"""tools/trust.py           holds the definitions and docs/TRUST.md to each other
tools/trust.py --write   writes the made table of docs/TRUST.md first: which files of definitions
                         there are, and who reads them

It ends with status 1 where a file stands before one that it names, where a crate's Lib passes on
what no other crate takes of it, where a definition or a contract names a proof, or where the table
is not what it would write. ./papers does the same, with the other papers.
"""

import re
import sys

sys.dont_write_bytecode = True
import made
import source
import words

PROOF = re.compile(r"^(?:ghost |pub )?use Rattle\.(?!std\b)[a-z0-9_]+\.proofs\.", re.M)


def before(known):
    """The files that name one which stands behind them."""
    seen = set()
    for file in known.values():
        taken = [words.standing(known, file, word) for word in file.taken]
        named = {other.path for other in taken if other}
        for other in sorted(named - seen - {file.path}):
            yield f"{file.path} stands before {other}, which it names"
        seen.add(file.path)


def idle(root, known):
    """The words that a crate's Lib passes on, and that no file takes from there."""
    every = [(where, name) for file in known.values() for name, where in file.taken.items()]
    taken = {(where, name) for where, name in every if where and where.endswith("/")}
    for crate in source.crates(root):
        lib = root / "crates" / crate / "specs" / "Lib.antt"
        for name in words.passed_on(lib.read_text()) if lib.is_file() else []:
            # operators are taken from the kit's Prelude by every file itself
            if (f"{crate}/specs/", name) not in taken and "◌" not in name:
                yield f"{crate}/specs/Lib.antt passes {name} on, which no other crate takes of it"


def proofs_named(root):
    """The definitions and contracts that name a proof."""
    for part in ("specs/*.antt", "src/*.rt"):
        for file in sorted((root / "crates").glob(f"*/{part}")):
            for found in PROOF.finditer(text := file.read_text()):
                line = text.count("\n", 0, found.start()) + 1
                yield f"{file.relative_to(root)}:{line}: a definition or a contract names a proof"


def sentence(heading):
    """The first sentence of a heading."""
    return heading.partition(". ")[0].rstrip(".").replace("|", "\\|")


def column(file, group, alone):
    """How many lines of a file are of a group; by name, where the file has others too."""
    names = [name for name in file.defined if (file.path, name) in group]
    count = sum(len(file.defined[name]) for name in names)
    if not names or alone:
        return str(count or "")
    return f"{count}: " + ", ".join(f"`{name}`" for name in names)


def lines(root, known):
    """The made part: a row for each file of definitions, then their sums."""
    parts = words.groups(root, known)
    yield "| File | Lines | What it says | Answers | C besides | Demand 3 | Theorems |"
    yield "|---|---|---|---|---|---|---|"
    for file in known.values():
        of = [any((file.path, name) in part for name in file.defined) for part in parts]
        cells = [column(file, part, sum(of) == 1 or part is parts[0]) for part in parts]
        first = f"| `{file.path}` | {file.lines} | {sentence(file.heading)} | "
        yield first + " | ".join(cells) + " |"
    count = [sum(len(known[path].defined[name]) for path, name in part) for part in parts]
    total = sum(file.lines for file in known.values())
    yield ""
    yield f"{len(known)} files, {total:,} lines, of which {sum(count):,} say something."
    yield f"The answers of the Rattle functions need {count[0]:,} of them, the exports"
    yield f"{count[1]:,} more, demand 3's clause {count[2]:,} more; {count[3]:,} are theorems and"
    yield "their words."


def wrong(root, write=False):
    known = words.files(root)
    yield from before(known)
    yield from idle(root, known)
    yield from proofs_named(root)
    yield from made.compare(root, "TRUST.md", lines(root, known), write)


if __name__ == "__main__":
    made.main(sys.modules[__name__])
