#!/usr/bin/env python3
"""tools/contracts.py           holds the source and docs/CONTRACTS.md to each other
tools/contracts.py --write   writes the made part of docs/CONTRACTS.md first

It ends with status 1 where a function has no promise that must have one, where not two edits try
a public function, where an edit's first line does not tell what the edit is of or its old text does
not stand once in its file, or where the made part is not what it would write. ./papers does the same, with the other papers.
"""

import sys

sys.dont_write_bytecode = True
import made
import source


def code(text):
    return "`" + text.replace("|", "\\|") + "`"


def promised(root, crate):
    """The functions that promise nothing and must: every public one, and of a program each one
    with a result or a lent `&mut`. And those of a library that ask something of their caller."""
    program = not source.is_library(root, crate)
    for function in source.functions(root, crate):
        where = f"{function.file}:{function.line}: {function.title}"
        hands_out = program and function.name != "main" and (function.result or function.lent)
        if (function.public or hands_out) and not source.facts(function):
            yield f"{where} has no `ensures`"
        if function.public and function.requires and not program:
            yield f"{where} is public and has a `requires`"


def tried(root, crate):
    """The public functions of a library of which not two wrong answers are tried, one of them in
    the gate. The exports of a static library call functions of a library, which are tried."""
    functions, labels = source.functions(root, crate), {}
    for edit in source.edits(root, crate):
        for name, _ in edit.names:
            for function in source.named(name, functions):
                labels.setdefault(function, []).append(edit.label)
    calls = not source.is_library(root, crate) or source.is_static(root, crate)
    for function in [] if calls else functions:
        named = labels.get(function, [])
        if function.public and (len(named) < 2 or all("/" in label for label in named)):
            where = f"{function.file}:{function.line}"
            yield f"{where}: of {function.title} no two wrong answers are tried, one in the gate"


def faults(root, crate):
    """The edits whose first line is not of the form, or names what is not there."""
    functions, definitions = source.functions(root, crate), source.definitions(root, crate)
    for edit in source.edits(root, crate):
        if not edit.well:
            yield f"the edit {edit.title} does not begin with `# name [LETTERS], name: sentence`"
        for name, _ in edit.names:
            meant = source.named(name, functions)
            if len(meant) > 1:
                either = " or ".join(function.title for function in meant)
                yield f"the edit {edit.title} names {name}, which is {either}"
            elif not meant and name not in definitions:
                yield f"the edit {edit.title} names {name}, which {crate} has not"
        for file in dict.fromkeys(file for file, _, _ in edit.changes):
            if not file.startswith(("src/", "specs/")):
                yield f"the edit {edit.title} alters {file}: an edit is of src/ or specs/"
        known = [function for name, _ in edit.names for function in source.named(name, functions)]
        for function in dict.fromkeys(edit.altered(root, functions)):
            if function not in known:
                yield f"the edit {edit.title} alters {function.title}, which it does not name"


def strays(root, crate):
    """The edits whose old text does not stand once in its file, the changes before it made."""
    for edit in source.edits(root, crate):
        texts = {}
        for file, old, new in edit.changes:
            path = root / "crates" / crate / file
            text = texts.get(file, path.read_text() if path.is_file() else "")
            if text.count(old) != 1:
                times = text.count(old)
                yield f"the edit {edit.title} alters {file}, which has {times} times: {old[:60]}"
            texts[file] = text.replace(old, new, 1)


def row(first, second, edits):
    """A row: what is named, what it promises or where it stands, and the edits that try it."""
    said = []
    for edit, letters in edits:
        gauges = f"**{letters}** " if letters else ""
        said.append(f"{code(edit.label)}: {gauges}{edit.sentence}".replace("|", "\\|"))
    return f"| {first} | {second} | {'<br>'.join(said)} |"


def headed(title, rows):
    return [title, "|---|---|---|", *rows, ""] if rows else []


def tables(root, crate):
    """The tables of a crate: a row for each public function and each other one that an edit names,
    then a row for each definition and theorem that one names."""
    functions, definitions = source.functions(root, crate), source.definitions(root, crate)
    edits = {}
    for edit in source.edits(root, crate):
        for name, letters in edit.names:
            meant = source.named(name, functions)
            edits.setdefault(meant[0].title if meant else name, []).append((edit, letters))
    called = []
    for public in (True, False):
        for function in functions:
            if function.public == public and (public or function.title in edits):
                contract = "<br>".join(code(fact) for fact in source.facts(function))
                name = code(function.title) + ("" if public else ", not public")
                called.append(row(name, contract, edits.pop(function.title, [])))
    stated = [row(code(name), code(definitions.get(name, "?")), edits[name]) for name in edits]
    refused = "Wrong answers that are refused"
    yield from headed(f"| Function | Contract | {refused} |", called)
    yield from headed(f"| Definition or theorem | Where it stands | {refused} |", stated)
    if not called and not stated:
        yield from ["No function of its own.", ""]


def lines(root):
    """The made part: a heading for each library, and its tables."""
    found = []
    for crate in source.crates(root):
        if source.is_library(root, crate):
            found += [f"### `{crate}`", "", *tables(root, crate)]
    return found[:-1]


def wrong(root, write=False):
    for crate in source.crates(root):
        for check in (promised, tried, faults, strays):
            yield from check(root, crate)
    yield from made.compare(root, "CONTRACTS.md", lines(root), write)


if __name__ == "__main__":
    made.main(sys.modules[__name__])
