#!/usr/bin/env python3
"""tools/exports.py           holds crates/norrabist_ffi to crates/norrabist_c
tools/exports.py --write   writes the files of crates/norrabist_ffi/src first

A crate is a library or a static library, not both. The functions that C calls stand in the library
norrabist_c, where theorems and other crates read them; norrabist_ffi is the static library over it:
for each of them an export of the same name, signature and clauses, which calls it. ./papers does
the same, with the other papers.
"""

import re
import sys

sys.dont_write_bytecode = True
import made
import source

LIBRARY, EXPORTS = "norrabist_c", "norrabist_ffi"
COLUMNS, CALL = 100, 60
# an export: its comment, its head and clauses, up to the body
EXPORT = re.compile(
    r"^((?://[^\n]*\n)*)(?:#\[unsafe\(no_mangle\)\]\n)?(pub extern \"C\" fn (\w+)\(.*?)^\{\n", re.M | re.S
)
LENT = re.compile(r"^ghost use (\S+)\.\{([^}]*)\};\n", re.M)
STRUCT = re.compile(r"^pub struct (\w+)", re.M)
TAKEN = re.compile(r"^use crate::(\w+)::(\w+);\n", re.M)
WORD = re.compile(r"[^\s(){},;.\[\]]+")


def filled(names, indent):
    """Names with commas behind them, as many on a line as there is room for."""
    lines = [" " * indent + names[0] + ","]
    for name in names[1:]:
        if len(lines[-1]) + len(name) + 2 > COLUMNS:
            lines.append(" " * indent + name + ",")
        else:
            lines[-1] += f" {name},"
    return "".join(line + "\n" for line in lines)


def call(module, name, head):
    """An export's body, one call, in the layout of rt fmt: on one line; else with its arguments on the
    next, where that is not long; else with each on a line of its own."""
    opened = head.index("(")
    between = head[opened + 1 : source.closing(head, opened)]
    names = re.findall(r"(\w+)\s*:", between)
    path = f"    {LIBRARY}::{module}::{name}"
    line = f"{path}({', '.join(names)})\n"
    if len(line) <= COLUMNS + 1:
        return line
    if 8 + len(", ".join(names)) <= CALL:
        return f"{path}(\n        {', '.join(names)},\n    )\n"
    return f"{path}(\n" + "".join(f"        {one},\n" for one in names) + "    )\n"


def use(path, names):
    """A `use` of these names."""
    if len(names) == 1:
        return f"use {path}::{names[0]};\n"
    line = f"use {path}::{{{', '.join(names)}}};\n"
    return line if len(line) <= COLUMNS + 1 else f"use {path}::{{\n{filled(names, 4)}}};\n"


def module(name, text):
    """The exports of one file of the library; nothing, where it has none."""
    found = [(say, head, of) for say, head, of in EXPORT.findall(text)]
    if not found:
        return None
    said = set(WORD.findall("\n".join(head for _, head, _ in found)))
    lent = []
    for path, names in LENT.findall(text):
        kept = [one.strip() for one in names.split(",")]
        kept = [one for one in kept if one in said or one.strip("◌") in said]
        if kept:
            lent.append(f"ghost use {path}.{{{', '.join(kept)}}};\n")
    types = sorted(one for one in STRUCT.findall(text) if one in said)
    others = [f"use {LIBRARY}::{of}::{one};\n" for of, one in TAKEN.findall(text) if one in said]
    if types:
        others.append(use(f"{LIBRARY}::{name}", types))
    items = [f"{say}#[unsafe(no_mangle)]\n{head}{{\n{call(name, of, head)}}}\n" for say, head, of in found]
    first = f"// The exports of `{LIBRARY}::{name}`; made by ./papers --write.\n"
    return "\n".join([first + "".join(lent), "".join(sorted(others)), *items]).replace("\n\n\n", "\n\n")


def files(root):
    """The files of the static library, each with its text."""
    found = {}
    for file in sorted((root / "crates" / LIBRARY / "src").glob("*.rt")):
        text = module(file.stem, file.read_text())
        if text:
            found[f"crates/{EXPORTS}/src/{file.name}"] = text
    names = [name.rpartition("/")[2].removesuffix(".rt") for name in found]
    mods = "".join(f"pub mod {name};\n" for name in names)
    found[f"crates/{EXPORTS}/src/lib.rt"] = (
        "// What C and Rust link, as a static library: each export calls the function of the same name in\n"
        f"// `{LIBRARY}`, and promises the same. `rust/norrabist.h` declares them. Made by ./papers --write.\n"
        "// stays: every export is a function of its own; numbers and flags are the C interface.\n"
        f"#![tactic(auto)]\n\n{mods}"
    )
    return found


def wrong(root, write=False):
    made_files = files(root)
    for name, text in made_files.items():
        (root / name).parent.mkdir(parents=True, exist_ok=True)
        yield from made.whole(root, name, text, write)
    for file in sorted((root / "crates" / EXPORTS / "src").glob("**/*.rt")):
        if str(file.relative_to(root)) not in made_files:
            yield f"{file.relative_to(root)} is of no file of {LIBRARY}"


if __name__ == "__main__":
    made.main(sys.modules[__name__])
