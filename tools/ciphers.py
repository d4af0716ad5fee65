#!/usr/bin/env python3
"""tools/ciphers.py           holds crates/look/src/pages_*.rt to rust/src/ciphers/rows.rs
tools/ciphers.py --write   writes them first

The names of cipher suites stand once, in the table of the Rust binding. The program look has them
from there, as the arms of matches. ./papers does the same, with the other papers.
"""

import re
import sys

sys.dont_write_bytecode = True
import made

ROWS = "rust/src/ciphers/rows.rs"
# the files, each with the number that its rows begin at; src/ciphers.rt picks one
FILES = {"pages_00.rt": "0000", "pages_c0.rt": "c000"}
ROW = re.compile(r"^    0x([0-9a-f]{4}) (\w+):", re.M)
# a match is proved in a time that grows with the square of its arms
MOST = 32

HEAD = """\
// The names of cipher suites by their numbers, in pages; made by ./papers --write from
// rust/src/ciphers/rows.rs.
// stays: pages of 32 at most, since a match of all takes the prover minutes.
use std::fmt;
"""
# what each function is handed, and what it hands back
PARAMETERS = "<W: fmt::Write>(f: &mut fmt::Formatter<W>, n: u16) -> fmt::Result"


def match(arms, other):
    """The match that picks one of these arms, or the other."""
    return f"match n {{\n{''.join(f'        {arm},{chr(10)}' for arm in [*arms, f'_ => {other}'])}    }}"


def page(place, rows):
    """The function of a page."""
    names = match((f'0x{number} => " {name}"' for number, name in rows), '""')
    return f"fn say_page_{place}{PARAMETERS} {{\n    f.write_str({names})\n}}\n"


def text(rows):
    """A file of these rows."""
    found = [rows[first : first + MOST] for first in range(0, len(rows), MOST)]
    arms = [f"0x{rows[0][0]}..=0x{rows[-1][0]} => say_page_{place}(f, n)" for place, rows in enumerate(found)]
    functions = [page(place, rows) for place, rows in enumerate(found)]
    last = (
        "// Prints the name of the cipher suite `n`, behind a blank; nothing where there is none.\n"
        f"pub(crate) fn say_name{PARAMETERS} {{\n    {match(arms, 'Ok(())')}\n}}\n"
    )
    return "\n".join([HEAD, *functions, last])


def wrong(root, write=False):
    rows = ROW.findall((root / ROWS).read_text())
    ends = [*list(FILES.values())[1:], "g"]
    for (file, first), end in zip(FILES.items(), ends):
        here = [row for row in rows if first <= row[0] < end]
        yield from made.whole(root, f"crates/look/src/{file}", text(here), write)


if __name__ == "__main__":
    made.main(sys.modules[__name__])
