#!/usr/bin/env python3
"""tools/tried.py LOGS [--gate] NAME..   tries the edits of these crates, or those that are named
                                      CRATE/LABEL, each by itself, and keeps all that the prover
                                      says of each in LOGS/CRATE/LABEL.log

Those of crates/NAME/must-fail-more are tried, with --gate those of crates/NAME/must-fail. `rt
must-fail` tells of an edit the first thing that is refused; here each is made in a copy of the
crates, outside the tree, and `rt check` tells all. It is called by ./edits, which has proved the
crates, so that only what an edit alters is checked again. The last line of a log is the status of
`rt check`.
"""

import pathlib
import shutil
import subprocess
import sys
import tempfile

sys.dont_write_bytecode = True
import source

ROOT = pathlib.Path(__file__).resolve().parent.parent
PARTS = ("src", "specs", "proofs")


def copied(root, to):
    """The tree's crates, without what was made of them."""
    shutil.copy(root / "crates.txt", to)
    for crate in source.crates(root):
        for part in PARTS:
            if (root / "crates" / crate / part).is_dir():
                shutil.copytree(root / "crates" / crate / part, to / "crates" / crate / part)


def made(edit, folder):
    """The files that an edit changes, each with its text before and after; or what is wrong."""
    texts = {}
    for file, old, new in edit.changes:
        path = folder / file
        if path not in texts:
            if not path.is_file():
                return None, f"there is no {file}"
            texts[path] = [path.read_text()] * 2
        before, now = texts[path]
        if now.count(old) != 1:
            return None, f"{file} has {now.count(old)} times: {old}"
        texts[path] = [before, now.replace(old, new)]
    return texts, None


def tried(edit, folder):
    """What the prover says of a crate with an edit in it; the crate is as before then."""
    texts, wrong = made(edit, folder)
    if wrong:
        return f"the edit cannot be made: {wrong}\nstatus 2\n"
    try:
        for path, (_, now) in texts.items():
            path.write_text(now)
        done = subprocess.run(
            ["rt", "check"], cwd=folder, stdin=subprocess.DEVNULL,
            stdout=subprocess.PIPE, stderr=subprocess.STDOUT, errors="replace",
        )
        return f"{done.stdout}\nstatus {done.returncode}\n"
    finally:
        for path, (before, _) in texts.items():
            path.write_text(before)


def main(words):
    gate = "--gate" in words
    logs, *names = [word for word in words if word != "--gate"]
    with tempfile.TemporaryDirectory(prefix="edits-") as room:
        copy = pathlib.Path(room)
        copied(ROOT, copy)
        for crate in dict.fromkeys(name.partition("/")[0] for name in names):
            for edit in source.edits(ROOT, crate):
                if ("/" in edit.label) == gate or not {crate, edit.title} & set(names):
                    continue
                log = pathlib.Path(logs) / crate / f"{edit.label}.log"
                log.parent.mkdir(parents=True, exist_ok=True)
                log.write_text(tried(edit, copy / "crates" / crate))
                print(f"    {edit.title}", file=sys.stderr)
    return 0


if __name__ == "__main__":
    if len(sys.argv) < 3:
        print(__doc__, end="", file=sys.stderr)
        sys.exit(2)
    sys.exit(main(sys.argv[1:]))
