"""What is asked of comments and of lines: a comment above what is public, and lines that are not
too long."""

import re

PROSE = 100
PAPERS = ("docs/*.md", "*.md", "crates/README.md", "compare/*.md")
PUBLIC = re.compile(r'\s*pub (?:(?:extern "C"|const) )*(?:fn|struct|enum) (\w+)')
ATTRIBUTE = re.compile(r"\s*#\[.*\]\s*$")
COMMENT = re.compile(r"\s*(?://|--)")
LINK = re.compile(r"\]\(|\]: |https?://")


def bare(root):
    """The public functions and types with no comment right above them."""
    for file in sorted((root / "crates").glob("*/src/**/*.rt")):
        lines = file.read_text().splitlines()
        for place, line in enumerate(lines):
            if found := PUBLIC.match(line):
                above = place - 1
                while above >= 0 and ATTRIBUTE.match(lines[above]):
                    above -= 1
                if above < 0 or not lines[above].lstrip().startswith("//"):
                    where = f"{file.relative_to(root)}:{place + 1}"
                    yield f"{where}: {found.group(1)} is public and has no comment above it"


def long_comments(root):
    """Comments of crates/ over 100 columns; all else is laid out by rt fmt."""
    files = [file for part in ("src", "specs", "proofs") for file in (root / "crates").glob(f"*/{part}/**/*")]
    for file in sorted(files):
        if file.suffix not in (".rt", ".antt"):
            continue
        for place, line in enumerate(file.read_text().splitlines(), 1):
            if COMMENT.match(line) and len(line) > PROSE:
                where = f"{file.relative_to(root)}:{place}"
                yield f"{where}: {len(line)} columns, at most {PROSE}"


def long_prose(root):
    """Lines of papers over 100 columns, but for rows of tables, code and links."""
    for pattern in PAPERS:
        for file in sorted(root.glob(pattern)):
            code = False
            for place, line in enumerate(file.read_text().splitlines(), 1):
                fence = line.lstrip().startswith("```")
                code ^= fence
                free = code or fence or line.startswith(("|", "    ")) or LINK.search(line)
                if len(line) > PROSE and not free:
                    where = f"{file.relative_to(root)}:{place}"
                    yield f"{where}: {len(line)} columns, at most {PROSE}"


def wrong(root):
    yield from bare(root)
    yield from long_comments(root)
    yield from long_prose(root)
