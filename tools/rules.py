"""docs/RULES.md held to the tree: its numbers, the names that it cites, and who cites it."""

import re

import source

HEADING = re.compile(r"^## (.*)$", re.M)
NUMBER = re.compile(r"(\d+)\.? \S")
# a rule is a heading, or a paragraph that begins with its number in bold
RULE = re.compile(r"^(?:#{3,} |\*\*)(\d+)\.(\d+)\b", re.M)
FILE = re.compile(r"`([a-z0-9_]+/specs/\w+\.antt)`")
# `NAME`, `NAME` and `NAME` in `CRATE/specs/FILE.antt`; a field may be told with its record,
# `x` of `X`
CITED = re.compile(r"((?:`[^`\n]+`(?:,| and|, and| of)\s+)*`[^`\n]+`)\s+in\s+" + FILE.pattern)
FIELD = re.compile(r"^\s+(?:pub\s+)?([^\s:(){}]+)\s+:(?=\s)", re.M)
CASE = re.compile(r"^\s+([^\s:(){}=|]+)(?=\s|$)", re.M)
EDIT = re.compile(r"`([a-z0-9_]+)/((?:more/)?[a-z0-9_]+)`")
PARTS = ("src", "specs", "proofs", "must-fail", source.MORE)
BREAK = r"(?:\s|--|//|#|\*)+"
CITATION = re.compile(rf"\bRULES{BREAK}(\d+(?:\.\d+)?)((?:(?:,| and| to){BREAK}\d+\.\d+)*)")
CITING = ("crates", "rust", "compare", "bench", "docs")


def line_of(text, at):
    return text.count("\n", 0, at) + 1


def numbers(text):
    """The numbers that a text of rules has, of sections and of rules."""
    sections = [NUMBER.match(title) for title in HEADING.findall(text)]
    rules = [f"{section}.{rule}" for section, rule in RULE.findall(text)]
    return {found.group(1) for found in sections if found} | set(rules)


def gaps(text):
    """Where headings or rules have no number, or another than the next."""
    last, rule = None, 0
    for line, said in enumerate(text.splitlines(), 1):
        heading, found = HEADING.match(said), RULE.match(said)
        number = NUMBER.match(heading.group(1)) if heading else None
        if (heading and not number) or (said.startswith("###") and not found):
            yield f"docs/RULES.md:{line}: the heading has no number"
        elif heading:
            section = int(number.group(1))
            if section not in ((0, 1) if last is None else (last + 1,)):
                yield f"docs/RULES.md:{line}: section {section} does not follow {last}"
            last, rule = section, 0
        elif found:
            of, next_rule = int(found.group(1)), int(found.group(2))
            # a slip is told once: the numbers behind it are held to it
            if (of, next_rule) != (last, rule + 1):
                yield f"docs/RULES.md:{line}: rule {of}.{next_rule} does not follow {last}.{rule}"
            last, rule = of, next_rule


def defined(text):
    """The names that a file of definitions has: definitions, fields of records, cases of data."""
    names = {one or other for one, other in source.DEFINED.findall(text)}
    names |= set(FIELD.findall(text))
    for data in re.finditer(r"^(?:pub )?data .*\n((?:[ \t]+.*\n|\n)*)", text, re.M):
        names |= set(CASE.findall(data.group(1)))
    return {name.strip("«»") for name in names}


def cited(root, name, text):
    """The files and the names in them that a paper cites and that are not there."""
    for found in FILE.finditer(text):
        if not (root / "crates" / found.group(1)).is_file():
            yield f"docs/{name}:{line_of(text, found.start())}: {found.group(1)} is not there"
    for found in CITED.finditer(text):
        file = root / "crates" / found.group(2)
        known = defined(file.read_text()) if file.is_file() else None
        for word in re.findall(r"`([^`\n]+)`", found.group(1)):
            first = re.split(r"[\s.(]", word.strip("«»"))[0]
            if known is not None and "/" not in word and first not in known:
                where = f"docs/{name}:{line_of(text, found.start())}"
                yield f"{where}: {found.group(2)} does not define {word}"


def edits(root, name, text):
    """The edits that a paper names, as `CRATE/LABEL`, and that are not there."""
    listed = source.crates(root)
    for found in EDIT.finditer(text):
        crate, label = found.groups()
        folder = source.MORE if label.startswith("more/") else "must-fail"
        there = root / "crates" / crate / folder / f"{label.removeprefix('more/')}.edit"
        if crate in listed and label not in PARTS and not there.is_file():
            where = f"docs/{name}:{line_of(text, found.start())}"
            yield f"{where}: the edit {crate}/{label} is not there"


def citations(root, known):
    """The citations of a rule that docs/RULES.md has not."""
    for folder in CITING:
        for file in sorted((root / folder).rglob("*")):
            if not file.is_file() or "target" in file.relative_to(root).parts:
                continue
            try:
                text = file.read_text()
            except UnicodeDecodeError:
                continue
            for found in CITATION.finditer(text):
                for number in [found.group(1), *re.findall(r"\d+\.\d+", found.group(2))]:
                    if number not in known:
                        where = f"{file.relative_to(root)}:{line_of(text, found.start())}"
                        yield f"{where}: docs/RULES.md has no {number}"


def wrong(root):
    contracts = (root / "docs" / "CONTRACTS.md").read_text()
    yield from edits(root, "CONTRACTS.md", contracts)
    paper = root / "docs" / "RULES.md"
    if paper.is_file():
        text = paper.read_text()
        yield from gaps(text)
        yield from cited(root, "RULES.md", text)
        yield from edits(root, "RULES.md", text)
        yield from citations(root, numbers(text))
