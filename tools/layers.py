"""crates.txt and crates/README.md held to what each crate names."""

import re

import source

KIT = ()
OF_CODE = re.compile(r"(?<![\w:])([a-z_0-9]+)::")
OF_SPECS = re.compile(r"\bRattle\.([a-z_0-9]+)\.")
USE = re.compile(r"^(?:pub )?use ([a-z_0-9]+)(?:::\w+)*::(\w+);", re.M)
PASSED = re.compile(r"^pub use ([a-z_0-9]+)::", re.M)
TYPE = re.compile(r"^pub (?:struct|enum) \w+(?:<[^>]*>)? \{(.*?)^\}", re.M | re.S)
# a line of crates/README.md that is of a crate: a row of a table, an item, or the name first
LINE = re.compile(r"^(?:\| ?|[-*] |#+ )?(?:\*\*)?`([a-z_0-9]+)`")


def code_of(file):
    """A source file without its comments."""
    return re.sub(r"//[^\n]*", "", file.read_text())


def named(root, crate):
    """The crates that a crate names in src, specs or proofs."""
    found = set()
    for part in ("src", "specs", "proofs"):
        for file in (root / "crates" / crate / part).rglob("*"):
            if file.suffix in (".rt", ".antt"):
                found |= set(OF_SPECS.findall(file.read_text()))
            if file.suffix == ".rt":
                found |= set(OF_CODE.findall(code_of(file)))
    return found


def shown(root, crate):
    """The crates whose types stand in public types of a crate, or whose words it passes on."""
    found = set()
    for file in (root / "crates" / crate / "src").rglob("*.rt"):
        text = code_of(file)
        uses = {name: of for of, name in USE.findall(text)}
        found |= set(PASSED.findall(text))
        for body in TYPE.findall(text):
            found |= {uses[word] for word in re.findall(r"\w+", body) if word in uses}
    return found


def reached(first, through):
    """What is reached from these crates, they themselves among it."""
    found, left = set(first), list(first)
    while left:
        new = through.get(left.pop(), set()) - found
        found |= new
        left += new
    return found


def idle(root):
    """What a line of crates.txt names and its crate neither names nor reaches."""
    listed = source.crates(root)
    every = {*listed, *KIT}
    through = {crate: shown(root, crate) & every - {crate} for crate in listed}
    for crate, below in listed.items():
        known = reached(named(root, crate) & every - {crate}, through)
        for other in below:
            if other not in known:
                yield f"crates.txt: {crate} neither names nor reaches {other}"


def mapped(root):
    """Where crates/README.md has not each crate once, in the order of crates.txt."""
    paper = root / "crates" / "README.md"
    if not paper.is_file():
        return
    listed = list(source.crates(root))
    lines = [LINE.match(line) for line in paper.read_text().splitlines()]
    found = [line.group(1) for line in lines if line and line.group(1) in listed]
    for crate in listed:
        if (times := found.count(crate)) != 1:
            yield f"crates/README.md has {times} lines of the crate {crate}, and not one"
    if sorted(found) == sorted(listed) and found != listed:
        first = next(mine for mine, theirs in zip(found, listed) if mine != theirs)
        yield f"crates/README.md has another order than crates.txt, from {first} on"


def wrong(root):
    yield from idle(root)
    yield from mapped(root)
