"""What the scripts read of a tree: its crates, their functions with contracts, their definitions,
and the must-fail edits."""

import os
import pathlib
import re

GAUGES = "RONCW"
# the folder of the edits that the gate does not try; their labels have `more/` before them
MORE = "must-fail-more"


def crates(root):
    """The crates in the order of crates.txt, each with what it stands on."""
    listed = {}
    for line in (root / "crates.txt").read_text().splitlines():
        name, colon, below = line.partition("#")[0].partition(":")
        if colon:
            listed[name.split()[0]] = below.split()
    return listed


def is_library(root, crate):
    return (root / "crates" / crate / "src" / "lib.rt").is_file()


def is_static(root, crate):
    """Whether a crate is a static library: the exports for C, each a call of a library's function."""
    lines = (root / "crates.txt").read_text()
    return re.search(rf"^{crate} +staticlib\b", lines, re.M) is not None


class Function:
    """A function of a crate: where it stands, who may call it, and what it promises."""

    def __init__(self, crate, file, line, span, kind, name, visible, lent, result, said):
        self.crate, self.file, self.line, self.span = crate, file, line, span
        self.kind, self.name, self.visible = kind, name, visible
        self.lent, self.result = lent, result
        self.requires, self.ensures = said["requires"], said["ensures"]

    @property
    def public(self):
        return self.visible == "pub"

    @property
    def title(self):
        """The name, of a method with its type."""
        return f"{self.kind}::{self.name}" if self.kind else self.name

    @property
    def path(self):
        """The name by which the prover tells of it."""
        module = pathlib.PurePath(self.file).stem
        between = [] if module in ("lib", "main") else [module]
        return "::".join([self.crate, *between, self.title])

    @property
    def proof(self):
        """The folder of its proof, in proofs/."""
        return "/".join(self.path.split("::")[1:])


def closing(text, at):
    """The place of the bracket that closes the one at `at`."""
    depth = 0
    for place in range(at, len(text)):
        if text[place] in "([{":
            depth += 1
        elif text[place] in ")]}":
            depth -= 1
            if depth == 0:
                return place
    raise ValueError("a bracket is not closed")


def behind_parameters(text, at):
    """The place behind the type parameters that stand at `at`, where there are any."""
    depth = 0
    for place in range(at, len(text)):
        if text[place] == "<":
            depth += 1
        elif text[place] == ">" and text[place - 1] != "-":
            depth -= 1
        if depth == 0:
            return place
    raise ValueError("type parameters are not closed")


HEAD = re.compile(
    r'^[ \t]*(pub(?:\([^)]*\))?[ \t]+)?(?:(?:extern[ \t]+"C"|const)[ \t]+)*fn[ \t]+(\w+)', re.M
)
TYPE = re.compile(r"^impl(?:<[^>]*>)?[ \t]+(?:[\w:]+(?:<[^>]*>)?[ \t]+for[ \t]+)?(\w+)", re.M)
RESULT = re.compile(r"\s*->[^{;]*?(?=\s+(?:requires|ensures)\b|\s*[{;])")
PRINTS = re.compile(r"->\s*(?:io::Result<\(\)>|fmt::Result)\s*$")
CLAUSE = re.compile(r"\s*(requires|ensures)\*?(?:\s+\w+)?\s*\{")
# comments, texts and characters in quotes, which may hold brackets of their own
QUIET = re.compile(r"""//[^\n]*|(?P<kept>extern "C")|"(?:\\.|[^"\\])*"|'(?:\\.|[^'\\])'""")


def functions_of(crate, file, text):
    """The functions of one source file, in its order."""
    text = QUIET.sub(lambda quiet: quiet["kept"] or " " * len(quiet.group()), text)
    blocks = []
    for impl in TYPE.finditer(text):
        opened = text.index("{", impl.end())
        blocks.append((opened, closing(text, opened), impl.group(1)))
    found = []
    for head in HEAD.finditer(text):
        opened = text.index("(", behind_parameters(text, head.end()))
        closed = closing(text, opened)
        # a writer that is printed to is no value that is handed out
        taken = re.sub(r"\b(?:to:\s*&\s*mut\b|f: &mut fmt::Formatter\b)[^,]*", "", text[opened:closed])
        lent = re.search(r"&\s*(?:'\w+\s+)?mut\b", taken) is not None
        # what stands between the parameters and the body: a result, then clauses
        result = RESULT.match(text, closed + 1)
        at, said = result.end() if result else closed + 1, {"requires": [], "ensures": []}
        while clause := CLAUSE.match(text, at):
            at = closing(text, clause.end() - 1) + 1
            said[clause.group(1)].append(text[clause.end() : at - 1])
        kind = next((name for first, last, name in blocks if first < head.start() < last), "")
        visible = "".join((head.group(1) or "").split())
        line = text.count("\n", 0, head.start(2)) + 1
        span = (head.end() - len(head.group().lstrip()), closing(text, text.index("{", at)))
        # nor is it that printing failed, to a writer or in a `fmt`
        name, has = head.group(2), result is not None and not PRINTS.search(result.group())
        found.append(Function(crate, file, line, span, kind, name, visible, lent, has, said))
    return found


def functions(root, crate):
    """The functions of a crate, file by file."""
    found = []
    for file in sorted((root / "crates" / crate / "src").rglob("*.rt")):
        found += functions_of(crate, str(file.relative_to(root)), file.read_text())
    return found


def facts(function):
    """The contract: what each clause says, in one line each."""
    return [" ".join(fact.split()) for fact in function.ensures]


DEFINED = re.compile(
    r"^(?:(?:abbrev|unfoldable|opaque|pub|private|instance)\s+)*"
    r"(?:(?:record|data)\s+([^\s:(){}]+)|([^\s:(){}]+)\s+:(?=\s))",
    re.M,
)


def definitions(root, crate):
    """The definitions and theorems of a crate, each with its file; the proofs of single functions
    are not among them."""
    found = {}
    for part in ("specs", "proofs"):
        for file in sorted((root / "crates" / crate / part).glob("*.antt")):
            for name in DEFINED.finditer(file.read_text()):
                found.setdefault(name.group(1) or name.group(2), f"{crate}/{part}/{file.name}")
    return found


class Edit:
    """A must-fail edit: its first line is `# name [LETTERS], name: sentence`, the letters those of
    the broken gauges."""

    FIRST = re.compile(r"# ([^:]+(?:::\w+[^:]*)*): (\S.*)")
    NAME = re.compile(rf"(\S+)(?: \[([{GAUGES}]+)\])?")

    def __init__(self, root, crate, file):
        self.crate, self.file = crate, file
        self.label = ("more/" if file.parent.name == MORE else "") + file.stem
        self.lines = file.read_text().splitlines()
        first = self.FIRST.fullmatch(self.lines[0] if self.lines else "")
        names = [self.NAME.fullmatch(name) for name in first.group(1).split(", ")] if first else []
        self.well = bool(names) and all(names)
        self.names = [(name.group(1), name.group(2) or "") for name in names] if self.well else []
        self.sentence = first.group(2) if self.well else ""

    @property
    def title(self):
        return f"{self.crate}/{self.label}"

    @property
    def changes(self):
        """The file, the old text and the new text of each change."""
        file, old, found = "", "", []
        for line in self.lines:
            if line.startswith("file: "):
                file = line[len("file: ") :]
            elif line.startswith("old: "):
                old = line[len("old: ") :]
            elif line.startswith("new:"):
                found.append((file, old, line[len("new:") :].removeprefix(" ")))
        return found

    def altered(self, root, functions):
        """The functions in whose text it changes something: from the first character that differs
        to the last."""
        for file, old, new in self.changes:
            path = f"crates/{self.crate}/{file}"
            if file.startswith("src/") and (root / path).is_file():
                at = (root / path).read_text().find(old)
                same = len(os.path.commonprefix([old, new]))
                kept = len(os.path.commonprefix([old[same:][::-1], new[same:][::-1]]))
                first, last = at + same, at + len(old) - kept
                of = [function for function in functions if function.file == path and at >= 0]
                yield from (f for f in of if f.span[0] < last and first <= f.span[1])


def edits(root, crate):
    """The edits of a crate: those of the gate, then the others."""
    folder = root / "crates" / crate
    files = [*sorted((folder / "must-fail").glob("*.edit")), *sorted((folder / MORE).glob("*.edit"))]
    return [Edit(root, crate, file) for file in files]


def named(name, known):
    """The functions among `known` that a name of an edit means: a method also by its bare name,
    where no other function has it."""
    return [function for function in known if name in (function.title, function.name)]
