"""The definitions of specs/: what each file says, and which of them the contracts of public
functions need."""

import re

import source

# Crates that who links C or Rust reads besides; demand 3's clause of the readers of hellos; crates
# whose contracts are theorems.
EXPORTS = ("norrabist_c", "norrabist_ffi")
SPLITS = ("BySplit ", "ByVersion ")
THEOREMS = ("claim_rows", "claim_readers", "claim_wayback", "claim_writers", "claims")

NAMED = re.compile(r"^(?:(?:abbrev|unfoldable|opaque|pub)\s+)*(?:(?:record|data)\s+)?([^\s:(){}]+)")
TAKEN = re.compile(r"^(pub )?use (\S+?)\.\{([^}]*)\}$")
LENT = re.compile(r"^ghost use (\S+?)\.\{([^}]*)\};$", re.M)
FILE = re.compile(r"Rattle\.(\w+)\.specs(?:\.([A-Z]\w*))?$")
WORD = re.compile(r"[^\s(){},;.\[\]]+")
FIELD = re.compile(r"(?<=[\w')])\.\w+")
SKIPPED = ("use ", "pub mod ", "infix")


def words_of(text):
    """The words of a text that may name a definition: a field that is taken of a record, `r.name`,
    does not."""
    return WORD.findall(FIELD.sub(" ", text))


def named(taken):
    """The name under which a page has a word that a line of `use` takes."""
    return taken.strip().rpartition(".")[2].rpartition(" as ")[2]


class File:
    """A file of definitions: its lines, what its heading says, its definitions by name, and where
    the words that it takes stand."""

    def __init__(self, root, crate, name):
        self.crate, self.name = crate, name
        self.path = f"{crate}/specs/{name}.antt"
        text = (root / "crates" / self.path).read_text().splitlines()
        self.lines, self.defined, self.taken, self.handed, self.owner = len(text), {}, {}, set(), {}
        heading, known = [], None
        for line in text:
            if line.startswith("--") and not self.taken and not self.defined:
                heading.append(line.removeprefix("--").strip())
            elif use := TAKEN.match(line):
                self.take(use.group(2), use.group(3), use.group(1))
            elif line.strip() and not (line.lstrip().startswith("--") or line.startswith(SKIPPED)):
                if not line[0].isspace() and line[0] not in "})":
                    known = NAMED.match(line).group(1)
                self.defined.setdefault(known, []).append(line)
        self.heading = " ".join(heading)
        for known, said in self.defined.items():
            if re.match(r"(pub )?data ", said[0]):
                for case in said[1:]:
                    self.owner[case.split()[0]] = known

    def take(self, path, names, handed):
        """Where a word stands that it takes: the file, or the folder of a crate whose Lib passes it
        on."""
        file = FILE.match(path)
        for name in map(named, names.split(",")):
            where = f"{file.group(2)}.antt" if file and file.group(2) else ""
            self.taken[name] = f"{file.group(1)}/specs/{where}" if file else None
            if handed:
                self.handed.add(name)


def files(root):
    """The files of definitions, each after those that it stands on: by the crates' order, and a
    crate's as its Lib names them."""
    found = {}
    for crate in source.crates(root):
        listed = root / "crates" / crate / "specs" / "Lib.antt"
        text = listed.read_text() if listed.is_file() else ""
        for name in re.findall(r"^pub mod (\w+)$", text, re.M):
            file = File(root, crate, name)
            found[file.path] = file
    return found


def passed_on(lib):
    """The words that a Lib passes on."""
    uses = [use for line in lib.splitlines() if (use := TAKEN.match(line))]
    return [named(name) for use in uses for name in use.group(3).split(",")]


def standing(known, file, word):
    """The file that a file takes a word from: of a crate whose Lib passes it on the one that has
    it."""
    where = file.taken.get(word) or ""
    if not where.endswith("/"):
        return known.get(where)
    for other in known.values():
        if other.path.startswith(where) and word in {*other.defined, *other.owner, *other.handed}:
            return other
    return None


def resolve(known, file, word):
    """The definition that a word of a file means, as the file's path and the name."""
    if word in file.defined:
        return file.path, word
    if word in file.owner:
        return file.path, file.owner[word]
    other = standing(known, file, word)
    return resolve(known, other, word) if other else None


def closure(known, found):
    """What the definitions need, they themselves among it."""
    reached, left = set(), list(found)
    while left:
        path, name = left.pop()
        if (path, name) not in reached:
            reached.add((path, name))
            said = [word for line in known[path].defined[name] for word in words_of(line)]
            left += [one for word in said if (one := resolve(known, known[path], word))]
    return reached


class Contracts:
    """The words that a source file of a crate lends its contracts."""

    def __init__(self, text):
        self.path, self.defined, self.owner, self.taken = "", {}, {}, {}
        for path, names in LENT.findall(text):
            File.take(self, path, names, None)


def needed(root, known, crates, answers=False):
    """The definitions that the contracts of these crates' public functions need; with `answers`
    without demand 3's clause."""
    found = set()
    for crate in crates:
        lent = {}
        for function in source.functions(root, crate):
            if function.public and source.is_library(root, crate):
                if function.file not in lent:
                    lent[function.file] = Contracts((root / function.file).read_text())
                for fact in source.facts(function):
                    if answers and fact.startswith(SPLITS):
                        continue
                    meant = [resolve(known, lent[function.file], word) for word in words_of(fact)]
                    found |= {one for one in meant if one}
    return closure(known, found)


def groups(root, known):
    """The definitions in four: what the answers of the Rattle functions need, what only the exports
    do, what only demand 3's clause does, and theorems."""
    listed = source.crates(root)
    rattle = [crate for crate in listed if crate not in EXPORTS + THEOREMS]
    answers = needed(root, known, rattle, answers=True)
    exports = needed(root, known, [crate for crate in listed if crate in EXPORTS]) - answers
    splits = needed(root, known, rattle) - answers - exports
    every = {(file.path, name) for file in known.values() for name in file.defined}
    return answers, exports, splits, every - answers - exports - splits
