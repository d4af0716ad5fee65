#!/usr/bin/env python3
"""port_names.py [ROOT]
Respells the repository's own definitions and lemmas, once, behind the kit's port.py: words in snake
case; types, facts and modules keep their capitals. Functions of src/, exported C names, strings,
inputs and outputs stay. Where two names would fall together, the lemma takes `_lem`.
It tells each name that it gave such an ending, and writes which name became which to
docs/port-names.txt.
"""
import os
import re
import sys

HEAD = re.compile(r"^(\s*)((?:(?:pub|abbrev|unfoldable|ruleset) )*)([A-Za-z][\w'-]*)((?: [\w'-]+)* (?:\([^:]*:|\{[^:]*:|:).*)?$")
NAME = re.compile(r"[A-Za-z_][\w'₀-₉-]*")


def files(root, ending):
    for crate in sorted(os.listdir(os.path.join(root, "crates"))):
        for part in ("specs", "proofs", "src"):
            for folder, dirs, names in os.walk(os.path.join(root, "crates", crate, part)):
                dirs.sort()
                for name in sorted(names):
                    if name.endswith(ending):
                        yield os.path.join(folder, name), part


def declared(path):
    """The names that a file of definitions or laws declares: at the line's start, or as a field or a
    constructor two places in."""
    with open(path, encoding="utf-8") as f:
        for line in f:
            m = re.match(r"^(?:  )?((?:pub|abbrev|unfoldable) )*(?:(?:record|data|ruleset) )?([A-Za-z][\w'-]*) :(?= |$)", line) or \
                re.match(r"^((?:pub|abbrev|unfoldable) )*(?:record|data) ([A-Za-z][\w'-]*) [({:]", line)
            if m:
                yield m[2]


def snake(name):
    name = name.replace("-", "_")
    name = re.sub(r"(?<=[a-z0-9])([A-Z])(?![A-Z])", lambda m: "_" + m[1].lower(), name)
    return name


def of_source(root):
    """The functions of src/, and the other names there: parameters, fields and locals."""
    functions, others = set(), set()
    for path, part in files(root, ".rt"):
        text = open(path, encoding="utf-8").read()
        functions |= set(re.findall(r"\bfn (\w+)", text))
        others |= set(re.findall(r"\b(\w+):(?!:)", text)) | set(re.findall(r"\blet (?:mut )?(\w+)", text))
    return functions, others


def main(root):
    own, tokens = {}, set()
    functions, others = of_source(root)
    for path, part in files(root, ".antt"):
        text = open(path, encoding="utf-8").read()
        tokens |= set(NAME.findall(text))
        if os.path.basename(path) != "Proof.antt":
            for name in declared(path):
                own.setdefault(name, path)
    renamed, taken, told = {}, {}, []
    # a definition goes before a lemma: of two that fall together the lemma takes the ending
    order = sorted(own, key=lambda n: ("-" in n, n))
    for name in order:
        if name[0].isupper() and "-" not in name:
            continue
        new = snake(name) if name[0].islower() else name.replace("-", "_")
        if new == name:
            continue
        word = "-" not in name and new in functions and new not in others
        if new in taken or new in own or (new in tokens and not word) or new in others or new in RESERVED:
            why = taken.get(new) or ("a name that stands there")
            new += "_lem" if "-" in name else "_of"
            told.append(f"{name} -> {new}, for {why}")
            if new in taken or new in own or new in tokens:
                sys.exit(f"port_names: {name} falls together with {new}")
        renamed[name] = new
        taken[new] = name
    look = re.compile(r"(?<![\w'₀-₉-])(?:" + "|".join(sorted(map(re.escape, renamed), key=len, reverse=True)) + r")(?![\w'₀-₉-])")
    plain = re.compile(r"(?<![\w'₀-₉-])(?:" + "|".join(sorted((re.escape(n) for n in renamed if "-" not in n), key=len, reverse=True)) + r")(?![\w'₀-₉-])")
    for ending, rule in ((".antt", look), (".rt", plain)):
        for path, part in files(root, ending):
            old = open(path, encoding="utf-8").read()
            if ending == ".rt":
                # strings keep their words
                pieces = re.split(r'("(?:[^"\\\n]|\\.)*")', old)
                new = "".join(p if i % 2 else rule.sub(lambda m: renamed[m[0]], p) for i, p in enumerate(pieces))
            elif os.path.basename(path) == "Proof.antt":
                # `tie.` and what stands behind a dot are the kit's names
                new = re.sub(r"(?<![\w'.-])" + rule.pattern[len(r"(?<![\w'₀-₉-])"):], lambda m: renamed[m[0]], old)
                new = re.sub(r"^(pub )?([a-z][\w'-]*)-spec( :.*| =.*)?$", lambda m: (m[1] or "") + m[2].replace("-", "_") + "_spec" + (m[3] or ""), new, flags=re.M)
            else:
                new = rule.sub(lambda m: renamed[m[0]], old)
            if new != old:
                with open(path, "w", encoding="utf-8") as f:
                    f.write(new)
    spans = re.compile(r"`[^`\n]*`")
    for path in pages(root):
        old = open(path, encoding="utf-8").read()
        new = spans.sub(lambda m: look.sub(lambda n: renamed[n[0]], m[0]), old)
        if new != old:
            with open(path, "w", encoding="utf-8") as f:
                f.write(new)
    with open(os.path.join(root, "docs", "port-names.txt"), "w", encoding="utf-8") as f:
        f.writelines(f"{a} {b}\n" for a, b in sorted(renamed.items()))
    print("\n".join(told))
    print(f"port_names: {len(renamed)} names respelled, {len(told)} of them with an ending")


def pages(root):
    """The pages that name definitions; CHANGELOG and LANDINGS tell of what was, and stay."""
    for folder, dirs, names in os.walk(root):
        dirs[:] = sorted(d for d in dirs if d not in ("out", "target", ".git", "node_modules"))
        for name in sorted(names):
            if name.endswith(".md") and name not in ("CHANGELOG.md", "LANDINGS.md"):
                yield os.path.join(folder, name)


RESERVED = set("data record deriving module where use mod pub package open as unfoldable abbrev axiom unfold unfolding ruleset mutual infix infixl infixr elim let in do Type coe fcoe tcoe hcom com".split())

if __name__ == "__main__":
    main(sys.argv[1] if len(sys.argv) > 1 else ".")
