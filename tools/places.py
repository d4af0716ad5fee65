#!/usr/bin/env python3
"""places.py [ROOT] [--list] [N..]: counts in crates/*/src the places of the eight points of
docs/DESIGN-PASS.md, by their text; with --list each place is told, of the points N.., or of all."""

import collections
import pathlib
import re
import sys

words = [w for w in sys.argv[1:] if not w.startswith("--")]
root = pathlib.Path(words.pop(0)) if words and not words[0].isdigit() else pathlib.Path(".")
points = [int(w) for w in words] or list(range(1, 8))
FN = re.compile(r"^ *(?:pub(?:\(crate\))? )?(?:(?:unsafe )?extern \"C\" )?fn (\w+)", re.M)
found = collections.defaultdict(list)


def functions(text):
    """Of each function its name, its head up to the body, its body and its line."""
    starts = list(FN.finditer(text))
    for k, m in enumerate(starts):
        end = starts[k + 1].start() if k + 1 < len(starts) else len(text)
        whole = text[m.start():end]
        indent = re.match(r" *", whole).group(0)
        at = re.search(rf"(^{indent}\{{\n)|( \{{\n)", whole, re.M)
        if not at:
            continue
        close = re.search(rf"^{indent}\}}", whole[at.end():], re.M)
        body = whole[at.end():at.end() + close.start()] if close else whole[at.end():]
        yield m.group(1), whole[:at.start()], body, text.count("\n", 0, m.start()) + 1


def shape(body):
    """A body with its types, constants, numbers, strings and the modules of its paths left out."""
    body = re.sub(r"//[^\n]*", "", body)
    body = re.sub(r'b?"(?:[^"\\]|\\.)*"', "S", body)
    body = re.sub(r"\b(?:[a-z_0-9]+::)+", "", body)
    body = re.sub(r"\b[A-Z]\w*(?:::\w+)?", "T", body)
    body = re.sub(r"\b(?:0x[0-9a-f_]+|\d[\d_]*)\b", "N", body)
    return re.sub(r"\s+", " ", body).strip()


def counts(body):
    """Whether a loop counts or moves an index by hand."""
    for m in re.finditer(r"\b(loop|while [^{\n]*|for \w+ in [^{\n]*\.\.[^{\n]*) \{", body):
        depth, k = 1, m.end()
        while depth and k < len(body):
            depth += {"{": 1, "}": -1}.get(body[k], 0)
            k += 1
        inside = body[m.end():k]
        ranged = re.match(r"for (\w+) in", m.group(1))
        if ranged and re.search(rf"\b{ranged.group(1)}\b", inside):
            yield m.group(0)
        elif not ranged and re.search(r"\b(\w+) (?:[+-]=|= \1\b|= \w+(?:\.\w+)*;)", inside):
            yield m.group(0)


files = {f: f.read_text() for f in sorted(root.glob("crates/*/src/**/*.rt"))}
twins, clauses, together = (collections.defaultdict(list) for _ in range(3))
types = collections.defaultdict(list)
for f, text in files.items():
    name = str(f.relative_to(root))

    def line(m):
        return f"{name}:{text.count(chr(10), 0, m.start()) + 1}"

    for m in re.finditer(r"\benum (\w+)[^{]*\{([^}]*)\}", text):
        cases = re.findall(r"^ {4,}([A-Z]\w*)", m.group(2), re.M)
        if {"Refused", "Damaged", "Absent", "Exact", "Got", "None"} & set(cases):
            found[1].append(f"{line(m)} enum {m.group(1)}")
    for m in re.finditer(r"(?:::Refused|\bErr)\((\w+)\) => (?:\{\s*return )?(?:\w+::Refused|Err)\(\1\)", text):
        found[1].append(f"{line(m)} a refusal is handed on by hand")
    for m in re.finditer(r"^ +(?:pub(?:\(crate\))? )?(\w+): bool,$", text, re.M):
        found[1].append(f"{line(m)} flag {m.group(1)}")
    for m in re.finditer(r"\b(form|kind|reader|msg_type|record_type|ext_type|severity|code|number): (?:u8|u16|usize)\b", text):
        found[1].append(f"{line(m)} number {m.group(1)}")
    for m in re.finditer(r"^(?:pub(?:\(crate\))? )?(struct|enum) (\w+)[^{;]*\{\n(.*?)^\}", text, re.M | re.S):
        inside = re.sub(r"//[^\n]*\n|\s|pub(?:\(crate\))?", "", m.group(3))
        types[(m.group(1), re.sub(r"\b[A-Z]\w*", "T", inside) if m.group(1) == "enum" else inside)].append(f"{line(m)} {m.group(2)}")
    for fn, head, body, at in functions(text):
        where = f"{name}:{at} {fn}"
        if shape(body).count(" ") >= 6:
            twins[shape(body)].append(where)
        for loop in counts(body):
            found[3].append(f"{where}: {loop[:50]}")
        if re.search(r"^\s*match [^{]*\{", body):
            arms = re.findall(r"=> ([^\n]*?),?$", body, re.M)
            plain = [a for a in arms if re.fullmatch(r"(?:-?[\w:]+|text\(to, b\"[^\"]*\"\)|[\w.]+ [<=%!]+ [\w: ]+)", a)]
            if len(arms) >= 3 and len(plain) == len(arms):
                found[4].append(f"{where}: numbers, texts or tests by cases")
            calls = [a for a in arms if re.match(r"(?:\w+::)*[a-z]\w*\(", a)]
            if len(calls) >= 5 and len(plain) < len(arms):
                found[7].append(f"{where}: {len(calls)} arms call a function")
        for c in re.findall(r"(?:requires|ensures)(?: \w+)? \{ (.*) \}", head):
            clauses[c].append(where)
        params = re.findall(r"(\w+): (&?(?:mut )?[\w\[\]<>']+)", head.split("ensures")[0].split("requires")[0])
        plain = [f"{a}: {b}" for a, b in params if a not in ("out", "to", "self")]
        for i, a in enumerate(plain):
            for b in plain[i + 1:]:
                together[(a, b)].append(where)
    for m in re.finditer(r"\[\w+; \w+\],\n\s*\w+: usize", text):
        found[6].append(f"{line(m)} a buffer with a length beside it")
    for m in re.finditer(r": (?:Option<View>|OptView|View),$", text, re.M):
        found[6].append(f"{line(m)} a part by its place and length")
for group in twins.values():
    if len(group) > 1:
        found[2] += [f"{w} (of {len(group)} alike)" for w in group]
for group in types.values():
    if len(group) > 1:
        found[2] += [f"{w} (type, of {len(group)} alike)" for w in group]
for c, group in clauses.items():
    if len(group) >= 3:
        found[5].append(f"{len(group)} functions: {c}")
for pair, group in together.items():
    if len(group) >= 3:
        found[5].append(f"{len(group)} functions: {pair[0]}, {pair[1]}")
for n in points:
    print(f"point {n}: {len(found[n])}")
    if "--list" in sys.argv:
        for place in found[n]:
            print(f"  {place}")
