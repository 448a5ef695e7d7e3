#!/usr/bin/env python3
"""Brings the names of the definitions, fields and lemmas in specs/, proofs/, contracts and edits to today's spelling: words in snake case.

usage: python3 tools/respell.py           at the top of the repository, once, after the kit's port.py
       python3 tools/respell.py --clash   lists the new names that some file used already for something else

A name in camel case that begins with a small letter becomes snake case; so does a dash in the name of a field or a constructor that specs/ or proofs/ declare.
Lemmas keep the dashes that join the parts of their names. Names in src/ that are no words of antt, strings, inputs and outputs are not touched.
"""
import collections
import os
import re
import sys

TOKEN = re.compile(r"[^\s(){}\[\];,.:λ→←×⊎«»⟨⟩`\"/]+")
CAMEL = re.compile(r"^[a-z]\w*$")

# where the new name would fall together with another
OWN = {
    "cut-requests": "requests_cut",
    "is-freeze": "is_freeze_flag",
    "long-store": "store_too_long",
    "slice-mask": "mask_of_slice",
    "tuple-mask": "mask_of_tuple",
    "roomNodes": "nodes_room",
    "roomCodes": "codes_room",
    "same_bool": "same_bool_lem",
    "same_outcome": "same_outcome_lem",
    "walk_after": "walk_after_lem",
    "none_after": "none_after_lem",
    "in_bounds": "in_bounds_lem",
    "is_live": "is_live_lem",
    "record_of": "lent_record",
}


def snake(name):
    return re.sub(r"(?<=[a-z0-9])([A-Z])(?=[a-z0-9]|$|')", lambda m: "_" + m.group(1).lower(), name)


def files(endings):
    for top, dirs, names in os.walk("crates"):
        dirs[:] = [d for d in dirs if d != "out"]
        for n in sorted(names):
            if n.endswith(endings):
                yield os.path.join(top, n)


def code_of(text):
    return re.sub(r"(?m)^\s*--.*$|\s--\s.*$", "", text)


def is_camel(part):
    return re.match(r"[a-z]", part) and re.search(r"[a-z0-9][A-Z]", part)


def members():
    """Fields and constructors with a dash."""
    found = set()
    for p in files(".antt"):
        inside = False
        for line in open(p, encoding="utf-8"):
            if re.match(r"(pub )?(data|record) ", line):
                inside = True
            elif line.strip() and not line.startswith(" ") and not line.startswith("--"):
                inside = False
            m = inside and re.match(r"  (?:pub )?((?:[^\s:(){}=]+ )+): ", line)
            if m:
                found |= {n for n in m.group(1).split() if re.match(r"[a-z]\w*-", n)}
    return found


def renames():
    dashed = members()
    table = {}
    for p in files(".antt"):
        for w in set(TOKEN.findall(code_of(open(p, encoding="utf-8").read()))):
            new = w
            if w in OWN:
                new = OWN[w]
            else:
                new = "-".join(snake(q) if is_camel(q) else q for q in w.split("-"))
                if w in dashed:
                    new = new.replace("-", "_")
            if new != w:
                table[w] = new
    return table


def respell(text, table):
    return TOKEN.sub(lambda m: m.group(0) if m.group(0) in OWN and text[: m.start()].endswith(".") else table.get(m.group(0), m.group(0)), text)


def respell_rust(text, table):
    """All but string literals; a name of src/ stays."""
    table = {w: n for w, n in table.items() if not re.fullmatch(r"[a-z0-9_]+", w)}
    parts = re.split(r'("(?:[^"\\\n]|\\.)*")', text)
    return "".join(q if i % 2 else respell(q, table) for i, q in enumerate(parts))


def clashes(table):
    new = collections.defaultdict(set)
    for old, name in table.items():
        new[name].add(old)
    for name, olds in sorted(new.items()):
        if len(olds) > 1:
            print("two names:", name, sorted(olds))
    for p in files((".antt", ".rt")):
        text = open(p, encoding="utf-8").read()
        words = set(TOKEN.findall(code_of(text) if p.endswith(".antt") else re.sub(r"//.*", "", text)))
        for w in sorted(words & set(new)):
            print(("both:" if words & new[w] else "alone:"), w, p)


def main():
    table = renames()
    if "--clash" in sys.argv:
        clashes(table)
        return
    if "--table" in sys.argv:
        for w in sorted(table):
            print(w, table[w])
        return
    for p in files((".antt", ".rt", ".edit")):
        old = open(p, encoding="utf-8").read()
        new = respell_rust(old, table) if p.endswith(".rt") else respell(old, table)
        if new != old:
            open(p, "w", encoding="utf-8").write(new)


main()
