#!/usr/bin/env python3
"""Counts the places in crates/*/src that docs/DESIGN-PASS.md speaks of. With -v it lists them. Words after it name points, else all are counted.

By text alone: a place that is counted may have its reason beside it (the page has them), and the counts say where to look."""
import re
import sys
from pathlib import Path

ROOT = Path(__file__).resolve().parent.parent
BUFFERS = ("allocs", "parents", "protectors", "words", "codes", "frames")
NUMBERS = r"(?:u8|u16|u32|u64|usize)"


def sources():
    for path in sorted(ROOT.glob("crates/*/src/*.rt")):
        yield path.relative_to(ROOT), path.read_text()


def functions():
    """Each function: its file, its line, its name, its parameters, what it returns, and its body."""
    head = re.compile(r"^ *(?:pub(?:\(crate\))? )?(?:extern \"C\" )?fn (\w+)(?:<[^>]*>)?\(", re.M)
    for path, text in sources():
        for found in head.finditer(text):
            depth, at = 1, found.end()
            while depth:
                depth += {"(": 1, ")": -1}.get(text[at], 0)
                at += 1
            parameters = text[found.end():at - 1]
            result = re.match(r"\s*->\s*([^\n{]+)", text[at:])
            indent = re.match(r" *", found.group()).group()
            opened = re.compile(r"^%s\{$|(?<= )\{$" % indent, re.M).search(text, at)
            end = re.compile(r"^%s\}$" % indent, re.M).search(text, opened.end()) if opened else None
            body = text[opened.end():end.start()] if end else ""
            line = text.count("\n", 0, found.start()) + 1
            yield path, line, found.group(1), parameters, result.group(1).strip() if result else "", body


def lines_with(pattern):
    test = re.compile(pattern)
    for path, text in sources():
        for number, line in enumerate(text.split("\n"), 1):
            code = line.split("//")[0]
            if test.search(code):
                yield f"{path}:{number}: {line.strip()}"


def at(path, line, name):
    return f"{path}:{line}: fn {name}"


def own_options():
    """1: enums with a case that says no, and one that has a value"""
    enum = re.compile(r"enum (\w+) \{\n(.*?)\n\}", re.S)
    no = re.compile(r"^    (?:None|Nothing|Refused|TooLong|NoMetadata|Stays)\b", re.M)
    for path, text in sources():
        for found in enum.finditer(text):
            if no.search(found.group(2)) and re.search(r"^    \w+(?:\(| \{)", found.group(2), re.M):
                yield f"{path}:{text.count(chr(10), 0, found.start()) + 1}: enum {found.group(1)}"


def fields(pattern):
    """The fields of structs and variants that fit."""
    item = re.compile(r"^(?:pub(?:\(crate\))? )?(?:struct|enum) \w+(?:<[^>]*>)? \{\n(.*?)^\}", re.M | re.S)
    for path, text in sources():
        for found in item.finditer(text):
            for field in re.finditer(pattern, found.group(1), re.M):
                line = text.count("\n", 0, found.start(1) + field.start()) + 1
                yield f"{path}:{line}: {field.group().strip()}"


def flags():
    """1: a flag in a struct, with values beside it"""
    return fields(r"^ +(?:pub )?\w+: bool,$")


def refusal_numbers():
    """1: functions that answer a refusal as a number, 0 for none"""
    for path, line, name, _, result, body in functions():
        refuses = re.search(r"refus|return \d+;|=> n,|deallocate|release", name + body)
        if result == "u8" and refuses and "refusal()" not in body and "self as u8" not in body:
            yield at(path, line, name)


def refusal_literals():
    """1: refusals written as numbers"""
    return lines_with(r"(?:Refused|Err)\(\d+\)")


def twins():
    """2: functions that are the same but for a type, a size, a constant or a name that they call"""
    def shape(body):
        body = re.sub(r"//[^\n]*", "", body)
        body = re.sub(r"\b%s\b" % NUMBERS, "N", body)
        body = re.sub(r"\b(?:0x[\da-fA-F_]+|\d[\d_]*)(?:u8|u16|u32|u64)?\b", "0", body)
        return re.sub(r"\b[a-z_]\w*", "v", re.sub(r"\s+", " ", body))

    groups = {}
    for path, line, name, _, _, body in functions():
        form = shape(body)
        if len(form) > 40:
            groups.setdefault((path.parts[1], form), []).append(at(path, line, name))
    for group in groups.values():
        if len(group) > 1:
            yield from group


def loops():
    """3: loops that are no `for`"""
    return lines_with(r"^\s*(?:while\b|loop\b)")


def conversions():
    """4: a value made from another by a function of one match, with a literal or a variant at each arm"""
    simple = re.compile(r"^\s*match [\w.]+(?: >> \d+)? \{\n(?:\s*[^\n]* => [^\n{]*,?\n)+\s*\}\s*$")
    for path, line, name, _, result, body in functions():
        if simple.match(body) and not re.search(r"=> [^\n]*\w\(.*\w+\(|=> \w+\(|=> [a-z_]+::", body):
            yield at(path, line, name)


def comparisons():
    """4: the smaller or the greater of two by hand"""
    return lines_with(r"if (\w+) < (\w+) \{ (?:\1 \} else \{ \2|\2 \} else \{ \1) \}|fn (?:smaller|lesser|greater)\b")


def buffers():
    """5: functions that take five or six of the buffers one by one"""
    for path, line, name, parameters, _, _ in functions():
        if sum(1 for b in BUFFERS if re.search(r"\b%s:" % b, parameters)) >= 5:
            yield at(path, line, name)


def lengths():
    """6: a buffer with its length beside it"""
    for path, line, name, parameters, _, _ in functions():
        if re.search(r"\[", parameters) and re.search(r"\b(?:len|count|size): usize", parameters):
            yield at(path, line, name)
    yield from fields(r"^ +(?:pub )?(?:count|len): usize,$")


def switches():
    """7: a value that only says which of several functions is called"""
    for path, line, name, _, _, body in functions():
        arms = re.findall(r"=> [\w:]+\(", body)
        if re.match(r"^\s*match \w+ \{", body) and len(arms) >= 2:
            yield at(path, line, name)


POINTS = [
    ("1 own Option or Result", own_options),
    ("1 flag beside a value", flags),
    ("1 refusal as a number", refusal_numbers),
    ("1 refusal written as a number", refusal_literals),
    ("2 twins", twins),
    ("3 loops by hand", loops),
    ("4 conversions by hand", conversions),
    ("4 the smaller or the greater", comparisons),
    ("5 buffers one by one", buffers),
    ("6 a buffer and its length", lengths),
    ("7 switches", switches),
]


def proofs():
    answers = list(ROOT.glob("crates/*/proofs/**/Answers.antt"))
    lines = sum(path.read_text().count("\n") for path in answers)
    helpers = [path for path in ROOT.glob("crates/*/proofs/*.antt") if path.name != "Lib.antt"]
    print(f"8 proofs: {len(answers)} files of answers, {lines} lines; {len(helpers)} files of lemmas")


def main():
    words = [word for word in sys.argv[1:] if word != "-v"]
    for name, places in POINTS:
        if words and name[0] not in words:
            continue
        found = list(places())
        print(f"{name}: {len(found)}")
        if "-v" in sys.argv:
            print("".join(f"    {place}\n" for place in found), end="")
    if not words or "8" in words:
        proofs()


main()
