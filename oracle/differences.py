#!/usr/bin/env python3
"""Tries every run of docs/DIFFERENCES.md, on the program and on the Rust.

    oracle/differences.py [--words] [NAME..]
    oracle/differences.py --search COUNT [--seed S] [--width W]

Each run stands there in a block of runs: its name, its requests, what the program answers to the last of them (`here:`) and what the
Rust says to it (`Rust:`). Behind a `|` stand lines that the output must have: of the memory that is left, or an earlier answer. The program is
crates/verdict/out/verdict, or VERDICT; the Rust is asked by itself (`oracle --itself`), so that its driver answers nothing first. The exit status is 1 if
something is not as the page says, or if a table and the blocks name different runs.

  NAME     only these
  --words  print the runs as words instead, one request on each line, for bin/verdict
  --search look for differences that the page does not name: COUNT generated runs, each up to the program's first refusal, on both. Prints the sorts
           of differences that it finds, with how often; the exit status is 1 if one is not among those of section 1 (`NAMED`)
  --width  16, 32 or any: runs that empty the memory to so many bits first, or now and then to any width (64: neither)
"""
import collections
import os
import pathlib
import re
import subprocess
import sys

HERE = pathlib.Path(__file__).resolve().parent
PAGE = HERE.parent / "docs" / "DIFFERENCES.md"
VERDICT = os.environ.get("VERDICT", HERE.parent / "crates" / "verdict" / "out" / "verdict")
ORACLE = HERE / "target" / "release" / "oracle"
NAME = r"[A-Z]\d+[a-z]?"
KINDS = "allocate,deallocate,load,store,retag,new call,end call,dereferenceable,signed dereferenceable,leak check".split(",")
EMPTY = 15
TOO_LARGE = "asking for a too large allocation"
# The messages of each number; 23 has the one of 21.
MESSAGES = {
    6: ["load from a misaligned pointer", "store to a misaligned pointer"],
    7: ["deallocating invalid pointer", "dereferencing pointer without provenance"],
    8: ["double-free", "dereferencing pointer to dead allocation"],
    9: ["dereferencing pointer outside the bounds of its allocation"],
    10: ["deallocating with pointer not to the beginning of its allocation"],
    11: [r"deallocating \w+ memory with \w+ deallocation operation"],
    12: ["deallocating with incorrect size information"],
    13: ["deallocating with incorrect alignment information"],
    15: [TOO_LARGE],
    17: ["Tree Borrows: local read of Disabled reference"],
    18: ["Tree Borrows: local write of Frozen reference"],
    19: ["Tree Borrows: local write of Disabled reference"],
    20: ["Tree Borrows: local write to protected Reserved reference that had a foreign read"],
    21: ["Tree Borrows: foreign read of protected Unique reference"],
    22: ["Tree Borrows: foreign write of protected (Frozen|Reserved) reference which had a local read"],
    23: ["Tree Borrows: foreign read of protected Unique reference"],
    24: ["Tree Borrows: deallocating strongly protected allocation"],
    26: ["Tree Borrows: local read of protected Disabled reference"],
    27: ["Tree Borrows: local write to protected Frozen reference"],
    28: ["Tree Borrows: local write to protected Disabled reference"],
}
TREE = [17, 18, 19, 20, 21, 22, 23, 24, 26, 27, 28]
# Section 1: a refusal here, and what the Rust may say instead: its words, or the number of its message.
NAMED = {
    2: ["no call", "accepted", "panic", "this address is not picked", f"UB: {TOO_LARGE}", 6, 7, 8, 9, 10, 11, 12, 13, *TREE],
    3: ["no call", "accepted", "panic", 7, 8, 9, 17, 21, 26],
    4: ["accepted", "panic", 6, 8, 9, 10, 11, 12, 13, *TREE],
    5: ["this address is not picked", f"UB: {TOO_LARGE}"],
    14: ["panic"],
    15: ["accepted", 17, 21, 26],
    25: ["a memory leak"],
}


class Run:
    def __init__(self, lines):
        self.name = lines[0].strip()
        self.said = {}
        self.requests = []
        for line in lines[1:]:
            who = re.match(r"(here|library|Rust): (.*)", line)
            if who:
                self.said[who[1]] = [part.strip() for part in who[2].split(" | ")]
            else:
                self.requests += expanded(line)

    def is_run(self):
        """Whether all of it is words; else some call has none, and only the library can be asked."""
        return all(re.fullmatch(r"[0-9a-f ]+", request) for request in self.requests)


def expanded(line):
    """`N * REQUEST` is so many of it, a `+` behind a word adds one each time, and `N*WORD` is so many words."""
    times = re.match(r"(\d+) \* (.*)", line)
    count, request = (int(times[1]), times[2]) if times else (1, line)
    request = re.sub(r"\b(\d+)\*([0-9a-f]{8})", lambda m: " ".join([m[2]] * int(m[1])), request)
    grown = lambda n: re.sub(r"([0-9a-f]{8})\+", lambda m: f"{int(m[1], 16) + n:08x}", request)
    return [grown(n) for n in range(count)]


def blocks(page):
    for block in re.findall(r"(?ms)^```runs\n(.*?)^```", page):
        for paragraph in block.strip().split("\n\n"):
            yield Run(paragraph.splitlines())


def cited(page):
    """The names in the last column of the tables."""
    names = set()
    for row in re.findall(r"(?m)^\|.*\| ([^|]*) \|$", page):
        names |= set(re.findall(rf"\b{NAME}\b", row))
    return names


def verdict(run):
    """The program's last answer, as this page writes it, and all lines that it printed."""
    words = bytes.fromhex("".join(run.requests).replace(" ", ""))
    output = subprocess.run([VERDICT], input=words, stdout=subprocess.PIPE, check=True).stdout.decode().splitlines()
    last = [line for line in output if line[0].isdigit()][-1]
    number, refusal, *third = last.split(" ")
    if int(number) + 1 != len(run.requests):
        return f"request {number} is the last", output
    given = "" if third == ["-"] else " " + " ".join(third)
    return ("accepted" if refusal == "0" else refusal) + given, output


def rust(run):
    text = "\n".join(run.requests) + "\n"
    output = subprocess.run([ORACLE, "--itself"], input=text.encode(), stdout=subprocess.PIPE, check=True).stdout.decode().splitlines()
    last = [line for line in output if line[0].isdigit()][-1]
    number, said = last.split(" ", 1)
    return said if int(number) + 1 == len(run.requests) else f"request {number}: {said}", output


def differs(expected, answer):
    """What of the expectation is not so."""
    said, output = answer
    agrees = said == expected[0] or (expected[0] == "panic" and said.startswith("panic: "))
    wrong = [] if agrees else [f"'{expected[0]}' is stated, '{said}' is so"]
    return wrong + [f"no line '{line}'" for line in expected[1:] if line not in output]


def judged(run):
    wrong = differs(run.said["Rust"], rust(run)) if "Rust" in run.said else ["the page does not say what the Rust says"]
    if run.is_run():
        wrong += differs(run.said["here"], verdict(run)) if "here" in run.said else ["the page does not say what is answered here"]
    elif "library" not in run.said:
        wrong.append("it is no run, and the page does not say what the library answers")
    return wrong


def following(first, fourth):
    """How many words follow the fourth: a store's bytes, a retag's layout."""
    return {3: fourth, 4: fourth % 2**23 if first % 8 < 3 else 0}.get(first >> 28, 0)


def requests_of(data):
    """A run's requests, each as its words in hexadecimal; the last may be cut short."""
    at = 0
    while at < len(data):
        first, fourth = (int.from_bytes(data[at + n : at + n + 4], "big") for n in (0, 12))
        end = min(at + 16 + 4 * following(first, fourth), len(data)) if len(data) - at >= 16 else len(data)
        yield " ".join(data[n : min(n + 4, end)].hex() for n in range(at, end, 4))
        at = end


def parts(data):
    """The byte strings of a file in which each stands behind its 32-bit length."""
    at = 0
    while at < len(data):
        length = int.from_bytes(data[at : at + 4], "big")
        yield data[at + 4 : at + 4 + length]
        at += 4 + length


def framed(data):
    return len(data).to_bytes(4, "big") + data


def is_same(refusal, said):
    """Whether the Rust's message is one of this number."""
    return any(re.fullmatch("UB: " + message, said) for message in MESSAGES.get(refusal, []))


def width_after(requests):
    """The width that accepted requests leave."""
    firsts = [int(request.split(" ")[0], 16) for request in requests]
    return next((16 << first % 8 for first in reversed(firsts) if first >> 28 == EMPTY), 64)


def is_beyond_bounds(words, width):
    """Whether 2 is for a number that the Rust takes: an exponent from 30 on, too many words, or an address or position too big for the width."""
    positions = [word >> 27 & 7 for word in words[4:]] if words[0] >> 28 == 3 else []
    exponent, address = words[0] >> 3 & 31, words[1] << 32 | words[2]
    return exponent >= 30 or len(words) > 4 + 4096 or address >> width > 0 or any(position >= width // 8 for position in positions)


def is_named(refusal, said, requests):
    """Whether section 1 has such a difference, in the answer to the last request. With 2, the Rust takes no other field than one that is beyond a bound."""
    if refusal == 2 and not said.startswith("no call"):
        words = [int(word, 16) for word in requests[-1].split(" ")]
        if not is_beyond_bounds(words, width_after(requests[:-1])):
            return False
    return any(is_same(what, said) if isinstance(what, int) else said.startswith(what) for what in NAMED.get(refusal, []))


def kind_name(request):
    kind = int(request[0], 16)
    return "empty" if kind == EMPTY else KINDS[kind] if kind < 10 else "kinds 10 to 14"


def search(seed, count, width):
    """Generated runs up to the program's first refusal, on the program and on the Rust by itself."""
    drawn = HERE / "target" / "drawn-runs"
    generate = [HERE / "target" / "release" / "generate", "--seed", str(seed), "--count", str(count), "--width", width, "--out", drawn]
    subprocess.run(generate, check=True, stdout=subprocess.DEVNULL)
    made, texts = [], []
    for data in parts(drawn.read_bytes()):
        output = subprocess.run([VERDICT], input=data, stdout=subprocess.PIPE, check=True).stdout.decode().splitlines()
        answers = [line.split(" ") for line in output if line[0].isdigit()]
        requests = list(requests_of(data))[: len(answers)]
        made.append((requests, answers))
        texts.append(framed("\n".join(requests).encode()))
    outputs = subprocess.run([ORACLE, "--itself", "--batch", "--no-memory"], input=b"".join(texts), stdout=subprocess.PIPE, check=True).stdout
    found, unnamed = collections.Counter(), 0
    for (requests, answers), output in zip(made, parts(outputs)):
        said = [line.split(" ", 1)[1] for line in output.decode().splitlines()]
        if not answers:
            found["no request"] += 1
            continue
        refusal = int(answers[-1][1])
        agrees = len(said) == len(answers) and (said[-1].startswith("accepted") if refusal == 0 else is_same(refusal, said[-1]))
        if agrees:
            found[f"the same: {f'{refusal}, {said[-1]}' if refusal else 'accepted'}"] += 1
            continue
        sort = re.sub(r"^(accepted|panic|no call).*", r"\1", said[-1])
        named = len(said) == len(answers) and is_named(refusal, said[-1], requests)
        unnamed += not named
        found[f"{kind_name(requests[-1])}: {refusal} here, the Rust: {sort}{'' if named else ', which the page does not name: ' + '; '.join(requests)}"] += 1
    for sort, times in sorted(found.items()):
        print(f"{times:7} {sort}")
    same = sum(times for sort, times in found.items() if sort.startswith("the same"))
    print(f"seed {seed}, width {width}: {count} runs, {same} the same, {unnamed} differences that the page does not name")
    return unnamed


def main():
    if "--search" in sys.argv:
        given = lambda name, default: sys.argv[sys.argv.index(name) + 1] if name in sys.argv else default
        sys.exit(1 if search(int(given("--seed", 1)), int(given("--search", 1000)), given("--width", "64")) else 0)
    page = PAGE.read_text()
    chosen = [argument for argument in sys.argv[1:] if not argument.startswith("-")]
    runs = [run for run in blocks(page) if not chosen or run.name in chosen]
    if "--words" in sys.argv:
        print("\n\n".join("\n".join([f"# {run.name}", *run.requests]) for run in runs))
        return
    bad = 0
    for run in runs:
        wrong = judged(run)
        bad += len(wrong)
        here = run.said.get("here") or run.said.get("library", ["?"])
        print(f"{run.name:5} {here[0]:12} {run.said.get('Rust', ['?'])[0]}")
        for why in wrong:
            print(f"      WRONG: {why}")
    if not chosen:
        names = [run.name for run in runs]
        for name in sorted(cited(page) ^ set(names)):
            bad += 1
            print(f"      WRONG: {name} is only in a table, or only in a block")
        bad += len(names) - len(set(names))
    print(f"{len(runs)} runs, {sum(run.is_run() for run in runs)} of them on the program, all on the Rust: {bad} are not as the page says")
    sys.exit(1 if bad else 0)


if __name__ == "__main__":
    main()
