#!/usr/bin/env python3
"""Evaluates the definition on generated lists of requests and compares it with the Rust.

    oracle/definition.py [--seed S] [--count N] [--bytes B] [--lists L]

Takes the runs and calls of docs/DIFFERENCES.md, which reach each bound by itself. Draws N lists that start from an empty memory, and N that start from a memory and frames drawn by chance, which reach what no run does (an end
call that is refused). A third of each empty the memory now and then, to any width, or start at any. It takes the first L of each that have at most B bytes, and for whatever those do not reach the list of all that does
with the fewest bytes and codes. It asks the oracle what each comes to (its answers, and the memory, frames and width that it leaves), and states for each list that the
definition comes to the same, as a closed equation which the checker computes. The equations stand in a copy of the crate `definition` in a
folder outside the repository, which is then checked. Nothing is assumed: an equation that does not hold is an error that names it.

It says how many lists it passed over and why (too long, or too large a memory for the checker's steps), and what the others reached: answers by kind of request, the 60 combinations of code, access and
relation, kinds of retags and layouts, and the edges of each width. The exit status is 1 if an equation does not hold, if the Rust has no answer to a list, or if an answer,
combination or edge that there is was not reached. Refusal 1 is not among them: it is about lent buffers, which the definition's requests do not have.
"""
import argparse
import collections
import itertools
import pathlib
import re
import shutil
import subprocess
import sys
import tempfile

import differences
from differences import following, framed, parts, requests_of

HERE = pathlib.Path(__file__).resolve().parent
ROOT = HERE.parent
TOOLS = HERE / "target" / "release"
# (not below the repository, where `rt ci` refuses a crate that crates.txt does not list)
ROOM = tempfile.TemporaryDirectory(prefix="definition-on-runs-")
WORK = pathlib.Path(ROOM.name)
EACH_FILE = 50
# The most words that may follow a request's fourth in a run.
MOST_WORDS = 4096
KINDS = {"stack": "Stack", "heap": "Heap", "global": "Global", "function": "Function", "vtable": "VTable"}
MARKS = {"no": "No", "weak": "Weak", "strong": "Strong"}
# The answers that each kind of request can get. An end call's 4, 16 to 23 and 26 to 28 need a memory and frames that no run
# makes.
ACCESS = [0, 2, 4, 6, 7, 8, 9]
ANSWERS = {
    "allocate": [0, 2, 5, 15],
    "deallocate": [0, 2, 4, 7, 8, 10, 11, 12, 13, 18, 19, 20, 22, 23, 24, 27, 28],
    "load": ACCESS + [17, 21, 26],
    "store": ACCESS + [18, 19, 20, 22, 23, 27, 28],
    "retag": [0, 2, 3, 4, 7, 8, 9, 14, 15, 17, 21, 26],
    "new call": [0, 2],
    "end call": [0, 2, 4, 16, 17, 18, 19, 20, 21, 22, 23, 26, 27, 28],
    "dereferenceable": [0, 2, 4, 7, 8, 9],
    "signed dereferenceable": [0, 2, 4, 7, 8, 9],
    "leak check": [0, 2, 25],
    "kinds 10 to 14": [2],
    "empty": [0, 2],
    "cut short": [2],
}
KIND_NAMES = list(ANSWERS)
EMPTY = 15
# What must be met of the widths, as `generate` names it.
EDGES = [f"width {width}: by an emptying" for width in (16, 32, 64)] + [
    f"width {width}: {edge}"
    for width in (16, 32)
    for edge in [
        *(f"2 by the address, kind {kind}" for kind in (0, 1, 2, 3, 4, 7, 8)),
        "2 by the address, length 0",
        "2 by the address, without provenance",
        "2 by the lowest address that is too big",
        "2 by the lowest position",
        "5 by address plus size",
        "address plus size is the last address",
        "half of all addresses are asked for",
        "the highest position",
        "emptied with a live allocation",
        "emptied with an entry in a frame",
    ]
]


def listed(items):
    return "(" + " ∷ ".join(list(items) + ["[]"]) + ")"


def provenance(text):
    allocation, node = text.split(".")
    return f"record {{ allocation = {allocation}; node = {node} }}"


def answer(line):
    """A line of the output: the request's number, its refusal or 0, and what it gives."""
    _, refusal, *given = line.split(" ")
    if refusal == "25":
        return f"leak_answer (some {given[0]})"
    if refusal != "0" or given == ["-"]:
        return f"refused_with {refusal}"
    if "." in given[0]:
        return f"gives_pointer (some ({provenance(given[0])}))"
    return f"gives_words {listed(str(int(word, 16)) for word in given)}"


def state(lines):
    """The state of a run that the last lines of the output describe."""
    memory, frames = memory_and_frames(lines)
    return f"record {{ state = record {{ memory = {memory}; frames = {frames} }}; width = {width(lines)} }}"


def width(lines):
    (bits,) = [line.removeprefix("w ") for line in lines if line.startswith("w ")]
    return f"Bits{bits}"


def memory_and_frames(lines):
    allocations, frames = [], {}
    for line in lines:
        what, *fields = line.split(" ")
        if what == "a":
            _, life, kind, address, _, exponent = fields
            allocations.append({"head": f"state = {life.capitalize()}; kind = {KINDS[kind]}; exponent = {exponent}; address = {address}", "nodes": []})
        elif what == "d":
            words = [] if fields[1] == "-" else fields[1:]
            allocations[int(fields[0])]["words"] = listed(str(int(word, 16)) for word in words)
        elif what == "n":
            number, _, parent, mark, codes = fields
            codes = [] if codes == "-" else [str(int(code, 16)) for code in codes]
            parent = "0" if parent == "-" else parent
            allocations[int(number)]["nodes"].append(f"record {{ parent = {parent}; protected = {MARKS[mark]}; permissions = map permission {listed(codes)} }}")
        elif what == "f":
            entries = [] if fields[1] == "-" else fields[1:]
            frames[int(fields[0])] = "Open " + listed(provenance(entry) for entry in entries)
    memory = listed(f"record {{ {a['head']}; words = {a['words']}; nodes = {listed(a['nodes'])} }}" for a in allocations)
    return memory, listed(frames.get(f, "Closed") for f in range(32))


class Case:
    """A list of requests: the text of the memory that it starts from, if any, its bytes, what it reaches, and what the Rust says to it."""

    def __init__(self, name, drawn, features, output, from_start=False):
        length = 4 + int.from_bytes(drawn[:4], "big") if from_start else 0
        self.name = name
        self.start = drawn[4:length].decode().splitlines() if from_start else None
        self.run = drawn[length:]
        self.size = len(drawn)
        self.features = features
        lines = output.decode().splitlines()
        self.answers = [line for line in lines if line[0].isdigit()]
        self.left = [line for line in lines if not line[0].isdigit()]

    def cost(self):
        """How much there is to compute, roughly: bytes, and codes in the end."""
        return self.size + 4 * sum(len(line.split(" ")[5]) for line in self.left if line[0] == "n")

    def unanswered(self):
        """What stands where the Rust had no answer."""
        return [line for line in self.answers if line.split(" ")[1] == "!"]

    def requests(self):
        """The requests as the definition cuts them. That cut is the program's: a list in which one announces more words than a run may is given by its words."""
        requests = [[int(word, 16) for word in request.split(" ") if len(word) == 8] for request in requests_of(self.run)]
        if any(len(words) > 3 and following(words[0], words[3]) > MOST_WORDS for words in requests):
            return listed(listed(map(str, words)) for words in requests)
        return f"(requests_of {listed(map(str, self.run))})"

    def equation(self, opened):
        start = "start" if self.start is None else f"({state(self.start)})"
        return (
            f"{self.name} : run {start} {self.requests()} ≡ ({listed(map(answer, self.answers))}, {state(self.left)})\n"
            f"unfolding {opened}\n{self.name} = refl\n"
        )

    def counted(self):
        """Kind and refusal of each request."""
        for request, line in zip(requests_of(self.run), self.answers):
            yield kind_of(request), int(line.split(" ")[1])


def kind_of(request):
    """The kind of a request, given by its words, in words."""
    words = request.split(" ")
    if len(words) < 4 or len(words[-1]) < 8:
        return "cut short"
    first, fourth = int(words[0], 16), int(words[3], 16)
    if len(words) != 4 + following(first, fourth):
        return "cut short"
    return "empty" if first >> 28 == EMPTY else KIND_NAMES[min(first >> 28, 10)]


def unfolded():
    """The names of the definition that its evaluation opens, by module."""
    names = {}
    for module in ["Notation", "Permission", "Tree", "Layout", "Memory", "Frame", "Retag", "Request", "Run"]:
        text = (ROOT / "crates/definition/specs" / f"{module}.antt").read_text()
        names[module] = re.findall(r"(?m)^unfoldable pub (\S+) ", text)
    return names


def header(names):
    extra = {"Permission": ["permission"], "Memory": ["refused_with", "gives_pointer", "gives_words", "leak_answer"], "Frame": ["State"], "Run": ["RunState", "rest_request", "run", "start"]}
    lines = [
        "use Rattle.std.specs.Prelude.{ℕ, ◌≡◌, List, [], ◌∷◌, map}",
        "use mathlib.Core.Path.{refl}",
        "use mathlib.Core.Option.{none, some}",
        "use Rattle.definition.specs.Width.Width.{Bits16, Bits32, Bits64}",
        "use Rattle.definition.specs.Permission.Protected.{No, Weak, Strong}",
        "use Rattle.definition.specs.Memory.Liveness.{Live, Dead}",
        "use Rattle.definition.specs.Memory.AllocationKind.{Stack, Heap, Global, Function, VTable}",
        "use Rattle.definition.specs.Frame.Frame.{Closed, Open}",
    ]
    for module, own in names.items():
        lines.append(f"use Rattle.definition.specs.{module}.{{{', '.join(own + extra.get(module, []))}}}")
    return "\n".join(lines) + "\n"


def equations(cases, names):
    """A file of closed equations, one for each list."""
    opened = " ".join(name for own in names.values() for name in own)
    return "\n".join([header(names)] + [case.equation(opened) for case in cases])


def asked(data, *options):
    """What the Rust says to each list of the data."""
    return parts(subprocess.run([TOOLS / "oracle", "--list", "--batch", *options], input=data, stdout=subprocess.PIPE, check=True).stdout)


def bytes_of(requests):
    return bytes.fromhex("".join(requests).replace(" ", ""))


def lines_after(requests):
    """The memory, frames and width that a run leaves, as lines."""
    (output,) = asked(framed(bytes_of(requests)))
    return [line for line in output.decode().splitlines() if not line[0].isdigit()]


class Call:
    """A call of the library that no run has words for: its equation says what the definition answers to it."""

    def __init__(self, run):
        *before, last = run.requests
        self.name = f"page-{run.name}"
        self.run, self.answers, self.left, self.features = b"", [], [], set()
        self.claim = f"{claimed(last.split(), lines_after(before))} ≡ {run.said['library'][0]}"

    def unanswered(self):
        return []

    def counted(self):
        return []

    def equation(self, opened):
        return f"{self.name} : {self.claim}\nunfolding {opened}\n{self.name} = refl\n"


def claimed(call, lines):
    """A call in the definition's terms, behind what left the lines: its refusal, or the address that it gives."""
    memory, _ = memory_and_frames(lines)
    if call[0] == "allocate":
        _, _, exponent, address, size = call
        return f"allocate_refusal {width(lines)} {memory} {size} {exponent} {address}"
    if call[0] == "signed_dereferenceable":
        _, name, address, length = call
        pointer = f"record {{ address = {address}; provenance = some ({provenance(name)}) }}"
        return f"(dereferenceable ({pointer}) {back_and_ahead(length)} {memory}).0.refusal"
    _, address, offset, *bits = call
    at = f"Bits{bits[0]}" if bits else width(lines)
    return f"(wrapping_offset {at} (record {{ address = {address}; provenance = none }}) {back_and_ahead(offset)}).address"


def back_and_ahead(length):
    return f"{max(-int(length), 0)} {max(int(length), 0)}"


def with_entry(run):
    """A run that is given an entry in between: what comes before it is the memory to start from."""
    at = next(n for n, request in enumerate(run.requests) if request.startswith("entry "))
    _, frame, entry = run.requests[at].split()
    lines = [f"{line.removesuffix(' -')} {entry}" if line.startswith(f"f {frame} ") else line for line in lines_after(run.requests[:at])]
    drawn = framed("".join(line + "\n" for line in lines).encode()) + bytes_of(run.requests[at + 1 :])
    (output,) = asked(framed(drawn), "--start")
    return Case(f"page-{run.name}", drawn, set(), output, True)


def page_case(run):
    if run.is_run():
        data = bytes_of(run.requests)
        (output,) = asked(framed(data))
        return Case(f"page-{run.name}", data, set(), output)
    return with_entry(run) if any(request.startswith("entry ") for request in run.requests) else Call(run)


def page_cases():
    """The runs and calls of the page on differences. Those that only the library has must come to what the page says that it answers."""
    runs = list(differences.blocks(differences.PAGE.read_text()))
    cases = [page_case(run) for run in runs]
    for run, case in zip(runs, cases):
        if case.answers and not run.is_run() and case.answers[-1].split(" ")[1] != run.said["library"][0]:
            sys.exit(f"{case.name}: the page says {run.said['library'][0]}, the answer is {case.answers[-1]}")
    return cases


def drawn_cases(seed, count, from_start, widths):
    """The lists of a seed, with what each reaches and what the Rust says to it. The widths are 64, which all start with, or any."""
    lists, reached = WORK / "lists", WORK / "reached"
    options = ["--starts"] if from_start else []
    command = [TOOLS / "generate", *options, "--width", widths, "--seed", str(seed), "--count", str(count), "--out", lists, "--reached", reached]
    subprocess.run(command, check=True, stdout=subprocess.DEVNULL)
    data = lists.read_bytes()
    options = ["--start"] if from_start else []
    outputs = asked(data, *options)
    features = [set(filter(None, line.split("; "))) for line in reached.read_text().splitlines()]
    name = ("start-" if from_start else "list-") + ("" if widths == "64" else widths)
    parted = zip(parts(data), features, outputs)
    return [Case(f"{name}{n}", drawn, own, output, from_start) for n, (drawn, own, output) in enumerate(parted)]


def chosen_of(cases, most_bytes, most_lists):
    """The first short ones, and for what they do not reach the smallest that does."""
    short = [case for case in cases if case.cost() <= most_bytes]
    chosen = short[:most_lists]
    reached = set().union(*(case.features for case in chosen))
    added = []
    for case in sorted(cases, key=Case.cost):
        if not case.features <= reached:
            added.append(case)
            reached |= case.features
    return chosen, added, len(cases) - len(short)


def check(cases):
    """The names of the equations that do not hold, and of those at which the checker ran out of steps."""
    proofs = WORK / "crates/definition/proofs"
    for old in proofs.iterdir():
        old.unlink()
    names = unfolded()
    modules = []
    for first in range(0, len(cases), EACH_FILE):
        modules.append(f"Lists{first // EACH_FILE}")
        (proofs / f"{modules[-1]}.antt").write_text(equations(cases[first : first + EACH_FILE], names))
    (proofs / "Lib.antt").write_text("".join(f"mod {module}\n" for module in modules))
    checked = subprocess.run(["rt", "check"], cwd=WORK / "crates/definition", stdout=subprocess.PIPE, stderr=subprocess.STDOUT, text=True)
    errors = re.findall(r"error: `((?:list|start|page)-\w+)`(.*)", checked.stdout)
    if not errors and "logic=proved" not in checked.stdout:
        sys.exit(checked.stdout[-3000:] + "\nthe equations were not checked")
    too_large = {name for name, why in errors if "step limit" in why}
    return sorted({name for name, _ in errors} - too_large), sorted(too_large)


def report(cases):
    """What was reached; gives back what is missing."""
    counts = collections.Counter(pair for case in cases for pair in case.counted())
    missing = []
    print("answers, by kind of request:")
    for kind, answers in ANSWERS.items():
        others = {refusal for of, refusal in counts if of == kind and refusal not in answers}
        missing += [f"{kind} {refusal}" for refusal in answers if not counts[kind, refusal]] + [f"{kind} {refusal}, which is not expected" for refusal in others]
        print(f"  {kind}: " + ", ".join(f"{refusal} {counts[kind, refusal]} times" for refusal in answers))
    features = set().union(*(case.features for case in cases))
    pairs = {tuple(map(int, feature.split(" ")[1:])) for feature in features if feature.startswith("pair ")}
    all_pairs = {(code, access, relation) for code in range(15) for access in (0, 1) for relation in (0, 1)}
    missing += [f"code {code:x}, {['read', 'write'][access]}, {['local', 'foreign'][relation]}" for code, access, relation in sorted(all_pairs - pairs)]
    missing += [edge for edge in EDGES if edge not in features]
    edges = sum(feature.startswith("width ") for feature in features)
    layouts = sum(not feature.startswith(("pair ", "kind ", "width ")) for feature in features)
    refusals = sorted({refusal for _, refusal in counts if refusal})
    print(f"refusals: {', '.join(map(str, refusals))}")
    print(f"combinations of code, access and relation: {len(pairs & all_pairs)} of 60; kinds of retags and layouts: {layouts}; edges of a width: {edges}")
    print(f"missing: {', '.join(missing) or 'none'}")
    return missing


def main():
    options = argparse.ArgumentParser(description=__doc__, formatter_class=argparse.RawDescriptionHelpFormatter)
    options.add_argument("--seed", type=int, default=1)
    options.add_argument("--count", type=int, default=20000, help="how many lists of each sort are drawn, a third at any width")
    options.add_argument("--bytes", type=int, default=300, help="larger ones (bytes, and four for each code) are taken only for what the others do not reach")
    options.add_argument("--lists", type=int, default=1000, help="how many of the short ones of each sort are taken")
    chosen = options.parse_args()

    shutil.copytree(ROOT / "crates/definition", WORK / "crates/definition", ignore=shutil.ignore_patterns("proofs", "must-fail", "out"))
    (WORK / "crates.txt").write_text("definition:\n")
    (WORK / "crates/definition/proofs").mkdir()

    cases = page_cases()
    unanswered = [case for case in cases if case.unanswered()]
    print(f"docs/DIFFERENCES.md: {len(cases)} runs and calls taken")
    sorts = [(False, "from an empty memory"), (True, "from a memory drawn by chance")]
    for (from_start, what), widths in itertools.product(sorts, ["64", "any"]):
        share = lambda number: number - number // 3 if widths == "64" else number // 3
        drawn = drawn_cases(chosen.seed, share(chosen.count), from_start, widths)
        without = [case for case in drawn if case.unanswered()]
        unanswered += without
        short, added, longer = chosen_of([case for case in drawn if case not in without], chosen.bytes, share(chosen.lists))
        cases += short + added
        rest = len(drawn) - len(without) - len(short) - len(added)
        print(f"seed {chosen.seed}, {what}, width {widths}: {len(drawn)} lists drawn, {len(short)} short ones taken and {len(added)} for what those do not reach")
        print(f"  passed over: {len(without)} without an answer of the Rust, {rest} others, as {longer} are larger than {chosen.bytes} or the number was full")
    for case in unanswered:
        print(f"  {case.name}: {case.unanswered()[0]}")
    cases = [case for case in cases if not case.unanswered()]
    wrong, too_large = check(cases)
    if too_large and not wrong:
        # The others have no verdict before the checker comes to an end.
        cases = [case for case in cases if case.name not in too_large]
        wrong, _ = check(cases)
    print(f"  passed over: {len(too_large)} that take the checker too many steps {too_large or ''}")
    missing = report(cases)
    if wrong:
        sys.exit(f"seed {chosen.seed}: the definition differs from the Rust at {wrong}")
    requests = sum(len(case.answers) for case in cases)
    print(f"seed {chosen.seed}: {len(cases)} lists with {requests} requests, the definition and the Rust agree on all")
    sys.exit(1 if missing or unanswered else 0)


if __name__ == "__main__":
    main()
