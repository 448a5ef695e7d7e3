#!/usr/bin/env python3
"""Ends every open call, after generated lists and inside them, and asks the Rust: no end call may be refused, but with 2.

    oracle/ends.py [--seed S] [--count N] [--places P] [--starts] [--width W]

That is the claim of docs/landings/M-109.md, which is proved of the definition; here it is tried on the Rust itself. Draws N lists of requests from the
empty memory, and takes of each the first requests, in up to P lengths spread over it. Behind these it puts an end call for each of the 32 frames. Every end
call, those of the list among them, has to be accepted or answered with 2, as for a frame that is not open, and in the end no frame may be open.

With --width 16, 32 or any the lists empty the memory, which closes all frames: to so many bits first, or now and then to any width. (64: not at all.)

With --starts the lists start from a memory and frames drawn by chance, which no requests have made. The claim does not hold there, and refusals are found.

Prints how many end calls got which answer. The exit status is 1 if another refusal than 2 was met, or a frame stayed open.
"""
import argparse
import collections
import pathlib
import subprocess
import sys
import tempfile

from differences import following, framed, parts, requests_of

TOOLS = pathlib.Path(__file__).resolve().parent / "target" / "release"
FRAMES = 32
END_CALL = 6
# of generated lists
WIDTHS = ["16", "32", "64", "any"]
# so many runs are asked in one process
EACH_TIME = 20000


def drawn(seed, count, starts, width):
    """The generated lists, each with the text of what it starts from, or none."""
    with tempfile.NamedTemporaryFile() as file:
        kind = "--starts" if starts else "--lists"
        subprocess.run([TOOLS / "generate", kind, "--seed", str(seed), "--count", str(count), "--width", width, "--out", file.name], check=True)
        data = list(parts(pathlib.Path(file.name).read_bytes()))
    if not starts:
        return [(b"", run) for run in data[::3]]
    return [(part[: 4 + int.from_bytes(part[:4], "big")], part[4 + int.from_bytes(part[:4], "big") :]) for part in data]


def words_of(request):
    return bytes.fromhex(request.replace(" ", ""))


def is_whole(request):
    """Whether no word is missing: a list's last request may be cut short, and would take the words of what follows."""
    first, fourth = (int.from_bytes(request[n : n + 4], "big") for n in (0, 12))
    return len(request) >= 16 and len(request) == 16 + 4 * following(first, fourth)


def end_call(frame):
    return (END_CALL << 28).to_bytes(4, "big") + bytes(8) + frame.to_bytes(4, "big")


def lengths(total, most):
    """Up to `most` lengths from 1 to the total, spread over it, the total among them."""
    return sorted({total - total * n // most for n in range(most)} - {0})


def ended(lists, places):
    """The runs: what they start from, the requests, and the end calls behind them."""
    ends = [end_call(frame) for frame in range(FRAMES)]
    for start, run in lists:
        requests = [request for request in map(words_of, requests_of(run)) if is_whole(request)]
        for length in lengths(len(requests), places):
            yield start, requests[:length] + ends


def asked(runs, starts):
    """The oracle's output for each run."""
    command = [TOOLS / "oracle", "--list", "--batch"] + (["--start"] if starts else [])
    given = b"".join(framed(start + b"".join(requests)) for start, requests in runs)
    said = subprocess.run(command, input=given, stdout=subprocess.PIPE, check=True).stdout
    return [output.decode().splitlines() for output in parts(said)]


def judge(requests, lines, found):
    """Counts the answers to end calls. Returns whether one is a refusal other than 2, or a frame stayed open."""
    wrong = any(line.startswith("f ") for line in lines)
    for request, line in zip(requests, lines):
        if request[0] >> 4 == END_CALL:
            refusal = int(line.split(" ")[1])
            found[refusal] += 1
            wrong = wrong or refusal not in (0, 2)
    return wrong


def main():
    given = argparse.ArgumentParser(description=__doc__.splitlines()[0])
    given.add_argument("--seed", type=int, default=1)
    given.add_argument("--count", type=int, default=5000)
    given.add_argument("--places", type=int, default=8)
    given.add_argument("--starts", action="store_true")
    given.add_argument("--width", default="64", choices=WIDTHS)
    options = given.parse_args()
    runs = list(ended(drawn(options.seed, options.count, options.starts, options.width), options.places))
    found, wrong = collections.Counter(), 0
    for at in range(0, len(runs), EACH_TIME):
        some = runs[at : at + EACH_TIME]
        outputs = asked(some, options.starts)
        if len(outputs) != len(some):
            sys.exit(f"ends: {len(some)} runs, but {len(outputs)} outputs")
        wrong += sum(judge(requests, lines, found) for (_, requests), lines in zip(some, outputs))
    print(f"{len(runs)} runs from {options.count} lists of seed {options.seed}, width {options.width}; end calls by their answers:")
    for refusal, times in sorted(found.items()):
        print(f"{refusal:>4} {times}")
    print(f"{wrong} runs with an end call refused otherwise than with 2, or a frame left open")
    return 1 if wrong else 0


if __name__ == "__main__":
    sys.exit(main())
