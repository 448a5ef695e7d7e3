#!/usr/bin/env python3
"""Follows shared arguments through generated lists on the Rust: until their release or an emptying, no byte behind one may change and no allocation may die.

    oracle/stays.py [--seed S] [--count N] [--width W]

That is the claim of docs/landings/M-113.md, which is proved of the definition; here it is tried on the Rust itself. Draws N lists of requests from the
empty memory, and asks for the state behind each request of a list that has a shared reference as an argument (a retag at function entry, extra 0). Of
each such retag that makes a node it takes the bytes that the node has with code d, Frozen with a local read: its freeze bytes inside. As long as the
node is an entry of a frame, their words have to be what they were before the retag, and the allocation live. An accepted emptying forgets all of them.
With --width 16, 32 or any the lists empty the memory: to so many bits first, or now and then to any width. (64: not at all.)

Prints how many arguments and bytes were followed, over how many states, how many of them an emptying forgot before their release, how many writes were refused with 22 meanwhile, and how many of the bytes were
changed or freed after the release, where the claim says nothing. The exit status is 1 if one was changed or freed before, or if there was no such write or
no such byte, so that nothing was tried.
"""
import argparse
import collections
import itertools
import sys

from differences import requests_of
from ends import WIDTHS, asked, drawn, is_whole, words_of

RETAG = 4
EMPTY = 15
# the refusal of a write, a store's or a deallocation's, that meets what an argument of an open call has read
FOREIGN_WRITE = "22"
# so many lists are asked in one process
EACH_TIME = 200


def is_shared_argument(request):
    first, fourth = (int.from_bytes(request[n : n + 4], "big") for n in (0, 12))
    return first >> 28 == RETAG and first & 7 == 0 and fourth >> 31 == 1


class State:
    """What the oracle prints behind the answers: memory and frames."""

    def __init__(self, lines):
        self.live, self.words, self.codes, self.entered = {}, {}, {}, set()
        for line in lines:
            kind, *fields = line.split(" ")
            if kind == "a":
                self.live[fields[0]] = fields[1] == "live"
            elif kind == "d":
                self.words[fields[0]] = [] if fields[1] == "-" else fields[1:]
            elif kind == "n":
                self.codes[f"{fields[0]}.{fields[1]}"] = fields[4]
            elif kind == "f":
                self.entered |= set(fields[1:]) - {"-"}


def keeps(state, node, byte, word):
    allocation = node.split(".")[0]
    return state.live[allocation] and state.words[allocation][byte] == word


def follow(requests, outputs, found):
    """Follows the arguments of one list. Returns what was wrong, a line for each."""
    held, wrong, before = {}, [], State([])
    for length, (request, lines) in enumerate(zip(requests, outputs), 1):
        answer, state = lines[length - 1].split(" "), State(lines[length:])
        node = answer[2]
        if is_shared_argument(request) and answer[1] == "0" and node in state.codes and node not in before.codes:
            words = before.words[node.split(".")[0]]
            held[node] = {byte: words[byte] for byte, code in enumerate(state.codes[node]) if code == "d"}
            found["arguments"] += 1
            found["bytes"] += len(held[node])
        if request[0] >> 4 == EMPTY and answer[1] == "0":
            found["forgotten"] += sum(node in before.entered for node in held)
            held.clear()
        for node, bytes in held.items():
            changed = [byte for byte, word in bytes.items() if not keeps(state, node, byte, word)]
            if node in state.entered:
                found["states"] += 1
                wrong += [f"request {length - 1}: byte {byte} behind {node} is changed or freed" for byte in changed]
            else:
                found["afterwards"] += len(changed)
                for byte in changed:
                    del bytes[byte]
        found["refused"] += answer[1] == FOREIGN_WRITE and any(node in state.entered for node in held)
        before = state
    return wrong


def states(lists):
    """The oracle's output behind each request of the lists."""
    runs = [(b"", requests[:length]) for requests in lists for length in range(1, len(requests) + 1)]
    outputs = asked(runs, False)
    if len(outputs) != len(runs):
        sys.exit(f"stays: {len(runs)} runs, but {len(outputs)} outputs")
    return outputs


def main():
    given = argparse.ArgumentParser(description=__doc__.splitlines()[0])
    given.add_argument("--seed", type=int, default=1)
    given.add_argument("--count", type=int, default=5000)
    given.add_argument("--width", default="64", choices=WIDTHS)
    options = given.parse_args()
    lists = ([request for request in map(words_of, requests_of(run)) if is_whole(request)] for _, run in drawn(options.seed, options.count, False, options.width))
    lists = [requests for requests in lists if any(map(is_shared_argument, requests))]
    found, wrong = collections.Counter(), []
    for at in range(0, len(lists), EACH_TIME):
        some = lists[at : at + EACH_TIME]
        outputs = iter(states(some))
        for requests in some:
            wrong += follow(requests, itertools.islice(outputs, len(requests)), found)
    print(f"{len(lists)} of {options.count} lists of seed {options.seed}, width {options.width}, have a shared argument; they have {sum(map(len, lists))} requests")
    print(f"{found['arguments']} accepted with {found['bytes']} freeze bytes, followed up to their release, at {found['states']} states in all")
    print(f"{found['forgotten']} arguments forgotten by an emptying before their release")
    print(f"{found['refused']} writes refused with 22 meanwhile; {found['afterwards']} bytes changed or freed after the release")
    for line in wrong[:20]:
        print(line)
    print(f"{len(wrong)} bytes changed or freed before")
    return 1 if wrong or not found["refused"] or not found["afterwards"] else 0


if __name__ == "__main__":
    sys.exit(main())
