"""The notation for people: one request a line, names instead of numbers. docs/CARDS.md teaches it.

    read(data)           the card that a text is; raises CardError with line and column
    write(run)           a line for each request of a run, in order
    names_in(text)       the names that stand in a line, in order
    Source               .run its bytes, .lines the text's lines, .request_lines the line of each request, .stretches
                         the names of pointers by (allocation, node), in pairs: the index of the first request that they
                         hold for, and the names in the order in which they were given. An emptying starts another

To words and back gives the same words for every run: a line is written only if reading it gives the request's words,
and stands as `raw` words otherwise.

To add a kind of request: a reader in `statements.STATEMENTS` under the word that starts its line (or in GIVING, behind
'NAME ='), and a writer in `writer.WRITERS` under its kind. A writer says a request from the fields that have a
use, and need not look at the others.
"""

import re
from typing import NamedTuple, Optional

from .. import words as w
from ..errors import CardError
from .parts import NAME
from .scanner import Scanner
from .state import State
from .statements import parse
from .writer import Writer


_NAME = re.compile(NAME)


class Line(NamedTuple):
    """One line of a text. `request` is its index, or None; `comment` starts with '#', or is empty."""

    number: int
    request: Optional[int]
    comment: str


class Source(NamedTuple):
    run: bytes
    lines: list
    request_lines: list
    stretches: list


def read(data):
    """The card that a text is."""
    state = State()
    lines = []
    parts = []
    stretches = []
    first = 0
    for number, line in enumerate(_lines(data), 1):
        said, mark, comment = line.partition("#")
        scanner = Scanner(said, number)
        request = None
        if not scanner.is_done:
            request = len(parts)
            said = parse(state, scanner)
            if said.request.width is not None:
                stretches.append((first, state.names_of_pointers()))
                first = request + 1
            state.take(said, number)
            parts.append(w.bytes_of(said.request.words) + said.request.rest)
        lines.append(Line(number, request, (mark + comment).rstrip()))
    request_lines = [line.number for line in lines if line.request is not None]
    stretches.append((first, state.names_of_pointers()))
    return Source(b"".join(parts), lines, request_lines, stretches)


def _lines(data):
    try:
        lines = data.decode("utf-8").split("\n")
    except UnicodeDecodeError as error:
        before = data[: error.start]
        column = len(before.rpartition(b"\n")[2].decode("utf-8", "replace")) + 1
        raise CardError("this is no UTF-8 text", before.count(b"\n") + 1, column) from None
    return lines if lines[-1] else lines[:-1]


def names_in(text):
    """All that could be a name in a line, its comment left out."""
    return _NAME.findall(text.partition("#")[0])


def write(run):
    """A line for each request of a run. Allocation 0 is named a0, its node 1 a0.1."""
    writer = Writer(State())
    return [writer.line(request) for request in w.requests(run)]
