"""Where a card's requests stand in it, and what they are called there.

    of_card(card)   the source of a card that was read
    Source          its run; by request index the line, and the words of that line; the course of its pointers' names
"""

from typing import NamedTuple

from . import card as cards
from . import words
from .names import Course

_RAW = "raw "


class Source(NamedTuple):
    """`lines` and `said` have no entry for a request that has none."""

    run: bytes
    lines: dict
    said: dict
    names: Course


def of_card(card):
    if card.form == cards.BYTES:
        return Source(card.run, {}, {}, card.names)
    if card.form == cards.WORDS:
        return Source(card.run, _lines_of_words(card), {}, card.names)
    lines = dict(enumerate(card.source.request_lines))
    return Source(card.run, lines, _said(card, lines), card.names)


def _lines_of_words(card):
    """The line on which each request of a hexadecimal text starts."""
    numbers = []
    for number, line in enumerate(card.data.split(b"\n"), 1):
        numbers += [number] * len(line.partition(b"#")[0].split())
    return {request.index: numbers[request.start] for request in words.requests(card.run)}


def _said(card, lines):
    """In the notation a line is a request, in words already but where it is `raw`."""
    written = card.data.decode("utf-8").split("\n")
    said = {index: _without_comment(written[line - 1]) for index, line in lines.items()}
    return {index: line for index, line in said.items() if not line.startswith(_RAW)}


def _without_comment(line):
    return " ".join(line.partition("#")[0].split())
