"""A card of any form: bytes, hexadecimal text, or the notation.

    read(data, is_binary)   the card; raises CardError with line and column where it cannot be read
    card.form               BYTES, WORDS or NAMES
    card.run                the bytes of its run
    card.line_of(request)   the line that a request starts on; None in bytes
    card.line(number)       the text of a line
    card.names              what its pointers are called, and up to which emptying
    card.said_of(request)   the name that a request's line has for its pointer; else the pointer's first one, or '0.1'
    card.lines()            its lines in order, each a request's index, a comment, both or neither
    to_words(card)          the card as hexadecimal text; comments stay with their lines
    to_names(card)          the card in the notation; comments stay with their lines

A card with a NUL byte is bytes. (The first request of a run without one is always refused: what is not named there
is zero.) Of texts, the first line that says something decides: it is hexadecimal if it has nothing but hexadecimal
digits or starts with a digit, and has no '='.
"""

import re

from . import names, notation, text
from . import words as w
from .errors import CardError

BYTES = "bytes"
WORDS = "words"
NAMES = "names"

_SAYS = re.compile(rb"^[^\S\n]*([^\s#][^#\n]*)", re.MULTILINE)
_WORDS = re.compile(rb"[0-9]|[0-9a-fA-F\s]+$")
# Comments behind requests start in one column, but no further right than this.
WIDEST = 80


class Card:
    def __init__(self, form, data, run, source=None):
        self.form = form
        self.data = data
        self.run = run
        self.source = source
        self.names = names.Course(source.stretches) if source else names.NAMELESS

    def line_of(self, request):
        """The line that a request starts on."""
        if self.form == WORDS:
            return text.place_of(self.data, request.start)[0]
        if self.form == NAMES:
            return self.source.request_lines[request.index]
        return None

    def line(self, number):
        """The text of a line, by its number."""
        return self.data.split(b"\n")[number - 1].decode("utf-8", "replace").strip()

    def said_of(self, request):
        """What the request's own line calls its pointer, which may have several names."""
        known = self.names.at(request.index)
        if self.source is not None:
            aliases = known.all_of(request.pointer)
            for name in notation.names_in(self.line(self.line_of(request))):
                if name in aliases:
                    return name
        return known.of(request.pointer)

    def lines(self):
        """The card's lines: pairs of a request's index, or None, and a comment, or ''."""
        if self.form == WORDS:
            return text.lines(self.data)
        if self.form == NAMES:
            return [(line.request, line.comment) for line in self.source.lines]
        return [(request.index, "") for request in w.requests(self.run)]


def read(data, is_binary=False):
    form = BYTES if is_binary else form_of(data)
    if form == BYTES:
        return Card(form, data, data)
    data = text.without_mark(data)
    if form == WORDS:
        return Card(form, data, text.run_of(data))
    source = notation.read(data)
    return Card(form, data, source.run, source)


def form_of(data):
    """Which form a card has, by its contents."""
    if b"\0" in data:
        return BYTES
    says = _SAYS.search(text.without_mark(data))
    if says is None or (_WORDS.match(says.group(1)) and b"=" not in says.group(1)):
        return WORDS
    return NAMES


def to_words(card):
    """The card as hexadecimal text."""
    requests = list(w.requests(card.run))
    if requests and requests[-1].rest:
        raise CardError("the run ends inside a word, which hexadecimal text cannot say")
    bodies = [" ".join(f"{word:08x}" for word in request.words) for request in requests]
    return _written(card, bodies)


def to_names(card):
    """The card in the notation."""
    return _written(card, notation.write(card.run))


def _written(card, bodies):
    """The card's lines with these bodies for its requests."""
    lines = card.lines()
    widths = [len(bodies[index]) for index, comment in lines if index is not None and comment]
    width = max([width for width in widths if width <= WIDEST], default=0)
    return "".join(_line(bodies, index, comment, width) for index, comment in lines)


def _line(bodies, index, comment, width):
    body = "" if index is None else bodies[index]
    if body and comment:
        return f"{body:<{width}}  {comment}\n"
    return f"{body}{comment}\n"
