"""What a card says of itself, in comments before its first request.

    # title: A mutable borrow is frozen by a read through another pointer
    # library: smallvec
    # version: 1.11.0
    # verdict: 18 at 4

    of_data(data)                  what a card's text says
    with_verdict(data, verdict)    the text with this verdict in it, and all else as it was
    verdict_of(text)               'accepted', or '18 at 4', as a Verdict

All four may be missing. What the lines say is no part of the run.
"""

import re
from typing import NamedTuple, Optional

from .errors import CardError

KEYS = ("title", "library", "version", "verdict")
_LINE = re.compile(r"#\s*(" + "|".join(KEYS) + r")\s*:(.*)", re.DOTALL)
_REFUSED = re.compile(r"([0-9]+) at ([0-9]+)")
_ACCEPTED = "accepted"


class Verdict(NamedTuple):
    """`refusal` is 0, and `index` None, for an accepted run."""

    refusal: int
    index: Optional[int]

    def __str__(self):
        return f"{self.refusal} at {self.index}" if self.refusal else _ACCEPTED


ACCEPTED = Verdict(0, None)


class Filed(NamedTuple):
    """What a card says of itself; empty, or None, where it says nothing."""

    title: str = ""
    library: str = ""
    version: str = ""
    verdict: Optional[Verdict] = None


def verdict_of(text):
    """The verdict that a line names; raises ValueError where it names none."""
    if text == _ACCEPTED:
        return ACCEPTED
    refused = _REFUSED.fullmatch(text)
    if refused is None or int(refused[1]) == 0:
        raise ValueError(f"{text!r} is no verdict: 'accepted', or a refusal's number and a request's, '18 at 4'")
    return Verdict(int(refused[1]), int(refused[2]))


def of_data(data):
    """What the card with this text says of itself."""
    found = {}
    for number, key, value in _said(data):
        if key in found:
            raise CardError(f"a second line with '{key}:'", number)
        if not value:
            raise CardError(f"'{key}:' says nothing", number)
        found[key] = value if key != "verdict" else _verdict_on(number, value)
    return Filed(**found)


def _verdict_on(number, value):
    try:
        return verdict_of(value)
    except ValueError as error:
        raise CardError(str(error), number) from None


def _said(data):
    """The lines that say something, as number, key and value."""
    for number, line in enumerate(_opening(data), 1):
        said = _LINE.fullmatch(line)
        if said:
            yield number, said[1], said[2].strip()


def _opening(data):
    """The comments and empty lines before the first request."""
    for line in data.decode("utf-8", "replace").removeprefix("\ufeff").split("\n"):
        line = line.strip()
        if line and not line.startswith("#"):
            return
        yield line


def with_verdict(data, verdict):
    """The text of a card with this verdict: in place of the one that it has, else behind what else it
    says of itself, else at its start."""
    lines = data.split(b"\n")
    said = {key: number - 1 for number, key, _ in _said(data)}
    new = f"# verdict: {verdict}".encode("ascii") + _line_end(lines)
    if "verdict" in said:
        lines[said["verdict"]] = new
    elif said:
        lines.insert(max(said.values()) + 1, new)
    else:
        return _at_start(data, new)
    return b"\n".join(lines)


def _line_end(lines):
    """What stands before the line feed in this text."""
    return b"\r" if len(lines) > 1 and lines[0].endswith(b"\r") else b""


def _at_start(data, line):
    mark = b"\xef\xbb\xbf"
    if data.startswith(mark):
        return mark + line + b"\n" + data[len(mark) :]
    return line + b"\n" + data
