"""Hexadecimal text: words of eight digits, white space, and comments from '#' to the end of the line.

    run_of(data)            the run's bytes; raises CardError with line and column
    place_of(data, word)    line and column of a run's word, by its number
    lines(data)             which request and which comment stand on each line
"""

import re
from itertools import islice

from . import words as w
from .errors import CardError

DIGITS = 8
MARK = b"\xef\xbb\xbf"
_COMMENT = re.compile(rb"#[^\n]*")
_TOKEN = re.compile(rb"[^\s#]+")
_STRAY = re.compile(rb"[^0-9a-fA-F]")
# So much text is taken at a time, so that a long one is never split into words as a whole.
_PIECE = 1 << 20
# And so much where one word is looked for in a piece.
_PART = 1 << 12


def without_mark(data):
    """The text without a byte-order mark at its start."""
    return data[len(MARK) :] if data.startswith(MARK) else data


def run_of(data):
    """The bytes of a run from its text."""
    return b"".join(_bytes_of(data, start, end) for start, end in _pieces(data))


def _bytes_of(data, start, end):
    tokens = _tokens(data, start, end)
    if any(map(DIGITS.__ne__, map(len, tokens))):
        raise _fault(data, start, end)
    try:
        return bytes.fromhex(b"".join(tokens).decode("ascii"))
    except ValueError:
        raise _fault(data, start, end) from None


def _tokens(data, start, end):
    piece = data[start:end]
    if b"#" in piece:
        piece = _COMMENT.sub(b"", piece)
    return piece.split()


def _pieces(data, start=0, behind=None, size=_PIECE):
    """Where pieces of whole lines start and end."""
    behind = len(data) if behind is None else behind
    while start < behind:
        end = data.find(b"\n", start + size, behind) + 1 or behind
        yield start, end
        start = end


def _placed(data, start, end):
    """The words in a piece: where each starts, and itself."""
    at = start
    while at < end:
        newline = data.find(b"\n", at, end)
        newline = end if newline < 0 else newline
        comment = data.find(b"#", at, newline)
        for token in _TOKEN.finditer(data, at, newline if comment < 0 else comment):
            yield token.start(), token.group()
        at = newline + 1


def _fault(data, start, end):
    """The error of the first token that is no word."""
    for at, token in _placed(data, start, end):
        stray = _STRAY.search(token)
        if stray:
            line, column = _line_and_column(data, at + stray.start())
            found = data[at + stray.start() : at + len(token)].decode("utf-8", "replace")[0]
            return CardError(f"{found!r} is no hexadecimal digit", line, column)
        if len(token) != DIGITS:
            line, column = _line_and_column(data, at)
            shown = token[:40].decode("ascii")
            return CardError(f"a word has eight digits, and {shown} has {len(token)}", line, column)
    raise AssertionError("no fault in this piece")


def _line_and_column(data, at):
    line_start = data.rfind(b"\n", 0, at) + 1
    column = len(data[line_start:at].decode("utf-8", "replace")) + 1
    return data.count(b"\n", 0, at) + 1, column


def place_of(data, word):
    """Line and column of the run's word with this number; of the text's end where there are fewer."""
    left = word
    start, behind = 0, len(data)
    for size in (_PIECE, _PART):
        for start, end in _pieces(data, start, behind, size):
            here = len(_tokens(data, start, end))
            if left < here:
                behind = end
                break
            left -= here
        else:
            return _line_and_column(data, len(data))
    at = next(islice(_placed(data, start, behind), left, None))[0]
    return _line_and_column(data, at)


def lines(data):
    """The text's lines, as pairs: the index of a request that starts on the line, or None, and a comment that starts
    with '#', or ''. A request stands where it starts, a line's comment with the last request on it; requests that
    share a line have one each."""
    starts = [request.start for request in w.requests(run_of(data))]
    found = []
    index = 0
    word = 0
    for line in data.decode("utf-8", "replace").split("\n"):
        said, mark, comment = line.partition("#")
        comment = (mark + comment).rstrip()
        word += len(said.split())
        first = index
        while index < len(starts) and starts[index] < word:
            index += 1
        if index == first:
            if comment or not said.strip():
                found.append((None, comment))
            continue
        found.extend((request, "") for request in range(first, index - 1))
        found.append((index - 1, comment))
    return found if found[-1] != (None, "") else found[:-1]
