"""An index: cards judged, and compared with what they are filed as.

    find(paths)                     the cards below folders, and those that are named
    judge_all(paths, read, judge, hear)   an Entry for each card, judged side by side
    judge_card(path, read, judge)   the entry of one card; `read` gives a file's bytes, `judge` what the
                                    program prints for a run
    verdict_of(output)              the verdict that the program's output gives
    Entry                           a card, what it says of itself (`said`), its verdict, and whether it is as filed

Where a file of the card's name ending in .out stands beside it, the whole text that the program prints
is compared with it too.
"""

import itertools
import os
from concurrent.futures import ThreadPoolExecutor
from typing import NamedTuple, Optional

from . import card as cards
from . import filed, refusals, verdicts, words
from .command import printable
from .errors import CardError

SUFFIXES = (".card", ".hex", ".bin")
OUTPUT = ".out"

AS_FILED = "as filed"
CHANGED = "changed"
NOT_FILED = "not filed"
ERROR = "error"


class Entry(NamedTuple):
    """`verdict` and `card` are None, and `error` and `note` say why, where the state is ERROR. Of a changed
    card `note` says what it was filed as. `line` is that of the refused request, where there are lines."""

    path: str
    state: str
    note: str
    said: filed.Filed = filed.Filed()
    card: Optional[cards.Card] = None
    verdict: Optional[filed.Verdict] = None
    line: Optional[int] = None
    error: Optional[CardError] = None

    @property
    def reason(self):
        """The refusal in words; empty for an accepted card."""
        return refusals.name(self.verdict.refusal) if self.verdict and self.verdict.refusal else ""


# ---- finding


def find(paths):
    """The cards that are named, and those below the folders that are named, in order of their paths."""
    found = []
    for path in paths:
        if os.path.isdir(path):
            below = sorted(_below(path))
            if not below:
                raise CardError(f"{printable(path)}: no card in this folder ({', '.join(SUFFIXES)})")
            found += below
        else:
            found.append(path)
    return list(dict.fromkeys(found))


def _below(folder):
    def refuse(error):
        raise CardError(f"{printable(error.filename)}: {error.strerror}")

    for place, folders, files in os.walk(folder, onerror=refuse):
        folders[:] = [name for name in folders if not name.startswith(".")]
        for name in files:
            path = os.path.normpath(os.path.join(place, name))
            if name.endswith(SUFFIXES) and not name.startswith(".") and os.path.isfile(path):
                yield path


# ---- judging


def judge_all(paths, read, judge, hear):
    """The entries of all cards, in order. `hear` is told how many are judged, whenever one is."""
    done = 0
    entries = []
    with ThreadPoolExecutor(os.cpu_count()) as pool:
        for entry in pool.map(lambda path: judge_card(path, read, judge), paths):
            entries.append(entry)
            done += 1
            hear(done)
    return entries


def judge_card(path, read, judge):
    """The entry of one card. What is wrong with a card is said in its entry."""
    try:
        data = read(path)
        card = cards.read(data)
        said = filed.Filed() if card.form == cards.BYTES else filed.of_data(data)
        output = judge(card.run)
        state, note = _compared(said, verdict_of(output), _differs(path, read, output))
    except CardError as error:
        return Entry(path, ERROR, _note(error), error=error)
    return Entry(path, state, note, said, card, verdict_of(output), _line(card, output))


def _note(error):
    """An error in a card, with its place in it."""
    places = [f"{what} {number}" for what, number in (("line", error.line), ("column", error.column)) if number]
    return f"{', '.join(places)}: {error.message}" if places else error.message


def verdict_of(output):
    """The verdict that the program's output gives."""
    refused = verdicts.refusal_of(output)
    return filed.ACCEPTED if refused is None else filed.Verdict(refused.refusal, refused.index)


def _line(card, output):
    """The line of the refused request."""
    refused = verdicts.refusal_of(output)
    if refused is None:
        return None
    return card.line_of(words.request_at(card.run, refused.index)[0])


def _compared(said, verdict, differs):
    """The state, and a note on it."""
    if said.verdict is not None and said.verdict != verdict:
        return CHANGED, f"filed as {said.verdict}"
    if differs:
        return CHANGED, differs
    return (AS_FILED if said.verdict is not None else NOT_FILED), ""


def _differs(path, read, output):
    """Where the output differs from the one that stands beside the card; empty where it does not."""
    beside = os.path.splitext(path)[0] + OUTPUT
    if not os.path.exists(beside):
        return ""
    pairs = itertools.zip_longest(read(beside).split(b"\n"), output.split(b"\n"))
    for number, (expected, found) in enumerate(pairs, 1):
        if expected != found:
            return f"the output differs from {printable(os.path.basename(beside))} in line {number}"
    return ""
