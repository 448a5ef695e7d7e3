"""The entries of an index as a table, as tab-separated values, and as JSON.

    ordered(entries, by)    sorted: BY_CARD, BY_REASON or BY_LIBRARY
    table(entries, by)      lines for people, with the sum in the last
    tsv(entries)            a line a card, the names of the columns in the first
    json_of(entries)        a list with an object for each card
    counted(entries)        '31 cards: 30 as filed, 1 changed'
"""

import json

from . import index
from .command import printable
from .words import count

BY_CARD, BY_REASON, BY_LIBRARY = "card", "reason", "library"
COLUMNS = ("card", "verdict", "reason", "state", "note", "title", "library", "version", "filed", "line")
# Behind all others in an order: a text that sorts last.
_LAST = "\U0010ffff"


def ordered(entries, by):
    keys = {BY_CARD: _by_card, BY_REASON: _by_reason, BY_LIBRARY: _by_library}
    return sorted(entries, key=keys[by])


def _by_card(entry):
    return entry.path


def _by_reason(entry):
    return (entry.verdict is None, entry.verdict.refusal if entry.verdict else 0, entry.path)


def _by_library(entry):
    return (entry.said.library or _LAST, entry.said.version, entry.path)


def counted(entries):
    states = (index.AS_FILED, index.CHANGED, index.NOT_FILED, index.ERROR)
    found = [(sum(entry.state == state for entry in entries), state) for state in states]
    return f"{count(len(entries), 'card')}: " + ", ".join(f"{number:,} {state}" for number, state in found if number)


def table(entries, by):
    """Columns as wide as what is in them."""
    is_by_library = by == BY_LIBRARY
    head = ["library"] * is_by_library + ["card", "verdict", "reason", "filed"]
    rows = [[_library(entry)] * is_by_library + _cells(entry) for entry in entries]
    widths = [max(map(len, column)) for column in zip(head, *rows)]
    lines = ["  ".join(cell.ljust(width) for cell, width in zip(row, widths)).rstrip() for row in [head, *rows]]
    return lines + [counted(entries)]


def _cells(entry):
    state = f"{entry.state}: {entry.note}" if entry.note else entry.state
    return [printable(entry.path), str(entry.verdict or ""), entry.reason, state]


def _library(entry):
    return printable(f"{entry.said.library} {entry.said.version}".strip())


def _values(entry):
    said = entry.said
    verdict = None if entry.verdict is None else str(entry.verdict)
    was = None if said.verdict is None else str(said.verdict)
    return dict(
        zip(
            COLUMNS,
            (
                entry.path,
                verdict,
                entry.reason,
                entry.state,
                entry.note,
                said.title,
                said.library,
                said.version,
                was,
                entry.line,
            ),
        )
    )


def tsv(entries):
    rows = [COLUMNS] + [tuple(map(_field, _values(entry).values())) for entry in entries]
    return ["\t".join(row) for row in rows]


def _field(value):
    return "" if value is None else printable(str(value))


def json_of(entries):
    objects = []
    for entry in entries:
        values = _values(entry)
        values["refusal"] = entry.verdict.refusal if entry.verdict else None
        values["request"] = entry.verdict.index if entry.verdict else None
        objects.append(values)
    return json.dumps(objects, indent=2, ensure_ascii=False)
