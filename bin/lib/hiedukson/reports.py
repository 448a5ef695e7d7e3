"""A card replayed and put in words: what `why` prints and the index's pages show.

    of_source(source, judge)    the report of a card
    lines(report, place)        the report as lines of text, up to and with the request at a place
    tree_lines(report, place)   the trees alone
    width_line(report, place)   the width that is in force, in words; empty where it is the usual one
"""

import textwrap
from typing import NamedTuple, Optional

from . import changes, drawing, explanations, memories, refusals, replay, words
from .names import Course
from .notation.parts import UNINITIALISED

WIDTH = 100


class Entry(NamedTuple):
    """One request: where it stands, itself, what it answered and what it changed, all in words."""

    index: int
    line: Optional[int]
    said: str
    answer: str
    changes: tuple


class Report(NamedTuple):
    """`explanation` is None for an accepted run. `left` requests stand behind a refused one."""

    entries: tuple
    steps: tuple
    names: Course
    explanation: Optional[explanations.Explanation]
    left: int

    def is_refused_at(self, place):
        """Whether the request with this index is the refused one."""
        return self.explanation is not None and place == self.explanation.index

    def verdict_at(self, place):
        """The verdict of the requests up to and with the one of this index, in words."""
        if not self.is_refused_at(place):
            return "accepted"
        refusal = self.explanation.refusal
        return f"refused, {refusal} at {self.explanation.index}: {refusals.name(refusal)}"

    def memory_after(self, place):
        """The memory after the request with this index; -1 is the empty memory."""
        return self.steps[place].after if place >= 0 else memories.EMPTY

    def spot_at(self, place):
        """The spot that refused the request with this index; None where none did."""
        return self.explanation.spot if self.is_refused_at(place) else None


def of_source(source, judge):
    """The report of a card."""
    steps = replay.replay(source.run, judge)

    def say(step):
        index = step.request.index
        return source.said.get(index) or words.in_words(step.request, source.names.at(index).of)

    entries = tuple(_entries(steps, source, say))
    is_refused = bool(steps) and steps[-1].is_refused
    explanation = explanations.explain(steps, source.names.at(len(steps) - 1), say) if is_refused else None
    left = sum(1 for _ in words.requests(source.run)) - len(steps)
    return Report(entries, tuple(steps), source.names, explanation, left)


def _entries(steps, source, say):
    standing = words.Standing()
    for step in steps:
        index = step.request.index
        known = source.names.at(index)
        changed = tuple(_changed(step, known, standing))
        yield Entry(index, source.lines.get(index), say(step), _answer(step, known, standing.width), changed)
        if not step.is_refused:
            standing.follow(step.request.words[0], step.request.fourth)


def _changed(step, known, standing):
    """What a step changed. Frames are not printed: which of them an emptying closes follows from the requests."""
    for change in changes.between(step.before, step.after):
        yield changes.in_words(change, step.after, known)
    if step.empties:
        for frame in sorted(standing.open):
            yield f"frame {frame}: closed"


def _answer(step, known, width):
    """What a step answered, in words; an emptying, which width it sets. `width` is the one before the step."""
    if step.is_refused:
        return f"refused, {step.answer.refusal}: {refusals.name(step.answer.refusal)}"
    if step.request.kind is words.LOAD and step.answer.given != replay.NOTHING:
        loaded = [words.byte_of(int(word, 16)) for word in step.answer.given.split(" ")]
        return "loads " + " ".join(_loaded(loaded, known, words.pointer_bytes(width)))
    return _width(step.request.width) if step.empties else ""


def _width(width):
    return f"pointers have {width} bits: addresses end at {words.most_address(width):#x}"


def _loaded(loaded, known, size):
    """Loaded bytes as the notation writes them; the bytes of a whole pointer, which has so many, as one."""
    at = 0
    while at < len(loaded):
        pointer = loaded[at : at + size]
        if _is_pointer(pointer, size):
            address = int.from_bytes(bytes(byte.value for byte in pointer), "little")
            yield f"ptr {known.of(pointer[0].provenance)} at {address:#x}"
            at += size
        else:
            yield _byte(loaded[at], known)
            at += 1


def _is_pointer(loaded, size):
    """Whether these are all the bytes of one pointer, in order."""
    provenance = loaded[0].provenance
    if provenance is None:
        return False
    return [byte.position for byte in loaded if byte.provenance == provenance] == list(range(size))


def _byte(byte, known):
    if byte.value is None:
        return UNINITIALISED
    if byte.provenance is None:
        return f"{byte.value:02x}"
    return f"{byte.value:02x}@{known.of(byte.provenance)}:{byte.position}"


# ---- as text


def lines(report, place):
    """The report as lines, up to and with the request of this index."""
    parts = [[line for entry in report.entries[: place + 1] for line in _entry_lines(entry)]]
    if report.is_refused_at(place):
        parts[0] += [not_performed(report.left)] if report.left else []
        parts.append(list(_explanation_lines(report.explanation)))
    return _apart([*parts, [width_line(report, place)], *_trees(report, place)])


def not_performed(left):
    return f"{words.count(left, 'request')} behind it {'was' if left == 1 else 'were'} not performed"


def _apart(parts):
    """The lines of all parts that say something, an empty one between them."""
    return [line for part in parts if any(part) for line in ("", *part)][1:]


def _entry_lines(entry):
    line = "" if entry.line is None else f"line {entry.line}  "
    yield f"#{entry.index}  {line}{entry.said}"
    if entry.answer:
        yield f"      {entry.answer}"
    for change in entry.changes:
        yield f"      {change}"


def _explanation_lines(explanation):
    yield explanation.headline
    if explanation.met:
        yield f"  met: {explanation.met}"
    width = max((len(event.what) for event in explanation.events), default=0)
    digits = len(str(explanation.index))
    for event in explanation.events:
        yield f"    {event.what:{width}}  #{event.index:<{digits}}  {event.said}"
    for fact in explanation.facts:
        yield f"  {fact}"
    yield from _wrapped("  rule: ", explanation.rule)
    yield from _wrapped("  advice: ", explanation.advice)


def _wrapped(label, sentence):
    return textwrap.wrap(sentence, WIDTH, initial_indent=label, subsequent_indent=" " * len(label))


def tree_lines(report, place):
    """The trees after the request of this index, as lines."""
    return _apart(_trees(report, place))


def width_line(report, place):
    """The width after the request of this index, in words, where it is not the one that a run starts with."""
    emptying, _ = replay.since_emptied(report.steps[: place + 1])
    if emptying is None or emptying.request.width == words.WIDEST:
        return ""
    return _width(emptying.request.width)


def _trees(report, place):
    memory = report.memory_after(place)
    if not memory.allocations:
        emptying, _ = replay.since_emptied(report.steps[: place + 1])
        since = "" if emptying is None else f" since #{emptying.request.index}"
        return [[f"no allocation was made{since}"]]
    names, spot = report.names.at(place), report.spot_at(place)
    return [drawing.text(allocation, names, spot) for allocation in memory.allocations]
