"""Why a request was refused.

    explain(steps, names, say)   the explanation of the last step's refusal; `say` puts a step in words

What was met and how it came to be is read off the memories that the program printed (see `history`), the
rest off the request and the memory before it.
"""

from typing import Callable, NamedTuple, Optional

from . import drawing, history, memories, permissions, refusals, replay, rules, words
from .names import Names
from .permissions import READ, WRITE


class Event(NamedTuple):
    """What a step did, with the step in words."""

    what: str
    index: int
    said: str


class Explanation(NamedTuple):
    """`met` and `events` are empty where no permission refused; `facts` are sentences."""

    index: int
    refusal: int
    spot: Optional[history.Spot]
    met: str
    events: tuple
    facts: tuple
    rule: str
    advice: str

    @property
    def headline(self):
        return f"#{self.index} is refused, {self.refusal}: {refusals.name(self.refusal)}"


def explain(steps, names, say):
    """The explanation of the refusal of the last step. Its names and numbers are those since the last emptying."""
    standing = _standing(steps[:-1])
    emptying, steps = replay.since_emptied(steps)
    step = steps[-1]
    spot = history.met(step)
    rule = rules.RULES.get(step.answer.refusal, rules.Rule("", ""))
    return Explanation(
        step.request.index,
        step.answer.refusal,
        spot,
        _met(step, spot, names) if spot else "",
        tuple(_events(steps, spot, names, say)) if spot else (),
        tuple(_facts(Case(steps[:-1], step, names, say, standing, emptying))),
        rule.rule,
        _advice(steps, spot, names, rule),
    )


def _standing(steps):
    """What holds behind some steps: the open frames, and the width."""
    standing = words.Standing()
    for step in steps:
        standing.follow(step.request.words[0], step.request.fourth)
    return standing


# ---- the permission that was met


def _met(step, spot, names):
    allocation = step.before.allocation(spot.pointer.allocation)
    code = permissions.name(spot.code(step.before))
    return f"{names.of(spot.pointer)} at byte {allocation.address + spot.offset:#x}: {code}"


def _events(steps, spot, names, say):
    for turn in history.changes_of(steps, spot):
        what = "made" if turn.before is None else "became"
        yield Event(f"{what} {permissions.name(turn.after)}", turn.step.request.index, say(turn.step))
    accesses = history.accesses_of(steps, spot)
    for kind, said in ((READ, "last read"), (WRITE, "last written")):
        last = next((access for access in reversed(accesses) if access.kind == kind), None)
        if last is not None:
            yield Event(f"{said}, {_related(last, spot, names)}", last.step.request.index, say(last.step))


def _related(access, spot, names):
    return f"{access.relation} to {names.of(spot.pointer)}"


def _advice(steps, spot, names, rule):
    if spot is None:
        return rule.advice
    refusal = steps[-1].answer.refusal
    made = history.changes_of(steps, spot)[0].after
    is_born = made in permissions.MET[refusal].codes
    advice = rules.BORN.get(refusal, rule.advice) if is_born else rule.advice
    return advice.format(met=names.of(spot.pointer))


# ---- what else the memory and the request say


class Case(NamedTuple):
    """A refusal: the steps before it, back to the last emptying, the refused one, how nodes and steps are called, what
    holds before the refused one, and that emptying, where there is one."""

    earlier: list
    step: replay.Step
    names: Names
    say: Callable
    standing: words.Standing
    emptying: Optional[replay.Step]

    @property
    def request(self):
        return self.step.request

    @property
    def memory(self):
        return self.step.before


def _facts(case):
    about = _ABOUT.get(case.step.answer.refusal)
    return about(case) if about else ()


def _emptied(case):
    """What the last emptying has to do with it: it took frames and allocations, and set the width."""
    if case.emptying is not None:
        said = f"#{case.emptying.request.index}, {case.say(case.emptying)}"
        yield f"{said}, has dropped all allocations and closed all frames; pointers have {case.standing.width} bits since"


def _malformed(case):
    yield words.malformed(case.request, case.standing)
    yield from _emptied(case)


def _without_mask(case):
    yield words.no_mask(case.request)


def _never_made(case):
    allocation = case.memory.allocation(case.step.pointer.allocation)
    if allocation is None:
        yield f"allocation {case.step.pointer.allocation} is named, and {words.count(len(case.memory.allocations), 'allocation')} made"
    else:
        made = words.count(len(allocation.nodes), "node")
        yield f"node {case.step.pointer.node} of {case.names.of(allocation.root)} is named, and {made} made"
    yield from _emptied(case)


def _fails_pick(case):
    request = case.request
    end = request.address + request.fourth
    if request.address == 0:
        yield "the address is 0"
    if request.address % (1 << request.exponent):
        yield f"{request.address:#x} is no multiple of {1 << request.exponent}"
    if end > words.most_address(case.standing.width):
        yield f"it would end at {end:#x}, above 2^{case.standing.width} - 1"
        yield from _emptied(case)
    for other in case.memory.allocations:
        if other.state != memories.DEAD and _overlap(request.address, end, other):
            yield f"it overlaps {drawing.heading(other, case.names)}"


def _overlap(start, end, other):
    return start == other.address or start < other.end and other.address < end


def _misaligned(case):
    alignment = 1 << case.request.exponent
    yield f"{case.request.address:#x} lies {case.request.address % alignment} above a multiple of {alignment}"


def _dead(case):
    number = case.step.pointer.allocation
    for earlier in case.earlier:
        before, after = earlier.before.allocation(number), earlier.after.allocation(number)
        if before is not None and before.state != after.state:
            yield f"{case.names.of(after.root)} is dead since #{earlier.request.index}, {case.say(earlier)}"


def _beside_allocation(case):
    yield f"the request: {words.in_words(case.request, case.names.of)}"
    yield drawing.heading(case.memory.allocation(case.step.pointer.allocation), case.names)


def _exceeded(case):
    allocations = case.memory.allocations
    sizes = (
        (len(allocations), 128, "allocations"),
        (sum(each.size for each in allocations), 4096, "bytes"),
        (sum(len(each.nodes) for each in allocations), 1024, "nodes"),
        (sum(each.size * len(each.nodes) for each in allocations), 32768, "permissions"),
    )
    held = ", ".join(f"{count:,} of {most:,} {what}" for count, most, what in sizes)
    yield f"before the request the memory holds {held}"
    if case.request.is_safe and case.request.settings.entry:
        frame = case.request.settings.frame
        yield f"frame {frame} holds {_entries(case.earlier, frame)} of 64 protected references"


def _entries(steps, frame):
    """How many references a frame protects: those that were made for it since it was opened."""
    count = 0
    for step in steps:
        if step.request.kind is words.NEW_CALL and step.request.fourth == frame:
            count = 0
        if step.request.is_safe and step.request.settings.entry and step.request.settings.frame == frame:
            count += step.made is not None and step.before.node(step.made) is None
    return count


def _leaked(case):
    allocation = case.memory.allocation(int(case.step.answer.given))
    yield f"the answer names {drawing.heading(allocation, case.names)}"
    for earlier in case.earlier:
        if earlier.made == allocation.root and earlier.request.kind is words.ALLOCATE:
            yield f"it was made at #{earlier.request.index}, {case.say(earlier)}"
    leaking = sum(other.state != memories.DEAD and other.kind == allocation.kind for other in case.memory.allocations)
    if leaking > 1:
        yield f"it has the lowest number of {leaking} heap allocations that are live"


_ABOUT = {
    2: _malformed,
    3: _without_mask,
    4: _never_made,
    5: _fails_pick,
    6: _misaligned,
    8: _dead,
    9: _beside_allocation,
    10: _beside_allocation,
    11: _beside_allocation,
    12: _beside_allocation,
    13: _beside_allocation,
    14: _beside_allocation,
    15: _exceeded,
    25: _leaked,
}
