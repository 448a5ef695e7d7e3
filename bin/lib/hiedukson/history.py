"""What befell one permission: a byte of a node's row, over the steps of a replay.

    Spot                      a node and the number of one of its bytes
    met(step)                 the spot whose permission refused a request; None where none did
    changes_of(steps, spot)   the steps that made or changed the permission there
    accesses_of(steps, spot)  the steps that read or wrote the byte, by relation to the node

The codes are the program's. Which of them a refusal is about is document 01's sentence of it (see
`permissions`), and which of those comes first is its visiting order.

A kind of request that is added and reads or writes has a row in _ACCESS, and a line in `touched`.
"""

from typing import NamedTuple, Optional

from . import layouts, masks, memories, permissions, replay, words
from .permissions import FOREIGN, LOCAL, READ, WRITE


class Spot(NamedTuple):
    """The byte number `offset` in the row of a node."""

    pointer: memories.Pointer
    offset: int

    def code(self, memory):
        node = memory.node(self.pointer)
        return None if node is None else node.codes[self.offset]


class Turn(NamedTuple):
    """A step that gave the permission another code; `before` is None where it made the node."""

    step: replay.Step
    before: Optional[str]
    after: str


class Access(NamedTuple):
    """A step that read or wrote the byte. `relation` is the spot's node's to the access."""

    step: replay.Step
    kind: str
    relation: str


_ACCESS = {words.LOAD: READ, words.RETAG: READ, words.STORE: WRITE, words.DEALLOCATE: WRITE}


# ---- the permission that refused


def met(step):
    """The spot whose permission refused a step; None where no permission did."""
    sought = permissions.MET.get(step.answer.refusal)
    if sought is None or step.pointer is None:
        return None
    memory = step.before
    path = set(memory.path(step.pointer))
    allocation = memory.allocation(step.pointer.allocation)
    spots = _visited(step.request, allocation)
    return next((spot for spot in spots if _is_met(memory, spot, path, sought)), None)


def _is_met(memory, spot, path, sought):
    relation = LOCAL if spot.pointer in path else FOREIGN
    if relation != sought.relation or spot.code(memory) not in sought.codes:
        return False
    return memory.node(spot.pointer).protector == memories.STRONG or not sought.strong


def _visited(request, allocation):
    """The spots that a request visits, in visiting order: a retag byte by byte over the whole tree, all
    else node by node, each with its bytes ascending."""
    pointers = [node.pointer for node in _in_visiting_order(allocation)]
    offsets = touched(request, allocation)
    if request.kind is words.RETAG:
        return (Spot(pointer, offset) for offset in offsets for pointer in pointers)
    return (Spot(pointer, offset) for pointer in pointers for offset in offsets)


def _in_visiting_order(allocation):
    """Parents before children, children in the order in which they were made."""
    waiting = [allocation.nodes[0]]
    children = memories.children(allocation)
    while waiting:
        node = waiting.pop()
        yield node
        waiting.extend(reversed(children[node.pointer]))


def touched(request, allocation):
    """The numbers of the allocation's bytes that a request with this provenance reads or writes."""
    if request.kind is words.DEALLOCATE:
        return range(allocation.size)
    start = request.address - allocation.address
    if request.kind in (words.LOAD, words.STORE):
        return range(start, start + request.fourth)
    if request.is_safe and not request.is_pinned:
        return _read_by_retag(request, start)
    return range(0)


def _read_by_retag(request, start):
    """The bytes that a retag reads: all of its mask's, but a shared reference's cells."""
    mask = masks.freeze(layouts.split(request.following))
    if words.POINTER_KINDS[request.extra] != "&":
        return range(start, start + len(mask))
    return [start + place for place, is_frozen in enumerate(mask) if is_frozen]


# ---- how it came to be


def changes_of(steps, spot):
    """The steps that made or changed the permission at a spot, in order."""
    turns = []
    for step in steps:
        before, after = spot.code(step.before), spot.code(step.after)
        if before != after:
            turns.append(Turn(step, before, after))
    return turns


def accesses_of(steps, spot):
    """The accepted steps that read or wrote the byte at a spot since its node is there, in order."""
    found = []
    for step in steps:
        if not step.is_refused and step.after.node(spot.pointer) is not None:
            found.extend(_accesses(step, spot))
    return found


def _accesses(step, spot):
    if step.request.kind is words.END_CALL:
        return _releases(step, spot)
    pointer, kind = step.made or step.pointer, _ACCESS.get(step.request.kind)
    if kind is None or pointer is None or pointer.allocation != spot.pointer.allocation:
        return []
    if spot.offset not in touched(step.request, step.after.allocation(pointer.allocation)):
        return []
    return [Access(step, kind, _relation(step.after, pointer, spot))]


def _relation(memory, pointer, spot):
    return LOCAL if spot.pointer in memory.path(pointer) else FOREIGN


def _releases(step, spot):
    """The accesses of an end call at a spot: those of the nodes whose protector it ended."""
    allocation = step.before.allocation(spot.pointer.allocation)
    for node in allocation.nodes:
        if step.after.node(node.pointer).protector == node.protector:
            continue
        kind = permissions.released(node.codes[spot.offset])
        if kind is not None and node.pointer not in step.after.path(spot.pointer):
            yield Access(step, kind, _relation(step.after, node.pointer, spot))
