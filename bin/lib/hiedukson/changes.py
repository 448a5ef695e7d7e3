"""What a request changed: the difference of two memories. An emptying takes all allocations away, and no other
request takes an allocation or a node.

    between(before, after)              the changes, allocation by allocation, nodes in order of making
    in_words(change, memory, names)     a change as a line: 'x: bytes 0x10..0x12 Reserved -> Unique'
"""

import itertools
from typing import NamedTuple

from . import memories, permissions
from .words import count


class Made(NamedTuple):
    """A node that is new, with stretches of its row as (first, end, code)."""

    node: memories.Node
    stretches: tuple


class Became(NamedTuple):
    """The bytes from `first` to `end` of a node's row had one code, and have another."""

    pointer: memories.Pointer
    first: int
    end: int
    before: str
    after: str


class Protector(NamedTuple):
    pointer: memories.Pointer
    before: str
    after: str


class State(NamedTuple):
    """An allocation that was live, and is dead now."""

    allocation: int
    before: str
    after: str


class Dropped(NamedTuple):
    """An allocation, live or dead, that an emptying took away."""

    allocation: memories.Allocation


def between(before, after):
    found = []
    if before is after:
        return found
    if not after.allocations:
        return [Dropped(allocation) for allocation in before.allocations]
    for allocation in after.allocations:
        old = before.allocation(allocation.number)
        if old is not allocation:
            found.extend(_in_allocation(old, allocation))
    return found


def _in_allocation(old, new):
    if old is not None and old.state != new.state:
        yield State(new.number, old.state, new.state)
    known = old.nodes if old is not None else ()
    for before, node in itertools.zip_longest(known, new.nodes):
        if before is None:
            yield Made(node, tuple(memories.ranges(node.codes)))
        elif before is not node:
            yield from _in_node(before, node)


def _in_node(before, after):
    if before.protector != after.protector:
        yield Protector(after.pointer, before.protector, after.protector)
    pairs = zip(before.codes, after.codes)
    for first, end, (old, new) in memories.ranges(pairs):
        if old != new:
            yield Became(after.pointer, first, end, old, new)


# ---- in words


def in_words(change, memory, names):
    """A change as a line; `memory` is the one after it."""
    return _SAID[type(change)](change, memory, names)


def _made(change, memory, names):
    node = change.node
    allocation = memory.allocation(node.pointer.allocation)
    parent = "new allocation" if node.parent is None else f"new, below {names.of(node.parent)}"
    protector = "" if node.protector == memories.NO_PROTECTOR else f", {node.protector} protector"
    row = [f"{allocation.addresses(first, end)} {permissions.name(code)}" for first, end, code in change.stretches]
    bytes_ = f", bytes {', '.join(row)}" if row else ", no bytes"
    return f"{names.of(node.pointer)}: {parent}{protector}{bytes_}"


def _became(change, memory, names):
    allocation = memory.allocation(change.pointer.allocation)
    where = allocation.addresses(change.first, change.end)
    before, after = permissions.name(change.before), permissions.name(change.after)
    return f"{names.of(change.pointer)}: bytes {where} {before} -> {after}"


def _protector(change, _memory, names):
    return f"{names.of(change.pointer)}: {change.before} protector -> {change.after} protector"


def _state(change, memory, names):
    root = memory.allocation(change.allocation).root
    return f"{names.of(root)}: {change.before} -> {change.after}"


def _dropped(change, _memory, names):
    allocation = change.allocation
    size = count(allocation.size, "byte")
    return f"{names.of(allocation.root)}: dropped, {allocation.state} {allocation.kind}, {size} at {allocation.address:#x}"


_SAID = {Made: _made, Became: _became, Protector: _protector, State: _state, Dropped: _dropped}
