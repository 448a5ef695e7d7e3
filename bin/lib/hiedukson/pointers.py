"""Which pointer a request gives, by its words.

Allocations and nodes are numbered as they are made, and from 0 again behind an emptying. The numbers here are those of
a run whose requests are all accepted so far; behind a refusal they mean nothing, and the program has stopped.
"""

from typing import NamedTuple, Optional

from . import words as w


class Pointer(NamedTuple):
    """`provenance` is (allocation, node), or None."""

    provenance: Optional[tuple]
    address: int


class Allocation:
    def __init__(self, request):
        self.kind = request.extra
        self.size = request.fourth
        self.exponent = request.exponent
        self.nodes = 1


class Pointers:
    def __init__(self):
        self.allocations = []

    def allocation_of(self, provenance):
        """The allocation that a provenance names; None where it or its node was never made."""
        if provenance is None or provenance[0] >= len(self.allocations):
            return None
        allocation = self.allocations[provenance[0]]
        return allocation if provenance[1] < allocation.nodes else None

    def follow(self, request):
        """Count what a request makes. The pointer that it gives, or None."""
        if request.is_cut:
            return None
        if request.kind is w.ALLOCATE:
            self.allocations.append(Allocation(request))
            return Pointer((len(self.allocations) - 1, 0), request.address)
        if request.kind is w.RETAG:
            return self._retag(request)
        if request.width is not None:
            self.allocations.clear()
        return None

    def _retag(self, request):
        if request.pointer is None:
            return Pointer(None, request.address)
        allocation = self.allocation_of(request.pointer)
        if allocation is None:
            return None
        if not request.is_safe or request.is_pinned:
            return Pointer(request.pointer, request.address)
        node = allocation.nodes
        allocation.nodes += 1
        return Pointer((request.allocation, node), request.address)
