"""A memory as the program prints it: its allocations and their trees.

    of_output(output)              the memory at the end of the program's output
    pointer_of(text)               a pointer as the program prints it, 0.1
    Memory.node(pointer)           a node by its allocation and number
    Memory.allocation(number)
    Memory.path(pointer)           the node and those above it, as pointers
    children(allocation)           each node's children, in the order in which they were made
    ranges(codes)                  a row's codes as stretches of equal ones

What the bytes hold is left out: requests say what they store, and answers what they load.
"""

import functools
import itertools
from typing import NamedTuple

# What the program prints of a node's protector, and of an allocation's state.
NO_PROTECTOR, STRONG = "no", "strong"
DEAD = "dead"


class Pointer(NamedTuple):
    """A node: its allocation's number, and its own in that allocation."""

    allocation: int
    node: int


class Node(NamedTuple):
    """`parent` is None for the root; `codes` has a character for each byte of the allocation."""

    pointer: Pointer
    parent: Pointer
    protector: str
    codes: str


class Allocation(NamedTuple):
    number: int
    state: str
    kind: str
    address: int
    size: int
    exponent: int
    nodes: tuple

    @property
    def end(self):
        return self.address + self.size

    @property
    def root(self):
        return Pointer(self.number, 0)

    def addresses(self, first, end):
        """The addresses of some of its bytes."""
        return f"{self.address + first:#x}..{self.address + end:#x}"


class Memory(NamedTuple):
    allocations: tuple

    def allocation(self, number):
        """The allocation of this number; None where it was never made."""
        return self.allocations[number] if number < len(self.allocations) else None

    def node(self, pointer):
        """The node of this pointer; None where it was never made."""
        allocation = self.allocation(pointer.allocation)
        if allocation is None or pointer.node >= len(allocation.nodes):
            return None
        return allocation.nodes[pointer.node]

    def path(self, pointer):
        """The pointers from this node up to its root."""
        found = []
        while pointer is not None:
            found.append(pointer)
            pointer = self.node(pointer).parent
        return found


EMPTY = Memory(())


def pointer_of(text):
    """The pointer that the program prints as allocation.node."""
    allocation, node = text.split(".")
    return Pointer(int(allocation), int(node))


def of_output(output):
    """The memory that ends the program's output."""
    text = output.decode("ascii")
    start = 0 if text.startswith("a ") else text.find("\na ") + 1
    if not text.startswith("a ", start):
        return EMPTY
    blocks = ("\n" + text[start:]).split("\na ")[1:]
    return Memory(tuple(_allocation(*_without_words(block)) for block in blocks))


def children(allocation):
    """Each node's children, by its pointer."""
    found = {node.pointer: [] for node in allocation.nodes}
    for node in allocation.nodes[1:]:
        found[node.parent].append(node)
    return found


def ranges(codes):
    """Stretches of equal codes, as (first, end, code)."""
    at = 0
    for code, stretch in itertools.groupby(codes):
        end = at + len(list(stretch))
        yield at, end, code
        at = end


def _without_words(block):
    record, _words, nodes = block.split("\n", 2)
    return record, nodes


# Long runs print the same trees again and again: what is equal is held once.
@functools.lru_cache(maxsize=4096)
def _allocation(record, nodes):
    number, state, kind, address, size, exponent = record.split(" ")
    return Allocation(
        int(number),
        state,
        kind,
        int(address),
        int(size),
        int(exponent),
        tuple(map(_node, nodes.splitlines())),
    )


@functools.lru_cache(maxsize=65536)
def _node(line):
    _letter, allocation, node, parent, protector, codes = line.split(" ")
    return Node(
        Pointer(int(allocation), int(node)),
        None if parent == "-" else Pointer(int(allocation), int(parent)),
        protector,
        "" if codes == "-" else codes,
    )
