"""The rule behind each refusal, and what to do about it.

    RULES     by the refusal's number: a rule and an advice; {met} stands for the reference whose
              permission was met
    BORN      the advice where the permission would have refused from the start
"""

from typing import NamedTuple


class Rule(NamedTuple):
    rule: str
    advice: str


RULES = {
    1: Rule(
        "The memory that is lent must be well formed.",
        "A run starts from the empty memory and cannot meet this.",
    ),
    2: Rule(
        "Every field of a request has a list of values, fields without a use are zero, a frame is opened before"
        " it is used and not opened twice, and addresses and positions fit the width of a pointer.",
        "Correct the request; it was not performed.",
    ),
    3: Rule(
        "A retag of a shared reference, an unpin mutable reference or a box needs a layout that says which"
        " bytes are cells.",
        "Correct the layout words: cells in order within the size, an element count for a slice, vtable"
        " metadata for a trait object, and as many words as the headers announce.",
    ),
    4: Rule(
        "A pointer names an allocation and a node that an earlier request has made.",
        "Allocations are numbered from 0 as they are made, and nodes from 0, the root, in each of them; a"
        " retag of a raw pointer makes no node.",
    ),
    5: Rule(
        "An allocation's address is above 0 and a multiple of its alignment, its end is at most 2^64 - 1, or"
        " 2^16 - 1 or 2^32 - 1 where pointers are so narrow, and no live allocation overlaps it or starts where"
        " it starts.",
        "Propose an address that the recorded allocator could have given.",
    ),
    6: Rule(
        "A load's or store's address is a multiple of its alignment.",
        "Use the alignment of the type that is accessed, or an unaligned access, whose alignment is 1.",
    ),
    7: Rule(
        "Memory is used through a pointer that comes from an allocation.",
        "Use the pointer that the allocation or a retag answered, not an address alone.",
    ),
    8: Rule(
        "Memory that was deallocated is not used any more.",
        "Use it before it is deallocated, or deallocate it later.",
    ),
    9: Rule(
        "All bytes of an access or a reference lie inside the allocation that its pointer comes from.",
        "Check the offset and the length against the allocation's.",
    ),
    10: Rule(
        "Memory is deallocated through a pointer to its start.",
        "Deallocate with the address that the allocation was given.",
    ),
    11: Rule(
        "Memory is deallocated as the kind that it was allocated as.",
        "Deallocate heap memory with heap, stack memory with stack.",
    ),
    12: Rule(
        "Memory is deallocated with the size that it was allocated with.",
        "Keep the layout of the allocation, and pass it on.",
    ),
    13: Rule(
        "Memory is deallocated with the alignment that it was allocated with.",
        "Keep the layout of the allocation, and pass it on.",
    ),
    14: Rule(
        "A reference to no bytes does not lie below its allocation's start.",
        "Check the offset: it points before the allocation.",
    ),
    15: Rule(
        "A memory has room for 128 allocations, 4,096 bytes, 1,024 nodes and 32,768 permissions, dead ones"
        " included, and a frame for 64 protected references.",
        "Record less in one run: fewer or smaller allocations, or several runs.",
    ),
    16: Rule(
        "A frame's entry names a node that is marked protected.",
        "A run makes its frames itself and cannot meet this.",
    ),
    17: Rule(
        "A read needs every reference on its pointer's path not to be Disabled at the byte. A reference is"
        " disabled by a write through any pointer that is not borrowed from it.",
        "Read before that write, or through the pointer that wrote, or borrow {met} again after it.",
    ),
    18: Rule(
        "A write needs every reference on its pointer's path to be Cell, Reserved or Unique at the byte. A"
        " shared reference is Frozen outside its cells; a mutable one that was written through becomes Frozen"
        " when a pointer that is not borrowed from it reads the byte.",
        "Do that read before the first write through {met}, or read through {met}, or borrow it again after"
        " the read.",
    ),
    19: Rule(
        "A write needs every reference on its pointer's path not to be Disabled at the byte. A reference is"
        " disabled by a write through any pointer that is not borrowed from it.",
        "Use {met} for the last time before that write, or write through {met}, or borrow it again after it.",
    ),
    20: Rule(
        "While a call lasts, nothing is written through its argument where another pointer has read the byte:"
        " a compiler may move the write before that read.",
        "Let the other pointer read before the call, or after it has returned, or read through {met}; or take"
        " a raw pointer as the argument.",
    ),
    21: Rule(
        "While a call lasts, no other pointer reads what was written through its argument: a compiler may"
        " write later.",
        "Read through {met}, or after the call has returned; or take a raw pointer as the argument.",
    ),
    22: Rule(
        "While a call lasts, no other pointer writes what was read through its argument: a compiler may read"
        " again.",
        "Write through {met}, or after the call has returned; or take a raw pointer, or a shared reference to"
        " a cell, as the argument.",
    ),
    23: Rule(
        "While a call lasts, no other pointer writes what was written through its argument.",
        "Write through {met}, or after the call has returned; or take a raw pointer as the argument.",
    ),
    24: Rule(
        "While a call lasts, memory is not deallocated through a reference among its arguments, or what is"
        " borrowed from it, but for cells; a box is protected weakly, and allows it.",
        "Deallocate after the call has returned, or take a box or a raw pointer as the argument.",
    ),
    25: Rule(
        "At a leak check no heap allocation is live.",
        "Deallocate it before, or leave the leak check out where the leak is meant.",
    ),
    26: Rule(
        "A read needs every reference on its pointer's path not to be Disabled at the byte. While a call lasts,"
        " its argument is disabled where another pointer writes a byte that the argument does not point to and"
        " that was not used through it before.",
        "Stay inside the bytes that {met} points to, or read through the pointer that wrote; or take a raw"
        " pointer as the argument.",
    ),
    27: Rule(
        "While a call lasts, nothing is written through a shared reference among its arguments, or what is"
        " borrowed from it, outside its cells: a compiler may keep what it has read.",
        "Take {met} as a mutable reference, or as a raw pointer, or let the bytes lie in an UnsafeCell.",
    ),
    28: Rule(
        "A write needs every reference on its pointer's path not to be Disabled at the byte. While a call"
        " lasts, its argument is disabled where another pointer writes a byte that the argument does not point"
        " to and that was not used through it before.",
        "Stay inside the bytes that {met} points to, or write through the pointer that wrote; or take a raw"
        " pointer as the argument.",
    ),
}

BORN = {
    18: "{met} is a shared reference: it writes its cells alone. Borrow mutably, or let the bytes lie in an"
    " UnsafeCell.",
}
