"""The permissions by the program's codes, and which of them a refusal is about.

    name(code)       a code in words
    MET              for each refusal by a permission: the relation and the codes that it is about
    released(code)   the access that a permission makes when its protector ends
"""

from typing import NamedTuple

CELL, RESERVED, RESERVED_IM, UNIQUE, FROZEN, DISABLED = "012345"
PROTECTED_CELL, PROTECTED_RESERVED = "67"
RESERVED_LOCAL, RESERVED_FOREIGN, RESERVED_BOTH = "89a"
PROTECTED_UNIQUE, PROTECTED_FROZEN, FROZEN_LOCAL, PROTECTED_DISABLED = "bcde"

NAMES = {
    CELL: "Cell",
    RESERVED: "Reserved",
    RESERVED_IM: "ReservedIm",
    UNIQUE: "Unique",
    FROZEN: "Frozen",
    DISABLED: "Disabled",
    PROTECTED_CELL: "protected Cell",
    PROTECTED_RESERVED: "protected Reserved",
    RESERVED_LOCAL: "protected Reserved with local read",
    RESERVED_FOREIGN: "protected Reserved with foreign read",
    RESERVED_BOTH: "protected Reserved with local and foreign read",
    PROTECTED_UNIQUE: "protected Unique",
    PROTECTED_FROZEN: "protected Frozen",
    FROZEN_LOCAL: "protected Frozen with local read",
    PROTECTED_DISABLED: "protected Disabled",
}

LOCAL, FOREIGN = "local", "foreign"
READ, WRITE = "read", "write"


class Met(NamedTuple):
    """What a refusal is about: one of `codes`, at a node of this relation to the request's."""

    relation: str
    codes: str
    strong: bool = False


# The sentences of 17 to 24 and 26 to 28; a refusal that is added and is by a permission has a row here. A
# deallocation under a strong protector writes before it is refused, so that it meets what a write makes
# protected Unique: 7, 8 and b.
MET = {
    17: Met(LOCAL, DISABLED),
    18: Met(LOCAL, FROZEN),
    19: Met(LOCAL, DISABLED),
    20: Met(LOCAL, RESERVED_FOREIGN + RESERVED_BOTH),
    21: Met(FOREIGN, PROTECTED_UNIQUE),
    22: Met(FOREIGN, RESERVED_LOCAL + RESERVED_BOTH + FROZEN_LOCAL),
    23: Met(FOREIGN, PROTECTED_UNIQUE),
    24: Met(LOCAL, PROTECTED_RESERVED + RESERVED_LOCAL + PROTECTED_UNIQUE, strong=True),
    26: Met(LOCAL, PROTECTED_DISABLED),
    27: Met(LOCAL, PROTECTED_FROZEN + FROZEN_LOCAL),
    28: Met(LOCAL, PROTECTED_DISABLED),
}

RELEASED = {
    PROTECTED_UNIQUE: WRITE,
    RESERVED_LOCAL: READ,
    RESERVED_BOTH: READ,
    FROZEN_LOCAL: READ,
}


def name(code):
    return NAMES[code]


def released(code):
    """READ, WRITE, or None where the end of the protector makes no access."""
    return RELEASED.get(code)
