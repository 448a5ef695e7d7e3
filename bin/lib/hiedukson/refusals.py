"""The refusals by their numbers, which rise in checking order; 26 to 28 are tested where 17 to 19 are."""

NAMES = {
    1: "memory not well formed",
    2: "malformed request",
    3: "layout without a mask",
    4: "allocation or node never made",
    5: "address fails the test of pick",
    6: "misaligned address",
    7: "missing provenance",
    8: "dead allocation",
    9: "out of bounds",
    10: "deallocation away from the start",
    11: "deallocation of another kind",
    12: "deallocation with another size",
    13: "deallocation with another alignment",
    14: "zero-length retag below its allocation's start",
    15: "size exceeded",
    16: "frame entry not protected",
    17: "local read of Disabled",
    18: "local write of Frozen",
    19: "local write of Disabled",
    20: "local write of protected Reserved that had a foreign read",
    21: "foreign read of protected Unique",
    22: "foreign write of protected Frozen or Reserved that had a local read",
    23: "foreign write of protected Unique",
    24: "deallocation under a strong protector",
    25: "memory leak",
    26: "local read of protected Disabled",
    27: "local write of protected Frozen",
    28: "local write of protected Disabled",
}

MALFORMED = 2
NO_MASK = 3
LEAK = 25


def name(number):
    """The name of a refusal; a number without one is said as it is."""
    return NAMES.get(number, f"refusal {number}")
