"""The largest numbers that words can say."""

from .. import layouts
from .. import words as w

MOST_ADDRESS = (1 << 64) - 1
MOST_WORD = (1 << 32) - 1
MOST_SIGNED = (1 << 31) - 1
MOST_FRAME = w.FRAMES - 1
MOST_ALIGNMENT = 1 << 31
MOST_ALLOCATION = (1 << 7) - 1
MOST_NODE = (1 << 12) - 1
# In a layout.
MOST_SIZE = (1 << layouts.SIZE_BITS) - 1
MOST_COUNT = (1 << layouts.COUNT_BITS) - 1
MOST_CELLS = (1 << layouts.CELL_BITS) - 1
MOST_OFFSET = (1 << 16) - 1
# The notation's own: how often a byte is repeated, so that a slip does not fill the machine's memory.
MOST_REPEATS = 65_536
# The largest position that a byte word can say, at any width.
MOST_POSITION = w.pointer_bytes(w.WIDEST) - 1
