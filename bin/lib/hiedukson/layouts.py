"""A retag's layout words: what they describe, and why there is no mask.

    split(words)          the layout that the words hold; raises NoLayout where words are missing
    without_mask(words)   why refusal 3 answers these words, in words; None where there is a mask
    mask_size(layout)     how many bytes the mask has
    metadata_of(word)     the metadata word's kind and count
    join(layout)          the words of a layout: split backwards
"""

from typing import NamedTuple

METADATA = ("none", "count", "vtable")
LAYOUTS = ("sized", "slice", "trait object", "tuple")

MOST_TUPLES = 8
LARGEST_MASK = 4096
COUNT_BITS = 30
CELL_BITS = 8
SIZE_BITS = 22


class Metadata(NamedTuple):
    """`kind` is an index of METADATA, or 3, which has no name."""

    kind: int
    count: int


class Cell(NamedTuple):
    offset: int
    size: int

    @property
    def end(self):
        return self.offset + self.size


class Header(NamedTuple):
    """`layout` is one of LAYOUTS. A tuple's header is its head's; the next header is its tail's."""

    layout: str
    size: int
    cells: tuple


class Layout(NamedTuple):
    """All headers but the last are tuples. `rest` are the words behind the last header's cells."""

    metadata: Metadata
    headers: tuple
    rest: tuple


class NoLayout(Exception):
    """Words are missing; the message says which."""


def metadata_of(word):
    return Metadata(word >> COUNT_BITS, word & (1 << COUNT_BITS) - 1)


def split(words):
    """The layout that the words hold, the metadata word first."""
    if not words:
        raise NoLayout("it has no layout words")
    metadata = metadata_of(words[0])
    headers = []
    at = 1
    while True:
        header, at = _header(words, at, len(headers))
        headers.append(header)
        if header.layout != "tuple":
            return Layout(metadata, tuple(headers), tuple(words[at:]))


def _header(words, at, number):
    if at >= len(words):
        raise NoLayout("the tuple's tail is missing" if number else "the layout's header is missing")
    word = words[at]
    count = word >> SIZE_BITS & (1 << CELL_BITS) - 1
    cells = words[at + 1 : at + 1 + count]
    if len(cells) < count:
        raise NoLayout(f"a header announces {_count(count, 'cell')}, and {_count(len(cells), 'word')} follow")
    size = word & (1 << SIZE_BITS) - 1
    cells = tuple(Cell(cell >> 16, cell & 0xFFFF) for cell in cells)
    return Header(LAYOUTS[word >> 30], size, cells), at + 1 + count


def join(layout):
    """The words of a layout."""
    words = [layout.metadata.kind << COUNT_BITS | layout.metadata.count]
    for header in layout.headers:
        words.append(LAYOUTS.index(header.layout) << 30 | len(header.cells) << SIZE_BITS | header.size)
        words.extend(cell.offset << 16 | cell.size for cell in header.cells)
    return words + list(layout.rest)


def mask_size(layout):
    """How many bytes the mask has: the heads', and the tail's as often as a slice repeats it."""
    tail = layout.headers[-1]
    repeats = layout.metadata.count if tail.layout == "slice" else 1
    return sum(head.size for head in layout.headers[:-1]) + tail.size * repeats


def without_mask(words):
    """Why these words have no mask, in words; None where they have one."""
    try:
        layout = split(words)
    except NoLayout as missing:
        return str(missing)
    return (
        _left_over(layout)
        or _nested(layout)
        or _bad_cells(layout)
        or _bad_metadata(layout)
        or _too_large(layout)
    )


def _left_over(layout):
    if layout.rest:
        return f"{_count(len(layout.rest), 'word')} left over after the last header's cells"
    return None


def _nested(layout):
    tuples = len(layout.headers) - 1
    if tuples > MOST_TUPLES:
        return f"{tuples} tuples nested, at most {MOST_TUPLES} may be"
    return None


def _bad_cells(layout):
    for header in layout.headers:
        end = 0
        for cell in header.cells:
            if cell.offset < end:
                return f"the cell at {cell.offset}..{cell.end} starts before the end of the one before it, {end}"
            end = cell.end
        if end > header.size:
            return f"the cells end at {end}, behind the size, {header.size}"
    return None


def _bad_metadata(layout):
    needed = {"slice": "count", "trait object": "vtable"}.get(layout.headers[-1].layout)
    if needed is None or METADATA.index(needed) == layout.metadata.kind:
        return None
    return "a slice without an element count" if needed == "count" else "a trait object without vtable metadata"


def _too_large(layout):
    size = mask_size(layout)
    if size > LARGEST_MASK:
        return f"a mask of {size:,} bytes, at most {LARGEST_MASK:,} may be"
    return None


def _count(number, what):
    return f"{number} {what}" if number == 1 else f"{number} {what}s"
