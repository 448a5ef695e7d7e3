"""The parts of a line: places, alignments, layouts, bytes."""

import re

from .. import layouts
from .. import words as w
from .limits import (
    MOST_ADDRESS,
    MOST_ALIGNMENT,
    MOST_ALLOCATION,
    MOST_CELLS,
    MOST_COUNT,
    MOST_NODE,
    MOST_OFFSET,
    MOST_POSITION,
    MOST_REPEATS,
    MOST_SIZE,
    MOST_WORD,
)
from .state import Place

NAME = r"[^\W\d]\w*(?:\.\w+)*"

_NAME = re.compile(NAME)
_OFFSET = re.compile(r"([+-])(?=[0-9])")
_PROVENANCE = re.compile(r"([0-9]+)\.([0-9]+)(?!\w)")
_AT = re.compile(r"@")
_COLON = re.compile(r":")
_COMMA = re.compile(r",")
_TIMES = re.compile(r"\*")
_RANGE = re.compile(r"\.\.")
_BYTE = re.compile(r"([0-9a-fA-F]{2}|__)(?![\w.])")
UNINITIALISED = "__"
WIDTHS = "16, 32 or 64"


# ---- places


def place(state, scanner):
    """A place: a name with an offset, an allocation and node at an address, or an address alone."""
    at = scanner.at
    if _PROVENANCE.match(scanner.line, at):
        numbers = provenance(scanner)
        scanner.expect(_AT, "'@' and an address")
        return Place(numbers, scanner.expect_number("an address", MOST_ADDRESS), None)
    address = scanner.accept_number("an address", MOST_ADDRESS)
    if address is not None:
        return Place(None, address, None)
    name = _NAME.match(scanner.line, at)
    if not name:
        raise scanner.unexpected("a place: a name, or an address")
    return _moved(state, scanner, _named(state, scanner, name.group()), name.end())


def _named(state, scanner, name):
    if name not in state.places:
        raise scanner.error(_unknown(state, name))
    found = state.places[name]
    allocation, node = found.provenance or (0, 0)
    if allocation > MOST_ALLOCATION or node > MOST_NODE:
        raise scanner.error(f"{name} is {allocation}.{node}, and words end at {MOST_ALLOCATION}.{MOST_NODE}")
    return found


def _unknown(state, name):
    if name in state.gone:
        return f"{name} is gone: the memory was emptied on line {state.gone[name]}"
    return f"nothing is named {name} yet"


def _moved(state, scanner, start, at):
    """A place moved by the offset that stands at its name's end, if one does. Addresses wrap at the width."""
    sign = _OFFSET.match(scanner.line, at)
    if not sign:
        scanner.move(at)
        return start
    scanner.move(sign.end())
    offset = scanner.expect_number("an offset", MOST_ADDRESS)
    offset = -offset if sign.group(1) == "-" else offset
    address = start.address + offset & w.most_address(state.width)
    is_inside = start.size is not None and 0 <= offset <= start.size
    return Place(start.provenance, address, start.size - offset if is_inside else None)


def provenance(scanner):
    """ALLOCATION.NODE."""
    at = scanner.at
    found = scanner.expect(_PROVENANCE, "ALLOCATION.NODE")
    allocation, node = int(found.group(1)), int(found.group(2))
    if allocation > MOST_ALLOCATION or node > MOST_NODE:
        raise scanner.error(f"words end at {MOST_ALLOCATION}.{MOST_NODE}", at)
    return allocation, node


def size(scanner, start):
    """A number of bytes, or all that is ahead of the place."""
    number = scanner.accept_number("a number of bytes", MOST_WORD)
    return all_of(scanner, start) if number is None else number


def all_of(scanner, start):
    if start.size is None:
        raise scanner.unexpected("a number of bytes, which is not known here")
    return start.size


def width(scanner):
    """The bits of a pointer."""
    at = scanner.at
    number = scanner.expect_number(f"a width, {WIDTHS}", MOST_WORD)
    if number not in w.WIDTHS:
        raise scanner.error(f"a width is {WIDTHS}, and {number} is none", at)
    return number


def exponent(scanner, default=0):
    """'align N', as an exponent."""
    if not scanner.accept_word("align"):
        return default
    at = scanner.at
    alignment = scanner.expect_number("an alignment", MOST_ALIGNMENT)
    if alignment == 0 or alignment & alignment - 1:
        raise scanner.error(f"an alignment is a power of two, and {alignment} is none", at)
    return alignment.bit_length() - 1


# ---- layouts


def layout(scanner, start):
    """A layout, or None where none stands there. 'cells' without a size are those of all that is ahead of the place."""
    if scanner.is_at_word("cells"):
        first = layouts.Header("sized", _layout_size(scanner, start), _cells(scanner)), None
    else:
        first = _header(scanner)
    if first is None:
        return None
    headers = [first]
    while scanner.accept(_COMMA):
        headers.append(_tail(scanner, headers[-1][0]))
    last, needed = headers[-1]
    heads = [header._replace(layout="tuple") for header, _ in headers[:-1]]
    return layouts.Layout(needed or _metadata(scanner), (*heads, last), ())


def whole(scanner, start):
    """The layout of all that is ahead of a place."""
    return layouts.Layout(_carries("none"), (layouts.Header("sized", _layout_size(scanner, start), ()),), ())


def _layout_size(scanner, start):
    number = all_of(scanner, start)
    if number > MOST_SIZE:
        raise scanner.error(f"a layout has at most {MOST_SIZE:,} bytes, and this place {number:,}")
    return number


def _tail(scanner, before):
    if before.layout != "sized":
        raise scanner.error(f"a {before.layout} comes last in a tuple")
    header = _header(scanner)
    if header is None:
        raise scanner.unexpected("the tuple's tail: SIZE, 'slice COUNT of SIZE' or 'dyn SIZE'")
    return header


def _header(scanner):
    """A header and the metadata that it needs, if it needs some; None where no layout starts."""
    if scanner.accept_word("slice"):
        count = scanner.expect_number("a number of elements", MOST_COUNT)
        if not scanner.accept_word("of"):
            raise scanner.unexpected("'of' and the size of an element")
        return _sized(scanner, "slice"), _carries("count", count)
    if scanner.accept_word("dyn"):
        return _sized(scanner, "trait object"), _carries("vtable")
    return (_sized(scanner, "sized"), None) if scanner.is_at_number else None


def _sized(scanner, name):
    number = scanner.expect_number("a size in a layout", MOST_SIZE)
    return layouts.Header(name, number, _cells(scanner))


def _carries(name, count=0):
    return layouts.Metadata(layouts.METADATA.index(name), count)


def _cells(scanner):
    """'cells FROM..TO ..', or none."""
    cells = []
    if not scanner.accept_word("cells"):
        return ()
    at = scanner.at
    start = scanner.expect_number("a cell, FROM..TO", MOST_OFFSET)
    while start is not None:
        if len(cells) == MOST_CELLS:
            raise scanner.error(f"a layout has at most {MOST_CELLS} cells", at)
        cells.append(_cell(scanner, start))
        at = scanner.at
        start = scanner.accept_number("the start of a cell", MOST_OFFSET)
    return tuple(cells)


def _cell(scanner, start):
    scanner.expect(_RANGE, "'..' and the end of the cell")
    at = scanner.at
    end = scanner.expect_number("the end of a cell", 2 * MOST_OFFSET)
    if not 0 <= end - start <= MOST_OFFSET:
        raise scanner.error(f"a cell at {start} ends between {start} and {start + MOST_OFFSET}, and this at {end}", at)
    return layouts.Cell(start, end - start)


def _metadata(scanner):
    """'with count N' or 'with vtable': what the pointer carries beside a sized layout."""
    if not scanner.accept_word("with"):
        return _carries("none")
    if scanner.accept_word("vtable"):
        return _carries("vtable")
    if scanner.accept_word("count"):
        return _carries("count", scanner.expect_number("a count", MOST_COUNT))
    raise scanner.unexpected("'vtable' or 'count N'")


# ---- bytes


def stored(state, scanner):
    """The byte words of a store."""
    if scanner.accept_word("nothing"):
        return []
    found = _some_bytes(state, scanner)
    if not found:
        raise scanner.unexpected(f"bytes of two hexadecimal digits, '{UNINITIALISED}', 'ptr PLACE' or 'nothing'")
    all_found = []
    while found:
        all_found.extend(found)
        found = _some_bytes(state, scanner)
    return all_found


def _some_bytes(state, scanner):
    """The words of a pointer's bytes, of a byte of one, or of a plain byte; none at the bytes' end."""
    if scanner.accept_word("ptr"):
        return _pointer(state, scanner)
    found = _BYTE.match(scanner.line, scanner.at)
    if not found:
        return []
    scanner.move(found.end())
    if found.group() == UNINITIALISED:
        return [w.byte_word(w.Byte(None))] * _repeats(scanner)
    value = int(found.group(), 16)
    if scanner.accept(_AT):
        return [_fragment(state, scanner, value)]
    return [w.byte_word(w.Byte(value))] * _repeats(scanner)


def _repeats(scanner):
    """'*COUNT', or once."""
    if not scanner.accept(_TIMES):
        return 1
    at = scanner.at
    repeats = scanner.expect_number("how often the byte stands there", MOST_REPEATS)
    if repeats == 0:
        raise scanner.error("a byte is repeated once or more", at)
    return repeats


def _fragment(state, scanner, value):
    """NAME:POSITION behind '@': one byte of a pointer."""
    at = scanner.at
    name = _NAME.match(scanner.line, at)
    if name:
        numbers = _named(state, scanner, name.group()).provenance
        if numbers is None:
            raise scanner.error(f"{name.group()} has no provenance")
        scanner.move(name.end())
    else:
        numbers = provenance(scanner)
    scanner.expect(_COLON, "':' and a position")
    return w.byte_word(w.Byte(value, numbers, scanner.expect_number("a position", MOST_POSITION)))


def _pointer(state, scanner):
    """PLACE behind 'ptr': all bytes of a pointer, as many as the width has."""
    at = scanner.at
    pointer = place(state, scanner)
    most = w.most_address(state.width)
    if pointer.address > most:
        raise scanner.error(f"a pointer of {state.width} bits is at most {most:#x}, and this is {pointer.address:#x}", at)
    return pointer_words(pointer, state.width)


def pointer_words(pointer, width):
    """A pointer's bytes, the lowest first."""
    values = pointer.address.to_bytes(w.pointer_bytes(width), "little")
    if pointer.provenance is None:
        return [w.byte_word(w.Byte(value)) for value in values]
    return [w.byte_word(w.Byte(value, pointer.provenance, position)) for position, value in enumerate(values)]
