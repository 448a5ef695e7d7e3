"""The notation, read: what stands on a line, as a request.

Each statement is a function of the state and the scanner, behind the word that starts it. None changes the state.
"""

import re
from typing import NamedTuple, Optional

from .. import layouts
from .. import words as w
from . import parts
from .limits import MOST_ADDRESS, MOST_FRAME, MOST_SIGNED, MOST_WORD
from .state import Said

_GIVEN = re.compile(rf"({parts.NAME})\s*=")
_SIGN = re.compile(r"-")
_WORD = re.compile(r"[0-9a-fA-F]{8}(?!\w)")
_REST = re.compile(r"(?:[0-9a-fA-F]{2}){1,3}(?!\w)")


def parse(state, scanner):
    """What a line says."""
    if state.is_cut:
        raise scanner.error("the run ends inside the request before, so nothing may follow it")
    at = scanner.at
    given = scanner.accept(_GIVEN)
    if not given:
        request = _statement(STATEMENTS, "'NAME =' or ", state, scanner)
        scanner.expect_end()
        return Said(request)
    name = given.group(1)
    _check_new(state, scanner, name, at)
    request, size = _statement(GIVING, "", state, scanner)
    scanner.expect_end()
    return Said(request, name, at + 1, size)


def _statement(statements, otherwise, state, scanner):
    for word, statement in statements.items():
        if scanner.accept_word(word):
            return statement(state, scanner)
    raise scanner.unexpected(f"{otherwise}one of {', '.join(statements)}")


def _check_new(state, scanner, name, at):
    if name in STATEMENTS or name in GIVING:
        raise scanner.error(f"{name} is a word of the notation, and no name", at)
    if name in state.places:
        raise scanner.error(f"{name} is named already, on line {state.lines[name]}", at)


def _request(kind, place=None, **fields):
    if place is None:
        return w.Request(0, 0, w.join(kind, **fields))
    return w.Request(0, 0, w.join(kind, place.provenance, address=place.address, **fields))


# ---- what gives a pointer: a request, and for how many bytes the pointer is


def _allocate(kind):
    def statement(state, scanner):
        size = scanner.expect_number("a number of bytes", MOST_WORD)
        exponent = parts.exponent(scanner)
        if not scanner.accept_word("at"):
            raise scanner.unexpected("'at ADDRESS', and before it 'align N' at most")
        address = scanner.expect_number("an address", MOST_ADDRESS)
        return _request(w.ALLOCATE, exponent=exponent, extra=kind, address=address, fourth=size), size

    return statement


def _safe(kind):
    """A reference or a box."""

    def statement(state, scanner):
        place = parts.place(state, scanner)
        layout = parts.layout(scanner, place)
        options = _options(scanner)
        is_unread = w.POINTER_KINDS[kind] == "&mut" and options.is_pinned
        if layout is None and not is_unread:
            layout = parts.whole(scanner, place)
        following = layouts.join(layout) if layout else []
        has_cells = layout is not None and any(header.cells for header in layout.headers)
        freeze = not has_cells if options.freeze is None else options.freeze
        entry = options.frame is not None
        fourth = w.settings_word(entry, not options.is_pinned, freeze, options.frame or 0, len(following))
        request = _request(w.RETAG, place, extra=kind, fourth=fourth, following=following)
        return request, layouts.mask_size(layout) if layout else place.size

    return statement


class Options(NamedTuple):
    frame: Optional[int]
    is_pinned: bool
    freeze: Optional[bool]


def _options(scanner):
    """'in FRAME', 'pinned', 'freeze' or 'no-freeze', in any order, each once."""
    frame, is_pinned, freeze = None, False, None
    while not scanner.is_done:
        if frame is None and scanner.accept_word("in"):
            frame = scanner.expect_number("a frame", MOST_FRAME)
        elif not is_pinned and scanner.accept_word("pinned"):
            is_pinned = True
        elif freeze is None and scanner.accept_word("no-freeze"):
            freeze = False
        elif freeze is None and scanner.accept_word("freeze"):
            freeze = True
        else:
            raise scanner.unexpected("a layout, 'in FRAME', 'pinned', 'freeze', 'no-freeze' or the end of the line")
    return Options(frame, is_pinned, freeze)


def _unsafe(kind):
    """A raw, function or vtable pointer."""

    def statement(state, scanner):
        place = parts.place(state, scanner)
        return _request(w.RETAG, place, extra=kind), place.size

    return statement


# ---- what gives none


def _load(state, scanner):
    place = parts.place(state, scanner)
    size = parts.size(scanner, place)
    return _request(w.LOAD, place, exponent=parts.exponent(scanner), fourth=size)


def _store(state, scanner):
    place = parts.place(state, scanner)
    stored = parts.stored(state, scanner)
    return _request(w.STORE, place, exponent=parts.exponent(scanner), fourth=len(stored), following=stored)


def _free(state, scanner):
    place = parts.place(state, scanner)
    known = state.pointers.allocation_of(place.provenance)
    kind = _kind_of_memory(scanner)
    size = scanner.accept_number("a number of bytes", MOST_WORD)
    if known is None and (kind is None or size is None):
        raise scanner.unexpected("kind and size of the allocation, which are not known here")
    kind = known.kind if kind is None else kind
    size = known.size if size is None else size
    exponent = parts.exponent(scanner, known.exponent if known else 0)
    return _request(w.DEALLOCATE, place, exponent=exponent, extra=kind, fourth=size)


def _kind_of_memory(scanner):
    for kind, name in enumerate(w.ALLOCATION_KINDS):
        if scanner.accept_word(name):
            return kind
    return None


def _call(kind):
    def statement(state, scanner):
        return _request(kind, fourth=scanner.expect_number("a frame", MOST_WORD))

    return statement


def _deref(state, scanner):
    place = parts.place(state, scanner)
    return _request(w.DEREFERENCEABLE, place, fourth=parts.size(scanner, place))


def _deref_signed(state, scanner):
    place = parts.place(state, scanner)
    is_negative = scanner.accept(_SIGN) is not None
    length = scanner.expect_number("a signed length", MOST_SIGNED + is_negative)
    return _request(w.SIGNED_DEREFERENCEABLE, place, fourth=-length & MOST_WORD if is_negative else length)


def _leaks(state, scanner):
    return _request(w.LEAK_CHECK)


def _empty(state, scanner):
    return _request(w.EMPTY, extra=w.WIDTHS.index(parts.width(scanner)))


def _raw(state, scanner):
    """Words as they are: those of one request, or what is left of one at the card's end."""
    at = scanner.at
    digits = []
    found = scanner.accept(_WORD)
    while found:
        digits.append(found.group())
        found = scanner.accept(_WORD)
    rest = scanner.accept(_REST)
    if rest:
        digits.append(rest.group())
    if not digits or not scanner.is_done:
        raise scanner.unexpected("words of eight hexadecimal digits")
    requests = list(w.requests(bytes.fromhex("".join(digits))))
    if len(requests) > 1:
        raise scanner.error(f"these are the words of {len(requests)} requests, and a line has one", at)
    return requests[0]


STATEMENTS = {
    "load": _load,
    "store": _store,
    "free": _free,
    "call": _call(w.NEW_CALL),
    "end": _call(w.END_CALL),
    "deref": _deref,
    "deref-signed": _deref_signed,
    "leaks": _leaks,
    "empty": _empty,
    "raw": _raw,
}
_POINTERS = {name: (_safe if kind < w.SAFE_POINTERS else _unsafe)(kind) for kind, name in enumerate(w.POINTER_KINDS)}
GIVING = {
    **{name: _allocate(kind) for kind, name in enumerate(w.ALLOCATION_KINDS)},
    # '&mut' is asked for before '&', which it starts with.
    **{name: _POINTERS[name] for name in sorted(_POINTERS, key=len, reverse=True)},
}
