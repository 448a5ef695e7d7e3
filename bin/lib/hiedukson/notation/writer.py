"""The notation, written: a request as a line."""

from .. import layouts
from .. import words as w
from ..errors import CardError
from . import parts
from .limits import MOST_REPEATS
from .scanner import Scanner
from .state import NO_NAME, Place
from .statements import parse

# From so many equal bytes on they are said as one that is repeated.
SOME_REPEATS = 5


class Writer:
    def __init__(self, state):
        self.state = state

    def line(self, request):
        """The request's line: in names, if that gives its words, else raw."""
        number = request.index + 1
        line = self._said(request)
        said = line and self._read(line, number)
        if not said or said.request.words != request.words:
            line = _say_raw(request)
            said = parse(self.state, Scanner(line, number))
        self.state.take(said, number)
        return line

    def _said(self, request):
        writer = None if request.is_cut else WRITERS.get(request.kind)
        return writer and writer(self, request)

    def _read(self, line, number):
        try:
            return parse(self.state, Scanner(line, number))
        except CardError:
            return None

    def given(self, request):
        """The name for what a request gives."""
        if request.kind is w.ALLOCATE:
            return f"a{len(self.state.pointers.allocations)}"
        allocation = self.state.pointers.allocation_of(request.pointer)
        if allocation is None or not request.is_safe or request.is_pinned:
            return NO_NAME
        return f"a{request.allocation}.{allocation.nodes}"

    def name_of(self, provenance):
        name = f"a{provenance[0]}.{provenance[1]}" if provenance[1] else f"a{provenance[0]}"
        return name if name in self.state.places else None

    def place(self, provenance, address):
        if provenance is None:
            return f"{address:#x}"
        name = self.name_of(provenance)
        most = w.most_address(self.state.width)
        if name is not None and address == self.state.places[name].address:
            return name
        if name is None or address > most:
            return f"{provenance[0]}.{provenance[1]}@{address:#x}"
        offset = address - self.state.places[name].address & most
        if offset > most // 2:
            return f"{name}-{_shown(most + 1 - offset)}"
        return f"{name}+{_shown(offset)}"

    def place_of(self, request):
        return self.place(request.pointer, request.address)


def _say_raw(request):
    rest = [request.rest.hex()] if request.rest else []
    return " ".join(["raw", *(f"{word:08x}" for word in request.words), *rest])


def _shown(number):
    """A number, in hexadecimal where it is large."""
    return str(number) if number < MOST_REPEATS else f"{number:#x}"


def _aligned(exponent):
    return f" align {1 << exponent}" if exponent else ""


def _say_allocate(writer, request):
    if request.extra >= len(w.ALLOCATION_KINDS):
        return None
    kind = w.ALLOCATION_KINDS[request.extra]
    return f"{writer.given(request)} = {kind} {request.fourth}{_aligned(request.exponent)} at {request.address:#x}"


def _say_free(writer, request):
    if request.extra >= len(w.ALLOCATION_KINDS):
        return None
    known = writer.state.pointers.allocation_of(request.pointer)
    said = f"free {writer.place_of(request)}"
    if known is None or known.kind != request.extra:
        said += f" {w.ALLOCATION_KINDS[request.extra]}"
    if known is None or known.size != request.fourth:
        said += f" {request.fourth}"
    if (known.exponent if known else 0) != request.exponent:
        said += f" align {1 << request.exponent}"
    return said


def _say_load(writer, request):
    return f"load {writer.place_of(request)} {request.fourth}{_aligned(request.exponent)}"


def _say_store(writer, request):
    return f"store {writer.place_of(request)} {_say_bytes(writer, request.following)}{_aligned(request.exponent)}"


def _say_bytes(writer, stored):
    """Byte words as bytes, repeated ones and whole pointers together."""
    said = []
    at = 0
    while at < len(stored):
        group = _say_pointer(writer, stored, at) or _say_repeated(stored, at)
        if group is None:
            group = _say_byte(writer, stored[at]), 1
        said.append(group[0])
        at += group[1]
    return " ".join(said) or "nothing"


def _say_pointer(writer, stored, at):
    """'ptr PLACE', where the words from here on are all bytes of one pointer with provenance."""
    width = writer.state.width
    found = list(stored[at : at + w.pointer_bytes(width)])
    if not all(word >> 30 == 3 for word in found):
        return None
    fragments = [w.byte_of(word) for word in found]
    address = int.from_bytes(bytes(fragment.value for fragment in fragments), "little")
    place = Place(fragments[0].provenance, address, None)
    if parts.pointer_words(place, width) != found:
        return None
    return f"ptr {writer.place(place.provenance, place.address)}", len(found)


def _say_repeated(stored, at):
    word = stored[at]
    if word >> 30 == 3:
        return None
    end = at
    while end < len(stored) and stored[end] == word and end - at < MOST_REPEATS:
        end += 1
    return (f"{_say_byte(None, word)}*{end - at}", end - at) if end - at >= SOME_REPEATS else None


def _say_byte(writer, word):
    byte = w.byte_of(word)
    if byte.value is None:
        return "__"
    if byte.provenance is None:
        return f"{byte.value:02x}"
    allocation, node = byte.provenance
    return f"{byte.value:02x}@{writer.name_of(byte.provenance) or f'{allocation}.{node}'}:{byte.position}"


def _say_retag(writer, request):
    if request.extra >= len(w.POINTER_KINDS):
        return None
    said = f"{writer.given(request)} = {w.POINTER_KINDS[request.extra]} {writer.place_of(request)}"
    if not request.is_safe:
        return said
    has_cells = False
    if request.following or not request.is_pinned:
        try:
            layout = layouts.split(request.following)
        except layouts.NoLayout:
            return None
        has_cells = any(header.cells for header in layout.headers)
        said += f" {_say_layout(layout)}"
    return said + _say_options(request.settings, has_cells)


def _say_layout(layout):
    heads = [_say_sized(header) for header in layout.headers[:-1]]
    return ", ".join([*heads, _say_tail(layout.headers[-1], layout.metadata)])


def _say_tail(tail, metadata):
    if tail.layout == "slice":
        return f"slice {metadata.count} of {_say_sized(tail)}"
    if tail.layout == "trait object":
        return f"dyn {_say_sized(tail)}"
    return _say_sized(tail) + _say_metadata(metadata)


def _say_sized(header):
    cells = "".join(f" {cell.offset}..{cell.end}" for cell in header.cells)
    return f"{header.size} cells{cells}" if cells else str(header.size)


def _say_metadata(metadata):
    return ("", f" with count {metadata.count}", " with vtable", "")[metadata.kind]


def _say_options(settings, has_cells):
    said = f" in {settings.frame}" if settings.entry else ""
    if not settings.unpin:
        said += " pinned"
    if settings.freeze == has_cells:
        said += " freeze" if settings.freeze else " no-freeze"
    return said


def _say_new_call(writer, request):
    return f"call {request.fourth}"


def _say_end_call(writer, request):
    return f"end {request.fourth}"


def _say_deref(writer, request):
    return f"deref {writer.place_of(request)} {request.fourth}"


def _say_deref_signed(writer, request):
    return f"deref-signed {writer.place_of(request)} {request.signed_length}"


def _say_leaks(writer, request):
    return "leaks"


def _say_empty(writer, request):
    return f"empty {request.width}" if request.width is not None else None


WRITERS = {
    w.ALLOCATE: _say_allocate,
    w.DEALLOCATE: _say_free,
    w.LOAD: _say_load,
    w.STORE: _say_store,
    w.RETAG: _say_retag,
    w.NEW_CALL: _say_new_call,
    w.END_CALL: _say_end_call,
    w.DEREFERENCEABLE: _say_deref,
    w.SIGNED_DEREFERENCEABLE: _say_deref_signed,
    w.LEAK_CHECK: _say_leaks,
    w.EMPTY: _say_empty,
}
