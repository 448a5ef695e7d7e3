"""A run's words, cut into requests and their fields.

A run is bytes, four a word, most significant first. What this module offers:

    KINDS                      the table of request kinds: THE place to add one (see Kind)
    words_of(run)              the words of a run's bytes, and the bytes left over at its end (0 to 3)
    bytes_of(words)            backwards
    requests(run)              all requests of a run, in order: an iterator of Request
    request_at(run, index)     one request and what holds before it, quickly, also in long runs
    Request                    its kind, fields, and the words that follow; `request.pointer`, `.settings`
    join(..)                   the words of a request from its fields: Request backwards
    Standing                   what holds before a request: the open frames, and the width
    most_address(width)        the largest address at a width; `pointer_bytes` how many bytes a pointer has
    malformed(request, standing)   which test of refusal 2 fails, in words; None where none does
    no_mask(request)           which reason of refusal 3 holds, in words; None where none does
    in_words(request, name)    the request as a short sentence: 'store 1 byte at 0x10 through 0.1'
    Byte, byte_of, byte_word   byte words: initialised, provenance and position, value

`layouts` has a retag's layout words, `text` the hexadecimal text and its lines.
Nothing here judges: what is accepted and what is refused is the proved program's to say.
"""

import sys
from array import array
from enum import Enum
from functools import lru_cache
from typing import NamedTuple, Optional

from . import layouts

MOST_WORDS = 4096
MOST_EXPONENT = 29
FRAMES = 32
WORD_BITS = 32
# The bits of a pointer, by an emptying's extra. A run starts with the widest.
WIDTHS = (16, 32, 64)
WIDEST = 64
BYTE_BITS = 8

ALLOCATION_KINDS = ("stack", "heap", "global", "function", "vtable")
POINTER_KINDS = ("&", "&mut", "box", "raw", "fn-ptr", "vtable-ptr")
SAFE_POINTERS = 3

# The fields of a first word: name, how far it is shifted, how many bits it has.
FIRST_WORD = (
    ("kind", 28, 4),
    ("allocation", 21, 7),
    ("node", 9, 12),
    ("provenance", 8, 1),
    ("exponent", 3, 5),
    ("extra", 0, 3),
)
# The fields whose use differs from kind to kind, in the order in which they are named in a report.
FIELDS = {
    "allocation": "allocation",
    "node": "node",
    "provenance": "has provenance",
    "exponent": "alignment exponent",
    "extra": "extra",
    "address": "address",
    "fourth": "fourth word",
}
NAME = ("allocation", "node", "provenance")


class Fourth(Enum):
    """What the fourth word is."""

    LENGTH = "length"
    SIGNED = "signed length"
    FRAME = "frame"
    SETTINGS = "settings"
    NOTHING = "nothing"


class Follows(Enum):
    """What the words behind the fourth are."""

    BYTES = "bytes"
    LAYOUT = "layout"
    NOTHING = "nothing"


class Kind(NamedTuple):
    """One kind of request. To add one: a row in KINDS, and a word for it in `notation`. One that opens or closes
    frames has a line in `Standing`, one that gives a pointer in `pointers`.

    uses      which of FIELDS have a use; all others must be zero
    extras    the names of the extra's values; () where it has no use
    says      the request in words, with the phrases of PHRASES
    """

    number: int
    name: str
    uses: tuple
    extras: tuple
    fourth: Fourth
    follows: Follows
    says: str


# The fields of a request that goes through a pointer.
ACCESS = (*NAME, "exponent", "address", "fourth")

KINDS = (
    Kind(
        0, "allocate", ("exponent", "extra", "address", "fourth"), ALLOCATION_KINDS, Fourth.LENGTH, Follows.NOTHING,
        "allocate {bytes} of {extra} at {address}{aligned}",
    ),
    Kind(
        1, "deallocate", (*ACCESS, "extra"), ALLOCATION_KINDS, Fourth.LENGTH, Follows.NOTHING,
        "deallocate {bytes} of {extra} at {address}{through}{aligned}",
    ),
    Kind(2, "load", ACCESS, (), Fourth.LENGTH, Follows.NOTHING, "load {bytes} at {address}{through}{aligned}"),
    Kind(3, "store", ACCESS, (), Fourth.LENGTH, Follows.BYTES, "store {bytes} at {address}{through}{aligned}"),
    Kind(
        4, "retag", (*NAME, "extra", "address", "fourth"), POINTER_KINDS, Fourth.SETTINGS, Follows.LAYOUT,
        "retag {reference} at {address}{through}{argument}",
    ),
    Kind(5, "new call", ("fourth",), (), Fourth.FRAME, Follows.NOTHING, "new call, frame {fourth}"),
    Kind(6, "end call", ("fourth",), (), Fourth.FRAME, Follows.NOTHING, "end call, frame {fourth}"),
    Kind(
        7, "dereferenceable", (*NAME, "address", "fourth"), (), Fourth.LENGTH, Follows.NOTHING,
        "dereferenceable {bytes} at {address}{through}",
    ),
    Kind(
        8, "signed dereferenceable", (*NAME, "address", "fourth"), (), Fourth.SIGNED, Follows.NOTHING,
        "signed dereferenceable {bytes} at {address}{through}",
    ),
    Kind(9, "leak check", (), (), Fourth.NOTHING, Follows.NOTHING, "leak check"),
    Kind(
        15, "emptying", ("extra",), tuple(f"width {width}" for width in WIDTHS), Fourth.NOTHING, Follows.NOTHING,
        "empty, {extra}",
    ),
)
ALLOCATE, DEALLOCATE, LOAD, STORE, RETAG, NEW_CALL, END_CALL, *_TESTS = KINDS
DEREFERENCEABLE, SIGNED_DEREFERENCEABLE, LEAK_CHECK, EMPTY = _TESTS
BY_NUMBER = {kind.number: kind for kind in KINDS}
WITH_BYTES = {kind.number for kind in KINDS if kind.follows is Follows.BYTES}
WITH_LAYOUT = {kind.number for kind in KINDS if kind.follows is Follows.LAYOUT}
# The kinds that change what holds before the next request.
STANDING = {NEW_CALL.number, END_CALL.number, EMPTY.number}
# The kinds that words may follow.
FOLLOWED = WITH_BYTES | WITH_LAYOUT


# ---- bytes and words


def words_of(run):
    """The words of a run's bytes, and the bytes that are no whole word, at its end."""
    whole = len(run) - len(run) % 4
    words = array("I")
    if words.itemsize != 4:
        words = array("L")
    words.frombytes(run[:whole])
    if sys.byteorder == "little":
        words.byteswap()
    return words, bytes(run[whole:])


def bytes_of(words):
    return b"".join(word.to_bytes(4, "big") for word in words)


# ---- cutting a run


def following_length(first, fourth):
    """How many words follow the fourth: a store's bytes, a reference's or a box's layout."""
    number = first >> 28
    if number in WITH_BYTES:
        return fourth
    if number in WITH_LAYOUT and first & 7 < SAFE_POINTERS:
        return fourth & 0x7FFFFF
    return 0


class Standing:
    """What holds before a request, if all requests so far are accepted: the frames that are open, and the width."""

    def __init__(self):
        self.open = set()
        self.width = WIDEST

    def follow(self, first, fourth):
        """Go on behind a request, by its first and its fourth word."""
        number = first >> 28
        if number == NEW_CALL.number:
            self.open.add(fourth)
        elif number == END_CALL.number:
            self.open.discard(fourth)
        elif number == EMPTY.number:
            self.open.clear()
            self.width = width_of(first) or self.width


def width_of(first):
    """The width that the first word of an emptying names; None where it names none."""
    extra = first & 7
    return WIDTHS[extra] if extra < len(WIDTHS) else None


def most_address(width):
    """The largest address that a pointer of so many bits can have."""
    return (1 << width) - 1


def pointer_bytes(width):
    """How many bytes a pointer has: their positions count from 0."""
    return width // BYTE_BITS


def requests(run):
    """All requests of a run. What is left of a run that ends inside a request is its last."""
    words, rest = words_of(run)
    index = 0
    at = 0
    while at < len(words) or rest:
        end = _end(words, at)
        yield _request(words, rest, index, at, end)
        if end > len(words) or at == len(words):
            return
        index += 1
        at = end


@lru_cache(maxsize=1)
def request_at(run, index):
    """The request with this index, and what holds before it, if all before are accepted.
    None for the request where the run has fewer. The last one is kept: a refusal is asked for twice."""
    words, rest = words_of(run)
    standing = Standing()
    count = len(words)
    at = 0
    for _ in range(index):
        behind = at + 4
        if behind > count:
            return None, standing
        first = words[at]
        number = first >> 28
        end = behind
        if number in FOLLOWED:
            end += following_length(first, words[at + 3])
            if end > count:
                return None, standing
        elif number in STANDING:
            standing.follow(first, words[at + 3])
        at = end
    if at >= count and not rest:
        return None, standing
    return _request(words, rest, index, at, _end(words, at)), standing


def _end(words, at):
    """Where the request that starts at a word ends: behind all words, where they do not suffice."""
    if at + 4 > len(words):
        return len(words) + 1
    return at + 4 + following_length(words[at], words[at + 3])


def _request(words, rest, index, at, end):
    is_cut = end > len(words)
    return Request(index, at, tuple(words[at:end]), rest if is_cut else b"", is_cut)


class Request:
    """One request.

    index, start        its number in the run, and the number of its first word
    words, rest         its words; and the bytes of an unfinished word, where the run ends inside it
    is_cut              the run ends inside it: fields that are not there count as zero
    kind, kind_number   a row of KINDS, or None for numbers without one; the number
    allocation, node, provenance, exponent, extra, address, fourth, following
    """

    def __init__(self, index, start, words, rest=b"", is_cut=False):
        self.index = index
        self.start = start
        self.words = words
        self.rest = rest
        self.is_cut = is_cut
        first, high, low, fourth = (words + (0, 0, 0, 0))[:4]
        for name, shift, bits in FIRST_WORD:
            setattr(self, name, first >> shift & (1 << bits) - 1)
        self.kind_number = self.kind
        self.kind = BY_NUMBER.get(self.kind_number)
        self.address = high << WORD_BITS | low
        self.fourth = fourth
        self.following = words[4:]

    @property
    def pointer(self):
        """(allocation, node), or None without provenance."""
        return (self.allocation, self.node) if self.provenance else None

    @property
    def signed_length(self):
        return self.fourth - (1 << WORD_BITS) if self.fourth >> WORD_BITS - 1 else self.fourth

    @property
    def settings(self):
        """A retag's fourth word, for a reference or a box."""
        return settings_of(self.fourth)

    @property
    def width(self):
        """The width that an emptying sets; None for all other requests, and for one that names no width."""
        return width_of(self.words[0]) if self.kind is EMPTY and not self.is_cut else None

    @property
    def is_safe(self):
        """A retag of a reference or a box."""
        return self.kind is RETAG and self.extra < SAFE_POINTERS

    @property
    def is_pinned(self):
        """A retag of a mutable reference that isn't unpin: its layout words are not read."""
        return self.is_safe and POINTER_KINDS[self.extra] == "&mut" and not self.settings.unpin


class Settings(NamedTuple):
    """A retag's fourth word. `frame` has a use at function entry alone; `zero` is a bit without one."""

    entry: bool
    unpin: bool
    freeze: bool
    zero: bool
    frame: int
    count: int


def settings_of(word):
    def flag(bit):
        return bool(word >> bit & 1)

    return Settings(flag(31), flag(30), flag(29), flag(28), word >> 23 & 31, word & 0x7FFFFF)


def settings_word(entry, unpin, freeze, frame, count):
    return entry << 31 | unpin << 30 | freeze << 29 | frame << 23 | count


def join(kind, pointer=None, exponent=0, extra=0, address=0, fourth=0, following=()):
    """The words of a request. `pointer` is (allocation, node), or None without provenance."""
    allocation, node = pointer or (0, 0)
    name = allocation << 21 | node << 9 | (pointer is not None) << 8
    first = kind.number << 28 | name | exponent << 3 | extra
    return (first, address >> WORD_BITS, address & 0xFFFFFFFF, fourth, *following)


# ---- byte words


class Byte(NamedTuple):
    """A byte: `value` is None when it is uninitialised; a pointer's has a provenance and a position."""

    value: Optional[int]
    provenance: Optional[tuple] = None
    position: int = 0


def is_byte_word(word):
    return word == 0 or word >> 30 == 3 or word >> 8 == 0x800000


def byte_of(word):
    """The byte of a well-formed byte word."""
    if word == 0:
        return Byte(None)
    if word >> 30 == 3:
        return Byte(word & 0xFF, (word >> 20 & 0x7F, word >> 8 & 0xFFF), word >> 27 & 7)
    return Byte(word & 0xFF)


def byte_word(byte):
    if byte.value is None:
        return 0
    if byte.provenance is None:
        return 1 << 31 | byte.value
    allocation, node = byte.provenance
    return 3 << 30 | byte.position << 27 | allocation << 20 | node << 8 | byte.value


# ---- which test of 2 fails, which reason of 3 holds


def malformed(request, standing):
    """Which test of refusal 2 this request fails, in words; None where it fails none. `standing` holds before it."""
    return (
        _miscounted(request)
        or _bad_field(request)
        or _too_wide(request, standing.width)
        or _bad_frame(request, standing.open)
    )


def _miscounted(request):
    if request.is_cut and len(request.words) < 4:
        rest = f" and {count(len(request.rest), 'byte')}" if request.rest else ""
        return f"the run ends inside it: {len(request.words)} of 4 words{rest} are there"
    follows = following_length(request.words[0], request.fourth)
    if follows > MOST_WORDS:
        return f"{follows:,} words after its fourth, at most {MOST_WORDS:,} may be"
    if request.is_cut:
        return f"the run ends inside it: {len(request.following)} of {follows} words after its fourth are there"
    return None


def _bad_field(request):
    kind = request.kind
    if kind is None:
        return f"there is no kind {request.kind_number}"
    for field, said in FIELDS.items():
        value = getattr(request, field)
        if value and field not in kind.uses:
            return f"unused field: {said} is {value}, and must be zero in {article(kind.name)}"
    if "provenance" in kind.uses and not request.provenance and (request.allocation or request.node):
        return f"stray name: {request.allocation}.{request.node} is named without has provenance"
    if request.exponent > MOST_EXPONENT:
        return f"alignment exponent {request.exponent}, at most {MOST_EXPONENT} may be"
    if kind.extras and request.extra >= len(kind.extras):
        return f"extra {request.extra}, outside its list 0 to {len(kind.extras) - 1}"
    return _bad_following(request)


def _bad_following(request):
    if request.kind.follows is Follows.BYTES:
        for place, word in enumerate(request.following):
            if not is_byte_word(word):
                return f"byte {place}: {word:08x} is no byte word ({_bad_byte(word)})"
    if request.kind is RETAG:
        return _bad_settings(request)
    return None


def _bad_byte(word):
    if word >> 31:
        return "position, allocation and node must be zero without provenance"
    return "an uninitialised byte is zero"


def _too_wide(request, width):
    """An address or a position that no pointer of this width has."""
    most = most_address(width)
    if request.address > most:
        return f"address {request.address:#x}, at most {most:#x} may be at {width} bits"
    if request.kind.follows is Follows.BYTES:
        return _bad_position(request.following, width)
    return None


def _bad_position(stored, width):
    last = pointer_bytes(width) - 1
    for place, word in enumerate(stored):
        position = byte_of(word).position
        if position > last:
            return f"byte {place}: position {position} in a pointer, which has positions 0 to {last} at {width} bits"
    return None


def _bad_settings(request):
    if not request.is_safe:
        if not request.fourth:
            return None
        name = POINTER_KINDS[request.extra]
        return f"unused field: the fourth word of a {name} retag is {request.fourth:08x}, and must be zero"
    settings = request.settings
    if settings.zero:
        return "unused field: the zero bit of the fourth word is set"
    if settings.frame and not settings.entry:
        return f"unused field: frame {settings.frame} is named without function entry"
    if request.following and not request.is_pinned:
        return _bad_metadata(request.following[0])
    return None


def _bad_metadata(word):
    metadata = layouts.metadata_of(word)
    if metadata.kind >= len(layouts.METADATA):
        return f"metadata: kind {metadata.kind}, outside its list 0 to {len(layouts.METADATA) - 1}"
    name = layouts.METADATA[metadata.kind]
    if metadata.count and name != "count":
        return f"metadata: a count of {metadata.count} beside {'no metadata' if name == 'none' else name}"
    return None


def _bad_frame(request, open_frames):
    kind = request.kind
    if kind.fourth is Fourth.FRAME and request.fourth >= FRAMES:
        return f"frame {request.fourth}, there are 0 to {FRAMES - 1}"
    if kind is NEW_CALL and request.fourth in open_frames:
        return f"frame {request.fourth} is open already"
    if kind is END_CALL and request.fourth not in open_frames:
        return f"frame {request.fourth} is not open"
    if request.is_safe and request.settings.entry and request.settings.frame not in open_frames:
        return f"frame {request.settings.frame} is not open"
    return None


def no_mask(request):
    """Which reason of refusal 3 holds of this request, in words; None where none does."""
    if not request.is_safe or request.is_pinned:
        return None
    return layouts.without_mask(request.following)


# ---- a request in words


def numbers(pointer):
    """(allocation, node) as the program prints it."""
    return "{}.{}".format(*pointer)


def in_words(request, name=numbers):
    """The request as a short sentence, from its fields alone. `name` says what (allocation, node) is called."""
    if request.is_cut and len(request.words) < 4:
        return "unfinished request"
    if request.kind is None:
        return f"kind {request.kind_number}"
    return request.kind.says.format_map(_Said(request, name))


class _Said:
    """The phrases about one request, each made when it is asked for."""

    def __init__(self, request, name):
        self.request = request
        self.name = name

    def __getitem__(self, phrase):
        return PHRASES[phrase](self.request, self.name)


def _bytes(request, name):
    return count(request.signed_length if request.kind.fourth is Fourth.SIGNED else request.fourth, "byte")


def _extra(request, name):
    extras = request.kind.extras
    return extras[request.extra] if request.extra < len(extras) else f"extra {request.extra}"


def _address(request, name):
    return f"{request.address:#x}"


def _through(request, name):
    return f" through {name(request.pointer)}" if request.provenance else " without provenance"


def _aligned(request, name):
    return f", alignment {1 << request.exponent}" if request.exponent else ""


def _fourth(request, name):
    return str(request.fourth)


def _reference(request, name):
    kind = _extra(request, name)
    if not request.is_safe:
        return kind
    kind = kind if request.settings.unpin else f"pinned {kind}"
    if request.is_pinned or layouts.without_mask(request.following) is not None:
        return kind
    return f"{kind} to {count(layouts.mask_size(layouts.split(request.following)), 'byte')}"


def _argument(request, name):
    return f", argument of frame {request.settings.frame}" if request.is_safe and request.settings.entry else ""


PHRASES = {
    "bytes": _bytes,
    "extra": _extra,
    "address": _address,
    "through": _through,
    "aligned": _aligned,
    "fourth": _fourth,
    "reference": _reference,
    "argument": _argument,
}


def count(number, what):
    """'1 byte', '2 bytes'."""
    return f"{number:,} {what}" if number == 1 else f"{number:,} {what}s"


def article(name):
    return f"an {name}" if name[0] in "aeiou" else f"a {name}"
