"""Runs by seed: the run of a seed is always the same.

Most requests are such as a recorder would write, through pointers that were made and to bytes that are there; now
and then a field is wild. A run is not cut at a refusal: the program says where that is.
"""

import random

import support  # noqa: F401  it says where the package is

from hiedukson import layouts
from hiedukson import words as w
from hiedukson.pointers import Pointers

BASE = 0x100
EDGES = (0, 1, 2, 3, 4, 7, 8, 15, 16, 31, 32, 255, 4095, 4096, 4097, 0xFFFF, 1 << 22, (1 << 31) - 1, 1 << 31, (1 << 32) - 1)


class Generator:
    def __init__(self, seed):
        self.random = random.Random(seed)
        self.pointers = Pointers()
        self.given = []
        self.allocated = []
        self.open = set()
        self.width = w.WIDEST
        self.next_address = BASE
        self.most_size = self.random.choice((1, 2, 4, 24))
        # One in so many choices is wild.
        self.wild = self.random.choice((20, 100, 1000, 100_000))

    def run(self):
        requests = [self.request() for _ in range(self.random.randint(1, self.random.choice((4, 12, 60))))]
        data = b"".join(w.bytes_of(request) for request in requests)
        return self.damaged(data) if self.random.random() < 0.25 else data

    def is_wild(self):
        return self.random.randrange(self.wild) == 0

    # ---- damage

    def damaged(self, data):
        return self.random.choice((self.flipped, self.cut, self.longer, self.odd))(data)

    def flipped(self, data):
        data = bytearray(data)
        for _ in range(self.random.randint(1, 3)):
            data[self.random.randrange(len(data))] ^= 1 << self.random.randrange(8)
        return bytes(data)

    def cut(self, data):
        return data[: self.random.randrange(len(data))]

    def longer(self, data):
        return data + random_bytes(self.random, self.random.randint(1, 30))

    def odd(self, data):
        first = self.random.getrandbits(28) | self.random.randint(10, 15) << 28
        return data + w.bytes_of((first, 0, 0, 0))

    # ---- one request

    def request(self):
        makers = (
            self.allocate, self.deallocate, self.load, self.store, self.retag, self.call, self.end, self.deref, self.signed, self.leaks, self.empty
        )
        weights = (0.5, 0.3, 6, 6, 6, 1, 0.5, 1, 0.3, 0.1, 0.2)
        if not self.given:
            weights = (8, 0, 0.2, 0.2, 0.2, 1, 0, 0, 0, 0.1, 1)
        request = self.random.choices(makers, weights)[0]()
        self.follow(w.Request(0, 0, tuple(request)))
        return request

    def follow(self, request):
        pointer = self.pointers.follow(request)
        if pointer is not None and self.is_sayable(pointer):
            self.given.append(pointer)
        if request.kind is w.ALLOCATE:
            self.allocated.append(request)
        if request.kind is w.NEW_CALL:
            self.open.add(request.fourth)
        if request.kind is w.END_CALL:
            self.open.discard(request.fourth)
        if request.width is not None:
            self.start_again(request.width)

    def start_again(self, width):
        self.width = width
        self.next_address = BASE
        for known in (self.given, self.allocated, self.open):
            known.clear()

    @staticmethod
    def is_sayable(pointer):
        return pointer.provenance is None or (pointer.provenance[0] < 128 and pointer.provenance[1] < 4096)

    def number(self, usual):
        return self.random.choice(EDGES) if self.is_wild() else usual

    def exponent(self):
        return self.random.randrange(32) if self.is_wild() else 0

    def place(self):
        """A pointer and an address near it, most often inside its allocation; and how many bytes are left there."""
        if not self.given or self.is_wild():
            provenance = (self.random.randrange(128), self.random.randrange(4096)) if self.random.random() < 0.5 else None
            return provenance, self.random.choice((BASE, 0, self.edge(), self.random.getrandbits(64))), 1
        pointer = self.random.choice(self.given)
        if pointer.provenance is None:
            return None, pointer.address, 0
        allocation = self.allocated[pointer.provenance[0]]
        offset = self.random.randint(-1, allocation.fourth + 1) if self.is_wild() else self.random.randint(0, min(allocation.fourth, 64))
        if self.random.random() < 0.5:
            offset = 0
        return pointer.provenance, (allocation.address + offset) % (1 << self.width), max(allocation.fourth - offset, 0)

    def edge(self):
        """An address near the end of those that the width has."""
        return (1 << self.width) - self.random.choice((-1, 0, 1, 2, 9)) & (1 << 64) - 1

    def allocate(self):
        size = self.number(self.random.randint(0, self.most_size))
        exponent = self.number(self.random.choice((0, 0, 1, 2, 3))) % 32
        alignment = 1 << exponent
        address = -(-self.next_address // alignment) * alignment
        if self.is_wild():
            address = self.random.choice((0, BASE, self.edge(), self.edge(), self.random.getrandbits(64)))
        else:
            self.next_address = address + min(size, 4096) + self.random.randint(0, 8) + (size == 0)
        extra = self.random.randrange(8) if self.is_wild() else self.random.choice((0, 0, 1, 1, 1, 2, 3, 4))
        return w.join(w.ALLOCATE, exponent=exponent, extra=extra, address=address, fourth=size)

    def deallocate(self):
        provenance, address, _ = self.place()
        if provenance is None or provenance[0] >= len(self.allocated):
            return w.join(w.DEALLOCATE, provenance, address=address, fourth=1)
        made = self.allocated[provenance[0]]
        wrong = self.random.randrange(24)
        address = address if wrong == 0 else made.address
        extra = self.random.randrange(8) if wrong == 1 else made.extra
        size = self.random.choice(EDGES) if wrong == 2 else made.fourth
        exponent = self.random.randrange(32) if wrong == 3 else made.exponent
        return w.join(w.DEALLOCATE, provenance, exponent, extra, address, size)

    def load(self):
        provenance, address, left = self.place()
        size = self.number(self.random.randint(0, left))
        return w.join(w.LOAD, provenance, self.exponent(), address=address, fourth=size)

    def store(self):
        provenance, address, left = self.place()
        size = self.random.randint(0, min(left, 40))
        if self.is_wild():
            size = self.random.choice((0, 1, 9, 30, 30, 30, 30, 4096, 4097, 66_000))
        stored = self.stored(size)
        return w.join(w.STORE, provenance, self.exponent(), address=address, fourth=len(stored), following=stored)

    def stored(self, size):
        style = self.random.randrange(4)
        if style == 0:
            return [w.byte_word(w.Byte(0x5A))] * size
        if style == 1 and size >= w.pointer_bytes(self.width) and self.given:
            pointer = self.pointer_bytes()
            return pointer + [0] * (size - len(pointer))
        return [self.byte() for _ in range(size)]

    def byte(self):
        if self.is_wild():
            return self.random.getrandbits(32)
        value = self.random.randrange(256)
        numbers = (self.random.randrange(128), self.random.randrange(3))
        position = self.random.randrange(w.pointer_bytes(self.width))
        choices = (w.Byte(None), w.Byte(value), w.Byte(value), w.Byte(value, numbers, position))
        return w.byte_word(self.random.choice(choices))

    def pointer_bytes(self):
        pointer = self.random.choice(self.given)
        values = (pointer.address % (1 << self.width)).to_bytes(w.pointer_bytes(self.width), "little")
        return [w.byte_word(w.Byte(value, pointer.provenance, at if pointer.provenance else 0)) for at, value in enumerate(values)]

    def retag(self):
        provenance, address, left = self.place()
        extra = self.random.randrange(8) if self.is_wild() else self.random.choice((0, 0, 1, 1, 1, 2, 3, 4, 5))
        if extra > 2:
            return w.join(w.RETAG, provenance, extra=extra, address=address, fourth=self.number(0))
        following = self.layout(left)
        entry = bool(self.open) and self.random.random() < 0.6
        frame = self.random.choice(sorted(self.open)) % 32 if entry else 0
        unpin = self.random.random() < 0.85
        freeze = self.random.random() < 0.6
        if not unpin and self.random.random() < 0.3:
            following = [] if self.random.random() < 0.5 else [self.random.getrandbits(32) for _ in range(self.random.randrange(4))]
        fourth = w.settings_word(entry, unpin, freeze, frame, len(following))
        if self.is_wild():
            fourth ^= 1 << self.random.randrange(23, 32)
        if self.is_wild():
            following = following[:-1] if self.random.random() < 0.5 else following + [self.random.getrandbits(32)]
            fourth = fourth >> 23 << 23 | len(following)
        return w.join(w.RETAG, provenance, extra=extra, address=address, fourth=fourth, following=following)

    def layout(self, left):
        """The words of a layout of at most so many bytes, and no more than some that are too many."""
        left = min(left, 5000)
        heads = []
        while self.random.random() < 0.15 or (self.is_wild() and self.random.random() < 0.9):
            size = self.random.randint(0, left)
            left -= size
            heads.append(self.header("tuple", size))
        kind = self.random.choice(("sized", "sized", "sized", "slice", "trait object"))
        metadata = {"sized": 0, "slice": 1, "trait object": 2}[kind]
        count = self.random.randint(0, 4) if kind == "slice" else 0
        if kind == "sized" and self.random.random() < 0.1:
            metadata, count = self.random.choice(((1, 5), (2, 0)))
        if self.is_wild():
            metadata, count = self.random.randrange(4), self.random.randrange(3)
        size = left // count if kind == "slice" and count else self.random.randint(0, left)
        size = self.random.choice((4096, 4097, 1 << 21)) if self.is_wild() else size
        layout = layouts.Layout(layouts.Metadata(metadata, count), (*heads, self.header(kind, size)), ())
        return layouts.join(layout)

    def header(self, kind, size):
        cells = []
        at = 0
        last = min(size, 5000)
        while self.random.random() < 0.3 and at <= last:
            start = self.random.randint(at, last)
            length = self.random.randint(0, last - start)
            cells.append(layouts.Cell(start, self.random.getrandbits(16) if self.is_wild() else length))
            at = start + length
        if cells and self.is_wild():
            cells.reverse()
        return layouts.Header(kind, size, tuple(cells))

    def call(self):
        free = [frame for frame in range(32) if frame not in self.open]
        return w.join(w.NEW_CALL, fourth=self.number(self.random.choice(free or [0])))

    def end(self):
        return w.join(w.END_CALL, fourth=self.number(self.random.choice(sorted(self.open) or [0])))

    def deref(self):
        provenance, address, left = self.place()
        return w.join(w.DEREFERENCEABLE, provenance, address=address, fourth=self.number(self.random.randint(0, left)))

    def signed(self):
        provenance, address, left = self.place()
        length = self.number(self.random.randint(-2, left)) & 0xFFFFFFFF
        return w.join(w.SIGNED_DEREFERENCEABLE, provenance, address=address, fourth=length)

    def leaks(self):
        return w.join(w.LEAK_CHECK, fourth=self.number(0))

    def empty(self):
        return w.join(w.EMPTY, extra=self.random.randrange(8 if self.is_wild() else 3), fourth=self.number(0))


def random_bytes(source, count):
    return bytes(source.getrandbits(8) for _ in range(count))


def run(seed):
    return Generator(seed).run()
