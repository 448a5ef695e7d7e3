"""Runs by seed in which permissions decide: every request is well formed and inside one small allocation, through one of
many references. Most runs end in a refusal by a permission."""

import random

from support import HERE  # noqa: F401  the package is found from here

from hiedukson import layouts
from hiedukson import words as w

ADDRESS = 16
MOST_BYTES = 3
MOST_REQUESTS = 40
FRAMES = 3


class Generator:
    def __init__(self, seed):
        self.random = random.Random(seed)
        self.size = self.random.randint(1, MOST_BYTES)
        self.nodes = 1
        self.open = []

    def run(self):
        requests = [w.join(w.ALLOCATE, extra=1, address=ADDRESS, fourth=self.size)]
        requests += [self.request() for _ in range(self.random.randint(1, MOST_REQUESTS))]
        return b"".join(map(w.bytes_of, requests))

    def request(self):
        makers = (self.load, self.store, self.retag, self.call, self.end, self.deallocate)
        return self.random.choices(makers, (2, 3, 3, 2, 0.5, 0.4))[0]()

    def pointer(self):
        """One of the nodes, every second time the newest."""
        return 0, self.nodes - 1 if self.random.random() < 0.5 else self.random.randrange(self.nodes)

    def stretch(self):
        """Some of the bytes: an address and a length."""
        first = self.random.randrange(self.size)
        return ADDRESS + first, self.random.randint(1, self.size - first)

    def load(self):
        address, length = self.stretch()
        return w.join(w.LOAD, self.pointer(), address=address, fourth=length)

    def store(self):
        address, length = self.stretch()
        stored = [w.byte_word(w.Byte(self.random.randrange(256)))] * length
        return w.join(w.STORE, self.pointer(), address=address, fourth=length, following=stored)

    def retag(self):
        address, length = self.stretch()
        length = self.random.randint(0, length)
        cells = (layouts.Cell(0, self.random.randint(0, length)),) if self.random.random() < 0.3 else ()
        header = layouts.Header("sized", length, cells)
        following = layouts.join(layouts.Layout(layouts.Metadata(0, 0), (header,), ()))
        is_entry = bool(self.open) and self.random.random() < 0.7
        frame = self.random.choice(self.open) if is_entry else 0
        fourth = w.settings_word(is_entry, True, self.random.random() < 0.7, frame, len(following))
        extra = self.random.choice((0, 1, 1, 2))
        request = w.join(w.RETAG, self.pointer(), extra=extra, address=address, fourth=fourth, following=following)
        self.nodes += 1
        return request

    def call(self):
        free = [frame for frame in range(FRAMES) if frame not in self.open]
        if not free:
            return self.end()
        self.open.append(free[0])
        return w.join(w.NEW_CALL, fourth=free[0])

    def end(self):
        if not self.open:
            return self.load()
        return w.join(w.END_CALL, fourth=self.open.pop(self.random.randrange(len(self.open))))

    def deallocate(self):
        return w.join(w.DEALLOCATE, self.pointer(), extra=1, address=ADDRESS, fourth=self.size)


def run(seed):
    return Generator(seed).run()
