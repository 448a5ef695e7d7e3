"""What the nodes of a card are called.

    Names(given)                the card's names of its pointers, by (allocation, node); a raw pointer
                                gives a node one more
    names.of(pointer)           a node's first name, or its number, 0.1, where the card has none
    names.with_others(pointer)  the same with the others behind it
    names.all_of(pointer)       all names of a node; none where the card has none
    Course(stretches)           the names of a whole card: an emptying takes all names away
    course.at(index)            the names that hold at the request with this index
"""

import bisect

from . import words


class Names:
    def __init__(self, given):
        self._given = given

    def of(self, pointer):
        return self._all(pointer)[0]

    def with_others(self, pointer):
        first, *others = self._all(pointer)
        return f"{first} (also {', '.join(others)})" if others else first

    def all_of(self, pointer):
        return self._given.get(pointer, [])

    def _all(self, pointer):
        return self.all_of(pointer) or [words.numbers(pointer)]


class Course:
    def __init__(self, stretches):
        """`stretches` has a pair for each: the index of its first request, and the names that are given in it."""
        self._firsts = [first for first, _ in stretches]
        self._names = [Names(given) for _, given in stretches]

    def at(self, index):
        """The names at a request. An emptying has those that it takes away."""
        return self._names[max(bisect.bisect_right(self._firsts, index) - 1, 0)]


NAMELESS = Course([(0, {})])
