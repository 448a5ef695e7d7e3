"""What the lines so far have made and named."""

from typing import NamedTuple, Optional

from .. import words as w
from ..errors import CardError
from ..pointers import Pointers

# A line that gives a pointer which is not named.
NO_NAME = "_"


class Place(NamedTuple):
    """A pointer, and how many bytes are ahead of it; None where that is not known."""

    provenance: Optional[tuple]
    address: int
    size: Optional[int]


class Said(NamedTuple):
    """What a line says: its request; and the name that it gives, its column, and for how many bytes the pointer is."""

    request: w.Request
    name: Optional[str] = None
    column: Optional[int] = None
    size: Optional[int] = None


class State:
    """`places` and `lines` have the names that hold, `gone` those that an emptying took, with its line."""

    def __init__(self):
        self.pointers = Pointers()
        self.places = {}
        self.lines = {}
        self.gone = {}
        self.width = w.WIDEST
        self.is_cut = False

    def take(self, said, number):
        """Count what a line makes, and give it its name."""
        pointer = self.pointers.follow(said.request)
        self.is_cut = said.request.is_cut
        if said.request.width is not None:
            self._empty(said.request.width, number)
        if said.name is None or said.name == NO_NAME:
            return
        if pointer is None:
            message = f"there is no pointer to name, as what this goes through was never made; write {NO_NAME} ="
            raise CardError(message, number, said.column)
        self.places[said.name] = Place(pointer.provenance, pointer.address, said.size)
        self.lines[said.name] = number

    def _empty(self, width, number):
        """Forget all names, and go on with this width."""
        self.gone.update(dict.fromkeys(self.places, number))
        self.places = {}
        self.lines = {}
        self.width = width

    def names_of_pointers(self):
        """The names of each pointer with provenance, in the order in which they were given."""
        names = {}
        for name, place in self.places.items():
            if place.provenance is not None:
                names.setdefault(place.provenance, []).append(name)
        return names
