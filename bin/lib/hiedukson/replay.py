"""A run replayed: the memory after each of its requests, as the proved program prints it.

    replay(run, judge)   the steps of a run, up to and with its first refusal; `judge` takes a run's
                         bytes and gives what the program prints
    Step                 a request, its answer, and the memories before and after it

    since_emptied(steps)   those behind the last emptying; the emptying itself, or None, comes with them

The program prints the memory at the end of a run, so the memory after a request is that of the run up to
it. No request of kinds 0 to 9 undoes what one before it did: allocations and nodes stay, a dead
allocation stays dead, and no permission returns to one that it left. So where the memories before and
after a stretch of requests are equal, so are those between, and the stretch is not looked into. A stretch
with a request of another kind, an emptying, always is.
"""

import os
from concurrent.futures import ThreadPoolExecutor
from typing import NamedTuple

from . import memories, verdicts, words

NOTHING = "-"


class Step(NamedTuple):
    request: words.Request
    answer: verdicts.Answer
    before: memories.Memory
    after: memories.Memory

    @property
    def is_refused(self):
        return self.answer.refusal != 0

    @property
    def empties(self):
        return not self.is_refused and self.request.kind is words.EMPTY

    @property
    def pointer(self):
        """The pointer that the request goes through; None without provenance."""
        named = self.request.pointer
        return None if named is None else memories.Pointer(*named)

    @property
    def made(self):
        """The pointer that an allocation or a retag answered; None for all else."""
        if self.is_refused or self.request.kind not in (words.ALLOCATE, words.RETAG):
            return None
        if self.answer.given == NOTHING:
            return None
        return memories.pointer_of(self.answer.given)


def replay(run, judge):
    """The steps of a run, up to and with its first refusal."""
    output = judge(run)
    answers = list(verdicts.answers(output))
    requests = [request for request, _ in zip(words.requests(run), answers)]
    after = _memories(run, requests, memories.of_output(output), judge)
    return [
        Step(request, answer, after[place], after[place + 1])
        for place, (request, answer) in enumerate(zip(requests, answers))
    ]


def _memories(run, requests, last, judge):
    """The memory before the first request, and after each of them."""
    known = {0: memories.EMPTY, len(requests): last}

    def memory_at(place):
        return memories.of_output(judge(run[: 4 * requests[place].start]))

    stretches = [(0, len(requests))]
    with ThreadPoolExecutor(os.cpu_count()) as pool:
        while stretches:
            split = [stretch for stretch in stretches if _is_split(*stretch, known, requests)]
            middles = [(first + end) // 2 for first, end in split]
            known.update(zip(middles, pool.map(memory_at, middles)))
            stretches = [half for (first, end), middle in zip(split, middles) for half in ((first, middle), (middle, end))]
    return _filled(known, len(requests))


def _is_split(first, end, known, requests):
    """Whether there may be another memory inside a stretch of requests than the ones around it."""
    if end - first < 2:
        return False
    return known[first] != known[end] or any(map(_may_undo, requests[first:end]))


def _filled(known, end):
    """The memories at all places: where none was looked at, it is that of the place before."""
    memory = known[0]
    filled = []
    for place in range(end + 1):
        memory = known.get(place, memory)
        filled.append(memory)
    return filled


def _may_undo(request):
    """Whether a kind of request may go back to what was."""
    return request.kind_number > words.LEAK_CHECK.number


def since_emptied(steps):
    """The last step that empties the memory, or None, and the steps behind it: what numbers and names mean in
    those, they mean in no other."""
    for place in reversed(range(len(steps))):
        if steps[place].empties:
            return steps[place], steps[place + 1 :]
    return None, steps
