"""What the program prints: the answers, and the refusal that ends a run.

    answers(output)            each request's index, refusal or 0, and third field
    refusal_of(output)         the refusal that ended the run; None where all requests are accepted
    explain(card, refusal)     the refusal in words, for a person
"""

from typing import NamedTuple

from . import refusals
from . import words as w


class Answer(NamedTuple):
    index: int
    refusal: int
    given: str


def answers(output):
    """All answers, in order."""
    for line in output[: _memory_start(output)].decode("ascii").splitlines():
        yield _answer(line)


def refusal_of(output):
    """The last answer, if it is a refusal: the program stops there."""
    last = output[: _memory_start(output)].rstrip(b"\n").rpartition(b"\n")[2]
    if not last:
        return None
    answer = _answer(last.decode("ascii"))
    return answer if answer.refusal else None


def _memory_start(output):
    """Where the lines of the memory start, behind all answers."""
    if output.startswith(b"a "):
        return 0
    found = output.find(b"\na ")
    return len(output) if found < 0 else found + 1


def _answer(line):
    index, refusal, given = line.split(" ", 2)
    return Answer(int(index), int(refusal), given)


def explain(card, answer):
    """A refusal in words: the request, why it is refused, and what there is more to say."""
    request, standing = w.request_at(card.run, answer.index)
    more = _more(request, standing, answer)
    why = f"{answer.refusal}: {refusals.name(answer.refusal)}" + (f": {more}" if more else "")
    return f"request {answer.index}, {w.in_words(request, _called(card, request))}: refused, {why}"


def _called(card, request):
    """How the pointer is called: by its numbers, which the program prints, behind its name, if it has one."""

    def name(pointer):
        numbers = w.numbers(pointer)
        given = card.said_of(request)
        return given if given == numbers else f"{given} ({numbers})"

    return name


def _more(request, standing, answer):
    if answer.refusal == refusals.MALFORMED:
        return w.malformed(request, standing)
    if answer.refusal == refusals.NO_MASK:
        return w.no_mask(request)
    if answer.refusal == refusals.LEAK:
        return f"allocation {answer.given} is live"
    return None
