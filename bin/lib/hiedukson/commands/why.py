"""why [-b] [--at N] [--dot] [CARD]: say what each request of a card did, and why one was refused.

Prints the requests of a card in words, and below each the answer and which permissions changed. After
a refusal: the permission that was met, the requests that made it so, the last read and the last write
of the byte, the rule, and what to do about it. At the end the trees of all allocations. A card has
any form that verdict takes. Without CARD, or where it is -, standard input is read.

      --at N     stop after request N (they count from 0), and draw the trees as they were then
      --dot      print the trees alone, in the DOT language of Graphviz
  -b, --binary   the card is bytes
  -h, --help     this text
      --version  commit, toolchain and sum of the proved program

All that is said about permissions is what the proved program printed for the card up to some request.
Exit status: 0 accepted, 1 a refusal, 2 an error; with --at, of the card up to request N.
"""

import getopt

from .. import card, command, drawing, reports, sources
from ..errors import CardError
from ..program import Program

LONG = ["at=", "dot", "binary", "help", "version"]


def main(cmd, arguments):
    try:
        options, files = getopt.gnu_getopt(arguments, "bh", LONG)
    except getopt.GetoptError as error:
        raise command.UsageError(error) from None
    given = dict(options)
    if "-h" in given or "--help" in given:
        cmd.write(__doc__.encode())
        return command.OK
    if "--version" in given:
        cmd.version()
        return command.OK
    if len(files) > 1:
        raise command.UsageError("one card at a time")
    path = files[0] if files else command.STANDARD_INPUT
    return explain(cmd, path, "-b" in given or "--binary" in given, given.get("--at"), "--dot" in given)


def explain(cmd, path, is_binary, at, is_dot):
    """Explain one card. `at` is None, or what stands behind --at."""
    place = None if at is None else number_of(at)
    name = command.called(path)
    try:
        source = sources.of_card(card.read(cmd.read(path), is_binary))
    except CardError as error:
        raise CardError(error.of(name)) from None
    report = reports.of_source(source, Program(cmd.say).run)
    last = len(report.entries) - 1
    if place is not None and place > last:
        raise CardError(f"{name}: no request {place}: {ended_at(last)}")
    place = last if place is None else place
    cmd.write(shown(report, name, place, is_dot).encode("utf-8", "surrogateescape"))
    return cmd.status(no=report.is_refused_at(place))


def shown(report, name, place, is_dot):
    if is_dot:
        allocations, names = report.memory_after(place).allocations, report.names.at(place)
        return drawing.dot(allocations, names, report.spot_at(place), reports.width_line(report, place))
    lines = [f"{name}: {report.verdict_at(place)}", "", *reports.lines(report, place)]
    return "".join(f"{line}\n" for line in lines)


def number_of(word):
    if not (word.isascii() and word.isdigit()):
        raise command.UsageError(f"--at {command.printable(word)}: a request's number is expected")
    return int(word)


def ended_at(last):
    return "the card has none" if last < 0 else f"the last one that was answered is {last}"
