"""cards [--by WHAT] [--tsv | --json] [--html OUT] DIR..: judge an index of cards.
cards --file CARD..: write the verdict of each card into it.

Judges every card below the folders DIR (.card, .hex and .bin) and every card that is named, and prints
a table: card, verdict, reason, and whether it is as filed. A card says what it is filed as in a comment
before its first request, '# verdict: accepted' or '# verdict: 18 at 4' (refusal 18 at request 4), and
may say '# title:', '# library:' and '# version:' there. Where a file of the card's name ending in .out
stands beside it, the whole text that verdict prints must equal it.

      --by WHAT    sort by card, reason or library
      --tsv        tab-separated values, the names of the columns first
      --json       a list with an object for each card
      --html OUT   write the index as pages into the folder OUT, which is replaced whole
      --file       write the verdict into each CARD, which is replaced whole
  -h, --help       this text
      --version    commit, toolchain and sum of the proved program

Exit status: 0 all cards are as filed, 1 some are changed or not filed, 2 an error. With --file: 0 all
are filed now, 2 an error.
"""

import getopt
import os
from concurrent.futures import ThreadPoolExecutor

from .. import card, command, filed, folders, index, pages, program, reports, sources, tables
from ..errors import CardError

LONG = ["by=", "tsv", "json", "html=", "file", "help", "version"]
ORDERS = (tables.BY_CARD, tables.BY_REASON, tables.BY_LIBRARY)


def main(cmd, arguments):
    try:
        options, paths = getopt.gnu_getopt(arguments, "h", LONG)
    except getopt.GetoptError as error:
        raise command.UsageError(error) from None
    given = dict(options)
    if "-h" in given or "--help" in given:
        cmd.write(__doc__.encode())
        return command.OK
    if "--version" in given:
        cmd.version()
        return command.OK
    refuse_misuse(given, paths)
    if "--file" in given:
        return file_all(cmd, paths)
    return judge(cmd, paths, given)


def refuse_misuse(given, paths):
    if not paths:
        raise command.UsageError("a folder or a card is expected")
    if "--tsv" in given and "--json" in given:
        raise command.UsageError("--tsv and --json exclude each other")
    if "--file" in given and len(given) > 1:
        raise command.UsageError("--file stands alone")
    if "--file" in given and command.STANDARD_INPUT in paths:
        raise command.UsageError("--file writes into files, and not into standard input")
    if given.get("--by", tables.BY_CARD) not in ORDERS:
        raise command.UsageError(f"--by {command.printable(given['--by'])}: one of {', '.join(ORDERS)} is expected")


# ---- an index


def judge(cmd, paths, given):
    """Judge all cards, print the table, and write the pages where they are asked for."""
    if "--html" in given:
        folders.check(given["--html"], pages.is_index)
    found = index.find(paths)
    run = program.Program(cmd.say).run
    meter = Meter("judged", len(found))
    entries = index.judge_all(found, cmd.read, run, meter.hear)
    meter.end()
    entries = tables.ordered(entries, given.get("--by", tables.BY_CARD))
    for entry in entries:
        if entry.error is not None:
            cmd.fail(entry.error.of(command.called(entry.path)))
    if "--html" in given:
        write_pages(entries, given["--html"], run)
    cmd.write("".join(f"{line}\n" for line in lines_of(entries, given)).encode("utf-8", "surrogateescape"))
    return cmd.status(no=any(entry.state != index.AS_FILED for entry in entries))


def lines_of(entries, given):
    if "--tsv" in given:
        return tables.tsv(entries)
    if "--json" in given:
        return [tables.json_of(entries)]
    return tables.table(entries, given.get("--by", tables.BY_CARD))


def write_pages(entries, folder, run):
    """The index as pages: each card is replayed and drawn, side by side."""
    site = pages.Site(entries, program.version())
    files = site.start()
    meter = Meter("explained", len(entries))
    with ThreadPoolExecutor(os.cpu_count()) as pool:
        made = pool.map(lambda place: site.card(place, report_of(entries[place], run)), range(len(entries)))
        for done, (path, page) in enumerate(made, 1):
            files[path] = page
            meter.hear(done)
    meter.end()
    folders.replace(folder, files, pages.is_index)


def report_of(entry, run):
    """The report of a card; None of one that cannot be read."""
    return None if entry.card is None else reports.of_source(sources.of_card(entry.card), run)


class Meter:
    """A line of progress, on a terminal."""

    def __init__(self, what, total):
        self.what = what
        self.total = total
        self.is_shown = os.isatty(2)

    def hear(self, done):
        if self.is_shown:
            os.write(2, f"\r{done} of {self.total} cards {self.what}\x1b[K".encode())

    def end(self):
        if self.is_shown:
            os.write(2, b"\r\x1b[K")


# ---- filing


def file_all(cmd, paths):
    run = program.Program(cmd.say).run
    for path in paths:
        try:
            done = file_card(cmd, path, run)
            cmd.write(f"{command.called(path)}: {done}\n".encode("utf-8", "surrogateescape"))
        except CardError as error:
            cmd.fail(str(error))
    return cmd.status()


def file_card(cmd, path, run):
    """Write the verdict of a card into it, and say what was done."""
    data, was, verdict = judged(cmd, path, run)
    if was == verdict:
        return f"is filed as {verdict} already"
    new = filed.with_verdict(data, verdict)
    if filed.of_data(new).verdict != verdict or card.read(new).run != card.read(data).run:
        raise CardError(f"{command.called(path)}: the verdict cannot be written without changing the card")
    command.replace(path, new)
    return f"filed as {verdict}" + ("" if was is None else f", was {was}")


def judged(cmd, path, run):
    """The text of a card, what it is filed as, and its verdict."""
    try:
        data = cmd.read(path)
        read = card.read(data)
        if read.form == card.BYTES:
            raise CardError("bytes cannot say a verdict: make a text of them with card")
        return data, filed.of_data(data).verdict, index.verdict_of(run(read.run))
    except CardError as error:
        raise CardError(error.of(command.called(path))) from None
