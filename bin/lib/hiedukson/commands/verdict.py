"""verdict [-bHh] [FILE..]: print the verdict of each card.

A card is a run of memory requests: hexadecimal text (words of eight digits, '#' comments), the
notation for people (docs/CARDS.md), or bytes. A file with a NUL byte is bytes. Without a FILE, or
where FILE is -, standard input is read. With several files the name stands before each verdict.

  -b, --binary      all files are bytes
  -H, --with-names  the name stands before each verdict, also of one file
  -h, --no-names    no names
      --help        this text
      --version     commit, toolchain and sum of the proved program that gives the verdicts

After a refusal standard error says which request it was, where it stands, and why. A file that
cannot be read is said there too, and the others are judged.
Exit status: 0 all accepted, 1 a refusal, 2 an error.
"""

import getopt

from .. import card, command, verdicts
from .. import words as w
from ..errors import CardError
from ..program import Program

LONGEST_LINE = 120
LONG = ["binary", "with-names", "no-names", "help", "version"]


def main(cmd, arguments):
    try:
        options, files = getopt.gnu_getopt(arguments, "bHh", LONG)
    except getopt.GetoptError as error:
        raise command.UsageError(error) from None
    given = {name for name, _ in options}
    if "--help" in given:
        cmd.write(__doc__.encode())
        return command.OK
    if "--version" in given:
        cmd.version()
        return command.OK
    files = files or [command.STANDARD_INPUT]
    is_binary = bool(given & {"-b", "--binary"})
    judge = Judge(cmd, is_binary, has_names=names_wanted(options, len(files)))
    for file in files:
        judge.judge(file)
    return cmd.status(no=judge.has_refused)


def names_wanted(options, count):
    """Whether names stand before the verdicts: as the last of -H and -h says, else with several files."""
    wanted = count > 1
    for name, _ in options:
        if name in ("-H", "--with-names"):
            wanted = True
        if name in ("-h", "--no-names"):
            wanted = False
    return wanted


class Judge:
    def __init__(self, cmd, is_binary, has_names):
        self.cmd = cmd
        self.is_binary = is_binary
        self.has_names = has_names
        self.has_refused = False
        self.program = None

    def judge(self, path):
        """The verdict of one card; an error is said, and the next card may follow."""
        name = command.called(path)
        try:
            read = card.read(self.cmd.read(path), self.is_binary)
        except CardError as error:
            self.cmd.fail(error.of(name))
            return
        self.program = self.program or Program(self.cmd.say)
        output = self.program.run(read.run)
        if self.has_names:
            self.cmd.write(f"{name}:\n".encode("utf-8", "surrogateescape"))
        self.cmd.write(output)
        refusal = verdicts.refusal_of(output)
        if refusal is not None:
            self.has_refused = True
            self.cmd.say(explanation(name, read, refusal))


def explanation(name, read, refusal):
    """A refusal in words, with the place where the request stands: file and line, and the line itself, or the byte."""
    request, _ = w.request_at(read.run, refusal.index)
    why = verdicts.explain(read, refusal)
    line = read.line_of(request)
    if line is None:
        return f"{name}: byte {4 * request.start}: {why}"
    return f"{name}:{line}: {why}\n    {read.line(line).expandtabs()[:LONGEST_LINE]}"
