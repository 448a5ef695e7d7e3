"""card [-b] [-t FORM] [-o OUT] [FILE]: turn a card into another form.

A card in the notation (docs/CARDS.md) becomes hexadecimal words, and one in words or bytes becomes
the notation. Comments stay with their lines. Without a FILE, or where FILE is -, standard input is read.

  -b, --binary      the card is bytes (one with a NUL byte is so taken anyway)
  -t, --to FORM     the form that is wanted: words, names (the notation) or bytes
  -o, --output OUT  write to this file, which is replaced whole or stays as it was
      --help        this text
      --version     which commit this is

To words and back gives the same words for every run. What the notation cannot say stands as raw words.
Exit status: 0 done, 2 an error, and then nothing is written.
"""

import getopt

from .. import card, command
from ..errors import CardError

SHORT = "bt:o:"
LONG = ["binary", "to=", "output=", "help", "version"]
LETTERS = {"-b": "--binary", "-t": "--to", "-o": "--output"}
FORMS = (card.WORDS, card.NAMES, card.BYTES)


def main(cmd, arguments):
    try:
        options, files = getopt.gnu_getopt(arguments, SHORT, LONG)
    except getopt.GetoptError as error:
        raise command.UsageError(error) from None
    given = {LETTERS.get(name, name): value for name, value in options}
    if "--help" in given:
        cmd.write(__doc__.encode())
        return command.OK
    if "--version" in given:
        cmd.version()
        return command.OK
    if len(files) > 1:
        raise command.UsageError("one card at a time")
    if given.get("--to", card.WORDS) not in FORMS:
        raise command.UsageError(f"--to is one of {', '.join(FORMS)}")
    path = files[0] if files else command.STANDARD_INPUT
    try:
        read = card.read(cmd.read(path), "--binary" in given)
        written = converted(read, given.get("--to"))
    except CardError as error:
        cmd.fail(error.of(command.called(path)))
        return cmd.status()
    if "--output" in given:
        command.replace(given["--output"], written)
    else:
        cmd.write(written)
    return command.OK


def converted(read, form):
    """The card in a form; without one, in words if it has names, and else in names."""
    form = form or (card.WORDS if read.form == card.NAMES else card.NAMES)
    if form == card.BYTES:
        return read.run
    if form == read.form == card.NAMES:
        return read.data
    return (card.to_words(read) if form == card.WORDS else card.to_names(read)).encode("utf-8")
