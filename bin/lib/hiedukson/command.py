"""What every command does alike: standard streams, errors, statuses, files that are replaced whole.

    run(name)                run the main of a command's module, and end with its status
    Command                  say an error, write to standard output, read a file or standard input
    replace(path, data)      write a file whole, or leave it as it was

Statuses: 0 all is well, 1 the answer is no (a refusal, a change), 2 an error.
"""

import errno
import importlib
import os
import sys

from . import program
from .errors import CardError, ProgramError

OK = 0
NO = 1
ERROR = 2
INTERRUPTED = 130

STANDARD_INPUT = "-"


class OutputError(Exception):
    """Standard output cannot be written."""


class UsageError(Exception):
    """The words of the command are wrong."""


class Command:
    def __init__(self, name):
        self.name = name
        self.has_failed = False

    def say(self, message):
        """A line on standard error, or several. What a card has in it cannot steer the terminal. Where standard error is
        closed there is nobody to tell."""
        shown = "\n".join(printable(line) for line in f"{self.name}: {message}".split("\n"))
        try:
            os.write(2, f"{shown}\n".encode("utf-8", "surrogateescape"))
        except OSError:
            pass

    def fail(self, message):
        """Say an error that the command goes on after; its status will be 2."""
        self.has_failed = True
        self.say(message)

    def status(self, no=False):
        return ERROR if self.has_failed else NO if no else OK

    def write(self, data):
        """All of it on standard output, or OutputError."""
        rest = memoryview(data)
        while rest:
            try:
                rest = rest[os.write(1, rest) :]
            except OSError as error:
                raise OutputError(error.strerror) from None

    def read(self, path):
        """The bytes of a file, or of standard input for '-'. A CardError where it cannot be read."""
        try:
            if path == STANDARD_INPUT:
                return _all_of(0)
            with open(path, "rb") as file:
                return file.read()
        except IsADirectoryError as error:
            raise CardError("closed, or a folder" if path == STANDARD_INPUT else error.strerror) from None
        except OSError as error:
            raise CardError(error.strerror) from None

    def version(self):
        lines = [f"{self.name} of Hiedukson", *program.version()]
        self.write("".join(f"{line}\n" for line in lines).encode())


def called(path):
    """How a file is called in reports."""
    return "standard input" if path == STANDARD_INPUT else printable(path)


def printable(name):
    """A name on one line: control characters are said as \\x.."""
    return "".join(c if c.isprintable() or "\udc80" <= c <= "\udcff" else f"\\x{ord(c):02x}" for c in name)


def _all_of(descriptor):
    parts = []
    while True:
        part = os.read(descriptor, 1 << 20)
        if not part:
            return b"".join(parts)
        parts.append(part)


def run(name):
    """Run `main(cmd, arguments)` of a command's module, and end with its status."""
    cmd = Command(name)
    try:
        _hold_standard_streams()
        status = importlib.import_module(f"hiedukson.commands.{name}").main(cmd, sys.argv[1:])
    except (UsageError, OutputError, ProgramError, CardError, MemoryError) as error:
        cmd.say(_said(name, error))
        status = ERROR
    except KeyboardInterrupt:
        status = INTERRUPTED
    # Nothing is buffered: what Python would still do at the end could only change the status.
    os._exit(status)


def _said(name, error):
    if isinstance(error, UsageError):
        return f"{error} (see {name} --help)"
    if isinstance(error, OutputError):
        return f"standard output: {error}"
    return "out of memory" if isinstance(error, MemoryError) else str(error)


def _hold_standard_streams():
    """No file that is opened later may take the place of a closed standard stream."""
    if not _is_open(1):
        raise OutputError(os.strerror(errno.EBADF))
    if not _is_open(0):
        os.open("/", os.O_RDONLY | os.O_DIRECTORY)
    if not _is_open(2):
        os.open(os.devnull, os.O_WRONLY)


def _is_open(descriptor):
    try:
        os.fstat(descriptor)
        return True
    except OSError:
        return False


def replace(path, data):
    """Write a file whole: what stood there stays until all is written, and stays for good if that fails."""
    target = os.path.realpath(path)
    part = f"{target}.{os.getpid()}.part"
    try:
        if os.path.exists(target) and not os.path.isfile(target):
            raise CardError(f"{printable(path)}: this is no file that can be replaced")
        with open(part, "xb") as file:
            file.write(data)
        if os.path.exists(target):
            os.chmod(part, os.stat(target).st_mode & 0o7777)
        os.replace(part, target)
    except OSError as error:
        if os.path.exists(part):
            os.unlink(part)
        raise CardError(f"{printable(path)}: {error.strerror}") from None
