"""What the tests share: where things are, running a command, the program's answer for a run."""

import os
import shutil
import subprocess
import sys
import tempfile
import unittest

HERE = os.path.dirname(os.path.realpath(__file__))
ROOT = os.path.dirname(HERE)
BIN = os.path.join(ROOT, "bin")
sys.path.insert(0, os.path.join(BIN, "lib"))

from hiedukson import verdicts  # noqa: E402
from hiedukson.program import Program  # noqa: E402

EXAMPLES = os.path.join(ROOT, "examples")

# A card that is accepted, and one whose request 4, on line 7, is refused with 18; and what the program prints of each.
ACCEPTED = b"""\
# a two-phase borrow

00000000 00000000 00000010 00000001                    # allocate 1 stack byte at 16
30000100 00000000 00000010 00000001 80000003           # store 3 through node 0
40000101 00000000 00000010 60000002 00000000 00000001  # borrow it mutably: node 1
20000100 00000000 00000010 00000001                    # load through node 0
30000300 00000000 00000010 00000001 80000004           # store 4 through node 1
"""
ACCEPTED_OUTPUT = b"""\
0 0 0.0
1 0 -
2 0 0.1
3 0 80000003
4 0 -
a 0 live stack 16 1 0
d 0 80000004
n 0 0 - no 3
n 0 1 0 no 3
"""
REFUSED = b"""\
# an aliasing write

00000001 00000000 00000010 00000002                    # allocate 2 heap bytes at 16
40000101 00000000 00000010 60000002 00000000 00000002  # borrow them mutably: node 1
30000300 00000000 00000010 00000001 80000007           # store 7 through node 1
20000100 00000000 00000010 00000001                    # load through node 0
30000300 00000000 00000010 00000001 80000008           # store through node 1: refused
"""
REFUSED_OUTPUT = b"""\
0 0 0.0
1 0 0.1
2 0 -
3 0 80000007
4 18 -
a 0 live heap 16 2 0
d 0 80000007 00000000
n 0 0 - no 33
n 0 1 0 no 41
"""


def command(name, *arguments, **options):
    """Run one of the commands in bin/: its status, standard output and standard error."""
    return run([os.path.join(BIN, name), *arguments], **options)


def run(words, data=b"", **options):
    if "stdin" not in options:
        options["input"] = data
    done = subprocess.run(words, stdout=subprocess.PIPE, stderr=subprocess.PIPE, check=False, **options)
    return done.returncode, done.stdout, done.stderr.decode("utf-8", "surrogateescape")


def example_paths():
    """The hexadecimal cards in examples/ that have their output beside them."""
    found = []
    for folder, _, files in os.walk(EXAMPLES):
        found.extend(os.path.join(folder, name) for name in files if name.endswith(".hex") and name[:-4] + ".out" in files)
    return sorted(found)


def read(path):
    with open(path, "rb") as file:
        return file.read()


_programs = []


def program():
    """The proved program, found once."""
    if not _programs:
        _programs.append(Program(lambda line: print(line, file=sys.stderr)))
    return _programs[0]


def refusal(words_or_run):
    """The program's refusal of a run: its index and number, or None."""
    return verdicts.refusal_of(program().run(words_or_run))


class TestCase(unittest.TestCase):
    """A test with a folder of its own."""

    maxDiff = None

    def setUp(self):
        self.folder = tempfile.mkdtemp(prefix="hiedukson-")
        self.addCleanup(shutil.rmtree, self.folder, ignore_errors=True)

    def path(self, name):
        return os.path.join(self.folder, name)

    def cards(self):
        """The paths of a card that is accepted and of one that is refused."""
        return self.write("accepted.hex", ACCEPTED), self.write("refused.hex", REFUSED)

    def write(self, name, data):
        path = self.path(name)
        with open(path, "wb") as file:
            file.write(data if isinstance(data, bytes) else data.encode())
        return path
