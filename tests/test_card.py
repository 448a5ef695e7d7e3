#!/usr/bin/env python3
"""bin/card: forms in and out, comments, files that are replaced whole, and input that is bad."""

import os
import unittest

from support import ACCEPTED, BIN, REFUSED, TestCase, command, read, run

from hiedukson import card

NAMES = b"""\
# an aliasing write

a0 = heap 2 at 0x10  # allocate 2 heap bytes at 16
a0.1 = &mut a0 2     # borrow them mutably: node 1
store a0.1 07        # store 7 through node 1
load a0 1            # load through node 0
store a0.1 08        # store through node 1: refused
"""


class Forms(TestCase):
    def test_words_to_names_and_back(self):
        self.assertEqual(command("card", data=REFUSED), (0, NAMES, ""))
        self.assertEqual(command("card", data=NAMES), (0, REFUSED, ""))
        self.assertEqual(command("card", self.write("a", REFUSED)), (0, NAMES, ""))
        self.assertEqual(command("card", "-", data=REFUSED), (0, NAMES, ""))

    def test_bytes(self):
        run_of = card.read(REFUSED).run
        self.assertEqual(command("card", "--to", "bytes", data=NAMES), (0, run_of, ""))
        self.assertEqual(command("card", "-tbytes", data=REFUSED), (0, run_of, ""))
        status, names, error = command("card", data=run_of)
        self.assertEqual((status, error), (0, ""))
        self.assertEqual([line.split(b"#")[0].strip() for line in NAMES.splitlines()[2:]], names.splitlines())

    def test_same_form(self):
        self.assertEqual(command("card", "-t", "names", data=NAMES), (0, NAMES, ""))
        self.assertEqual(command("card", "-t", "words", data=REFUSED), (0, REFUSED, ""))

    def test_words_of_bytes(self):
        status, words, _ = command("card", "-b", "-t", "words", data=card.read(ACCEPTED).run)
        self.assertEqual((status, card.read(words).run), (0, card.read(ACCEPTED).run))

    def test_binary_without_a_nul_byte(self):
        status, names, _ = command("card", "-b", data=b"abcdefghijklmnop")
        self.assertEqual((status, names), (0, b"raw 61626364 65666768 696a6b6c 6d6e6f70\n"))

    def test_a_run_that_ends_inside_a_word(self):
        data = b"\0\0\0\1\0\0"
        status, names, _ = command("card", data=data)
        self.assertEqual((status, names), (0, b"raw 00000001 0000\n"))
        self.assertEqual(command("card", "-t", "bytes", data=names), (0, data, ""))
        status, output, error = command("card", data=names)
        self.assertEqual((status, output), (2, b""))
        self.assertEqual(error, "card: standard input: the run ends inside a word, which hexadecimal text cannot say\n")

    def test_requests_over_lines_and_lines_of_requests(self):
        """A request stands where it starts; a comment stays behind the last request of its line."""
        text = (
            b"00000001 00000000 # one\n"
            b"00000010 # two\n"
            b"\n"
            b"00000002 90000000 00000000 00000000 00000000 50000000 # three\n"
            b"00000000 00000000 00000000\n"
        )
        expected = b"a0 = heap 2 at 0x10  # one\n# two\n\nleaks\ncall 0               # three\n"
        self.assertEqual(command("card", data=text)[1], expected)

    def test_empty(self):
        self.assertEqual(command("card", data=b""), (0, b"", ""))
        self.assertEqual(command("card", data=b"# nothing\n"), (0, b"# nothing\n", ""))


class Bad(TestCase):
    def test_input(self):
        path = self.write("a.card", b"x = heap 4 at 16\nload y\n")
        status, output, error = command("card", path)
        self.assertEqual((status, output, error), (2, b"", f"card: {path}:2:6: nothing is named y yet\n"))
        self.assertEqual(command("card", "/nowhere"), (2, b"", "card: /nowhere: No such file or directory\n"))

    def test_words(self):
        self.assertEqual(command("card", "-t", "runes", data=NAMES)[0], 2)
        self.assertEqual(command("card", "a", "b")[0], 2)
        self.assertEqual(command("card", "--nothing")[0], 2)

    def test_output_full(self):
        path = self.write("a.hex", REFUSED)
        self.assertEqual(run(["sh", "-c", '"$0" "$1" >/dev/full', os.path.join(BIN, "card"), path])[0], 2)

    def test_needs_no_program(self):
        self.assertEqual(command("card", data=REFUSED, env={"PATH": os.environ["PATH"], "HOME": "/nowhere"})[0], 0)


class Files(TestCase):
    def test_output(self):
        path = self.path("out.card")
        self.assertEqual(command("card", "-o", path, data=REFUSED), (0, b"", ""))
        self.assertEqual(read(path), NAMES)
        os.chmod(path, 0o600)
        os.link(path, self.path("before"))
        self.assertEqual(command("card", "-o", path, data=NAMES), (0, b"", ""))
        self.assertEqual((read(path), os.stat(path).st_mode & 0o777), (REFUSED, 0o600))
        self.assertEqual(read(self.path("before")), NAMES, "the old file was written into, and not replaced")
        self.assertEqual(sorted(os.listdir(self.folder)), ["before", "out.card"])

    def test_in_place(self):
        path = self.write("a", REFUSED)
        self.assertEqual(command("card", "-o", path, path)[0], 0)
        self.assertEqual(read(path), NAMES)

    def test_through_a_link(self):
        target = self.write("target", b"old")
        os.symlink("target", self.path("link"))
        self.assertEqual(command("card", "-o", self.path("link"), data=REFUSED)[0], 0)
        self.assertEqual(read(target), NAMES)
        self.assertTrue(os.path.islink(self.path("link")))

    def test_nothing_is_half_written(self):
        path = self.write("a", b"old")
        self.assertEqual(command("card", "-o", path, data=b"0000000")[0], 2)
        self.assertEqual(read(path), b"old")
        self.assertEqual(command("card", "-o", self.path("nowhere/a"), data=REFUSED)[0], 2)
        self.assertEqual(command("card", "-o", self.folder, data=REFUSED)[0], 2)
        limited = 'ulimit -f 0; trap "" XFSZ; "$0" -o "$1" "$2"'
        source = self.write("source", REFUSED)
        status, _, error = run(["sh", "-c", limited, os.path.join(BIN, "card"), path, source])
        self.assertEqual((status, read(path)), (2, b"old"), error)
        self.assertEqual(sorted(os.listdir(self.folder)), ["a", "source"])


if __name__ == "__main__":
    unittest.main()
