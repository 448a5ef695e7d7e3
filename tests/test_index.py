#!/usr/bin/env python3
"""bin/cards: an index judged, listed, filed and shown, with good cards and damaged ones."""

import json
import os
import pty
import stat
import subprocess
import unittest

from support import ACCEPTED, BIN, EXAMPLES, REFUSED, REFUSED_OUTPUT, TestCase, command, read, run

from hiedukson import card, filed
from hiedukson.errors import CardError

NAMES = b"b = heap 2 at 0x10\nx = &mut b\nstore x 07\nload b 1\nstore x 08\n"
DAMAGED = b"0000001 00000000\n"


def with_verdict(data, verdict):
    return b"# verdict: " + verdict.encode() + b"\n" + data


def all_of(terminal):
    """What was written to a terminal whose other end is closed."""
    said = b""
    try:
        while True:
            said += os.read(terminal, 4096)
    except OSError:
        os.close(terminal)
        return said


class IndexCase(TestCase):
    def cards(self, *arguments, **options):
        status, output, error = command("cards", *arguments, cwd=self.folder, **options)
        return status, output.decode(), error

    def fill(self):
        """Cards that are as filed, one of each form but bytes."""
        self.write("a.hex", with_verdict(ACCEPTED, "accepted"))
        self.write("b.card", b"# title: Frozen by a read\n# library: core\n# version: 1.0\n# verdict: 18 at 4\n" + NAMES)
        os.mkdir(self.path("more"))
        self.write("more/c.hex", b"# library: alloc\n" + with_verdict(REFUSED, "18 at 4"))


class Judged(IndexCase):
    def test_examples(self):
        """All examples are as filed, and every .out is beside a card."""
        status, output, error = command("cards", EXAMPLES)
        self.assertEqual((status, error), (0, ""))
        self.assertRegex(output.decode().splitlines()[-1], r"^\d+ cards: \d+ as filed$")
        status, _, error = run([os.path.join(EXAMPLES, "check")])
        self.assertEqual((status, error), (0, ""))
        for folder, _, files in os.walk(EXAMPLES):
            for name in files:
                if name.endswith(".out"):
                    self.assertTrue({name[:-4] + ".hex", name[:-4] + ".card"} & set(files), name)

    def test_narrow_pointers(self):
        """Cards that empty the memory are filed, listed and found changed as all others are, also beside their output."""
        fits = b"x = heap 2 at 0x10\nempty 16\ny = heap 2 at 0xfffd\n"
        words = card.to_words(card.read(fits)).encode()
        self.write("fits.card", fits)
        self.write("fits.hex", words)
        self.write("long.card", fits.replace(b"heap 2 at 0xf", b"heap 3 at 0xf"))
        self.write("wide.card", fits.replace(b"0xfffd", b"0x1fffd"))
        status, output, error = self.cards("--file", "fits.card", "fits.hex", "long.card", "wide.card")
        self.assertEqual((status, error), (0, ""))
        verdicts = ["fits.card: filed as accepted", "fits.hex: filed as accepted", "long.card: filed as 5 at 2", "wide.card: filed as 2 at 2"]
        self.assertEqual(output.splitlines(), verdicts)
        self.write("long.out", b"0 0 0.0\n1 0 -\n2 5 -\n")
        table = (
            "card       verdict   reason                          filed\n"
            "fits.card  accepted                                  as filed\n"
            "fits.hex   accepted                                  as filed\n"
            "long.card  5 at 2    address fails the test of pick  as filed\n"
            "wide.card  2 at 2    malformed request               as filed\n"
            "4 cards: 4 as filed\n"
        )
        self.assertEqual(self.cards("."), (0, table, ""))
        # At 32 bits both fit.
        self.write("wide.card", read(self.path("wide.card")).replace(b"empty 16", b"empty 32"))
        self.assertIn("wide.card  accepted                                  changed: filed as 2 at 2\n", self.cards(".")[1])

    def test_table(self):
        self.fill()
        table = (
            "card        verdict   reason                 filed\n"
            "a.hex       accepted                         as filed\n"
            "b.card      18 at 4   local write of Frozen  as filed\n"
            "more/c.hex  18 at 4   local write of Frozen  as filed\n"
            "3 cards: 3 as filed\n"
        )
        self.assertEqual(self.cards("."), (0, table, ""))

    def test_by_library(self):
        self.fill()
        table = (
            "library   card        verdict   reason                 filed\n"
            "alloc     more/c.hex  18 at 4   local write of Frozen  as filed\n"
            "core 1.0  b.card      18 at 4   local write of Frozen  as filed\n"
            "          a.hex       accepted                         as filed\n"
            "3 cards: 3 as filed\n"
        )
        self.assertEqual(self.cards("--by", "library", "."), (0, table, ""))

    def test_by_reason(self):
        self.write("a.card", with_verdict(b"x = heap 1 at 0x10\nleaks\n", "25 at 1"))
        self.write("b.card", with_verdict(b"x = heap 1 at 0x10\nload x 2\n", "9 at 1"))
        self.write("c.card", with_verdict(b"x = heap 1 at 0x10\n", "accepted"))
        _, output, _ = self.cards("--by=reason", ".")
        self.assertEqual([line.split()[0] for line in output.splitlines()], ["card", "c.card", "b.card", "a.card", "3"])

    def test_changed(self):
        for verdict in ("accepted", "18 at 3", "17 at 4"):
            self.write("a.hex", with_verdict(REFUSED, verdict))
            status, output, error = self.cards(".")
            self.assertEqual((status, error), (1, ""))
            self.assertIn(f"changed: filed as {verdict}\n1 card: 1 changed\n", output)

    def test_not_filed(self):
        self.write("a.hex", REFUSED)
        self.write("b.bin", card.read(ACCEPTED).run)
        status, output, error = self.cards(".")
        self.assertEqual((status, error), (1, ""))
        self.assertIn("2 cards: 2 not filed\n", output)

    def test_output_beside(self):
        """The whole output is compared where it stands beside the card."""
        self.write("a.hex", with_verdict(REFUSED, "18 at 4"))
        self.write("a.out", REFUSED_OUTPUT)
        self.assertEqual(self.cards(".")[0], 0)
        for wrong, line in ((REFUSED_OUTPUT.replace(b"n 0 1 0 no 41", b"n 0 1 0 no 44"), 9), (REFUSED_OUTPUT[:-14], 9), (REFUSED_OUTPUT + b"x\n", 10), (b"", 1)):
            self.write("a.out", wrong)
            status, output, _ = self.cards(".")
            self.assertEqual(status, 1)
            self.assertIn(f"changed: the output differs from a.out in line {line}\n", output)

    def test_error(self):
        """What cannot be read is said, the rest is judged, and the status is 2 whatever else is."""
        self.fill()
        self.write("d.hex", DAMAGED)
        self.write("e.card", b"# verdict: perhaps\n" + NAMES)
        status, output, error = self.cards(".", "none.hex")
        self.assertEqual(status, 2)
        self.assertIn("6 cards: 3 as filed, 3 error\n", output)
        said = [
            "cards: d.hex:1:1: a word has eight digits, and 0000001 has 7",
            "cards: e.card:1: 'perhaps' is no verdict: 'accepted', or a refusal's number and a request's, '18 at 4'",
            "cards: none.hex: No such file or directory",
        ]
        self.assertEqual(error.splitlines(), said)

    def test_one_card(self):
        self.fill()
        self.assertEqual(self.cards("a.hex")[0], 0)
        self.assertEqual(self.cards("a.hex", "a.hex", ".")[1].splitlines()[-1], "3 cards: 3 as filed")

    def test_bad_folders(self):
        self.assertEqual(self.cards("."), (2, "", "cards: .: no card in this folder (.card, .hex, .bin)\n"))
        self.assertEqual(self.cards(), (2, "", "cards: a folder or a card is expected (see cards --help)\n"))

    def test_usage(self):
        self.fill()
        for words in (("--tsv", "--json", "."), ("--by", "size", "."), ("--file", "--json", "a.hex"), ("--file", "-"), ("--nothing", "."), ("--html",)):
            status, output, error = self.cards(*words)
            self.assertEqual((status, output), (2, ""), words)
            self.assertIn("(see cards --help)\n", error)

    def test_only_files(self):
        """A pipe, a folder, a hidden file and one of another name in the folder are no cards; a link to a card is one."""
        self.fill()
        os.mkfifo(self.path("pipe.hex"))
        os.mkdir(self.path("folder.hex"))
        os.mkdir(self.path(".hidden"))
        for name in (".x.hex", ".hidden/x.hex", "x.txt", "x.hex~"):
            self.write(name, DAMAGED)
        os.symlink("a.hex", self.path("link.hex"))
        status, output, error = self.cards(".")
        self.assertEqual((status, error), (0, ""))
        self.assertIn("4 cards: 4 as filed\n", output)

    def test_strange_names(self):
        """A name with a line feed or that is no UTF-8 stands on one line."""
        self.write("a\nb.hex", with_verdict(ACCEPTED, "accepted"))
        self.write(os.fsdecode(b"\xff=1.hex"), with_verdict(ACCEPTED, "accepted"))
        self.write("-x.hex", with_verdict(ACCEPTED, "accepted"))
        status, output, error = run([os.path.join(BIN, "cards"), "."], cwd=self.folder)
        self.assertEqual((status, error, output.count(b"\n")), (0, "", 5))
        self.assertIn(b"a\\x0ab.hex ", output)
        self.assertIn(b"\xff=1.hex ", output)

    def test_progress_on_a_terminal(self):
        """A terminal is told how far it is, and the line is taken away at the end."""
        self.fill()
        here, there = pty.openpty()
        done = subprocess.run([os.path.join(BIN, "cards"), "."], cwd=self.folder, stdout=subprocess.PIPE, stderr=there, check=False)
        os.close(there)
        said = all_of(here)
        self.assertEqual(done.returncode, 0)
        self.assertEqual(said.split(b"\r")[1:], [f"{number} of 3 cards judged\x1b[K".encode() for number in (1, 2, 3)] + [b"\x1b[K"])

    def test_standard_output(self):
        self.fill()
        status, _, error = run(["sh", "-c", '"$@" >/dev/full', "sh", os.path.join(BIN, "cards"), "."], cwd=self.folder)
        self.assertEqual((status, error), (2, "cards: standard output: No space left on device\n"))


class Listed(IndexCase):
    COLUMNS = ["card", "verdict", "reason", "state", "note", "title", "library", "version", "filed", "line"]

    def test_tsv(self):
        self.fill()
        self.write("d.hex", DAMAGED)
        status, output, _ = self.cards("--tsv", ".")
        self.assertEqual(status, 2)
        rows = [line.split("\t") for line in output.splitlines()]
        self.assertEqual(rows[0], self.COLUMNS)
        self.assertEqual(rows[1], ["a.hex", "accepted", "", "as filed", "", "", "", "", "accepted", ""])
        self.assertEqual(rows[2], ["b.card", "18 at 4", "local write of Frozen", "as filed", "", "Frozen by a read", "core", "1.0", "18 at 4", "9"])
        self.assertEqual(rows[3][:5], ["d.hex", "", "", "error", "line 1, column 1: a word has eight digits, and 0000001 has 7"])
        self.assertEqual({len(row) for row in rows}, {len(self.COLUMNS)})

    def test_json(self):
        self.fill()
        self.write("d.hex", DAMAGED)
        status, output, _ = self.cards("--json", ".")
        self.assertEqual(status, 2)
        objects = {each["card"]: each for each in json.loads(output)}
        self.assertEqual(set(objects), {"a.hex", "b.card", "d.hex", "more/c.hex"})
        self.assertEqual(objects["b.card"]["refusal"], 18)
        self.assertEqual(objects["b.card"]["request"], 4)
        self.assertEqual(objects["a.hex"]["refusal"], 0)
        self.assertIsNone(objects["a.hex"]["request"])
        self.assertIsNone(objects["d.hex"]["verdict"])
        self.assertEqual(set(objects["a.hex"]), {*self.COLUMNS, "refusal", "request"})


class Filed(IndexCase):
    def file(self, data, verdict, name="x.card"):
        """File a card; what is in it then."""
        path = self.write(name, data)
        status, output, error = self.cards("--file", name)
        self.assertEqual((status, error), (0, ""))
        self.assertIn(verdict, output)
        return read(path)

    def test_where_the_verdict_goes(self):
        title, library, comment = b"# title: t\n", b"# library: l\n", b"# about it\n"
        new = b"# verdict: 18 at 4\n"
        self.assertEqual(self.file(NAMES, "filed as 18 at 4"), new + NAMES)
        self.assertEqual(self.file(title + library + comment + NAMES, "filed as 18 at 4"), title + library + new + comment + NAMES)
        self.assertEqual(self.file(comment + title + NAMES, "filed as 18 at 4"), comment + title + new + NAMES)

    def test_in_place_of_another(self):
        old = b"# about it\n#verdict:   17 at 2\n# title: t\n\n"
        self.assertEqual(self.file(old + NAMES, "filed as 18 at 4, was 17 at 2"), b"# about it\n# verdict: 18 at 4\n# title: t\n\n" + NAMES)

    def test_as_filed_already(self):
        data = with_verdict(NAMES, "18 at 4")
        path = self.write("x.card", data)
        before = os.stat(path)
        self.assertEqual(self.file(data, "is filed as 18 at 4 already"), data)
        os.utime(path, ns=(before.st_mtime_ns, before.st_mtime_ns))
        self.cards("--file", "x.card")
        self.assertEqual(os.stat(path).st_mtime_ns, before.st_mtime_ns)

    def test_all_else_stays(self):
        """Line ends, a byte-order mark, a last line without an end, and the file's mode."""
        data = b"# title: t\r\n" + ACCEPTED.replace(b"\n", b"\r\n")
        self.assertEqual(self.file(data, "accepted", "x.hex"), data.replace(b"# title: t\r\n", b"# title: t\r\n# verdict: accepted\r\n"))
        mark = b"\xef\xbb\xbf"
        self.assertEqual(self.file(mark + NAMES, "18 at 4"), mark + b"# verdict: 18 at 4\n" + NAMES)
        self.assertEqual(self.file(NAMES[:-1], "18 at 4"), b"# verdict: 18 at 4\n" + NAMES[:-1])
        path = self.write("x.card", NAMES)
        os.chmod(path, 0o640)
        self.cards("--file", "x.card")
        self.assertEqual(stat.S_IMODE(os.stat(path).st_mode), 0o640)

    def test_a_link_stays_one(self):
        self.write("real.card", NAMES)
        os.symlink("real.card", self.path("x.card"))
        self.assertEqual(self.cards("--file", "x.card")[0], 0)
        self.assertTrue(os.path.islink(self.path("x.card")))
        self.assertIn(b"# verdict: 18 at 4", read(self.path("real.card")))

    def test_filed_then_judged(self):
        self.write("a.hex", REFUSED)
        self.write("b.card", NAMES)
        self.assertEqual(self.cards(".")[0], 1)
        self.assertEqual(self.cards("--file", "a.hex", "b.card"), (0, "a.hex: filed as 18 at 4\nb.card: filed as 18 at 4\n", ""))
        self.assertEqual(self.cards(".")[0], 0)

    def test_errors_leave_the_card(self):
        """Bytes, a damaged card, a folder: an error each, the others are filed, and nothing is left behind."""
        run_bytes = card.read(ACCEPTED).run
        self.write("a.bin", run_bytes)
        self.write("b.hex", DAMAGED)
        self.write("c.card", NAMES)
        os.mkdir(self.path("d"))
        status, output, error = self.cards("--file", "a.bin", "b.hex", "d", "c.card")
        self.assertEqual((status, output), (2, "c.card: filed as 18 at 4\n"))
        self.assertEqual(len(error.splitlines()), 3)
        self.assertEqual(read(self.path("a.bin")), run_bytes)
        self.assertEqual(read(self.path("b.hex")), DAMAGED)
        self.assertEqual(sorted(os.listdir(self.folder)), ["a.bin", "b.hex", "c.card", "d"])


class Header(unittest.TestCase):
    """What a card says of itself."""

    def test_said(self):
        said = filed.of_data(b"\n# title:  A: b #c \n#library: l\n  # version : 2\n# verdict: 3 at 0\n# Title: no\n" + NAMES + b"# title: behind\n")
        self.assertEqual(said, filed.Filed("A: b #c", "l", "2", filed.Verdict(3, 0)))
        self.assertEqual(filed.of_data(NAMES + b"# verdict: accepted\n"), filed.Filed())
        self.assertEqual(filed.of_data(b""), filed.Filed())

    def test_errors(self):
        for line in ("accept", "18", "18 at", "18 at x", "0 at 1", "18 at 4 5", "-1 at 2", "1 8 at 4", "18at4", "\u0661 at 2"):
            with self.assertRaises(CardError, msg=line) as raised:
                filed.of_data(f"# title: t\n# verdict: {line}\n".encode())
            self.assertEqual(raised.exception.line, 2)
        for twice in (b"# title: a\n# title: b\n", b"# verdict: accepted\n# verdict: accepted\n", b"# ok\n# title:\n"):
            with self.assertRaises(CardError) as raised:
                filed.of_data(twice)
            self.assertEqual(raised.exception.line, 2)


if __name__ == "__main__":
    unittest.main()
