#!/usr/bin/env python3
"""bin/verdict: what it prints and says, its statuses, and what it does with input and output that are bad."""

import os
import resource
import subprocess
import threading
import unittest

from support import ACCEPTED, ACCEPTED_OUTPUT, BIN, REFUSED, REFUSED_OUTPUT, TestCase, command, example_paths, program, read, refusal

from hiedukson import card, verdicts
from hiedukson import words as w

VERDICT = os.path.join(BIN, "verdict")
REQUESTS = 200_000


def shell(line, *arguments):
    """Run a line of the shell, in which "$@" are the command and its arguments."""
    done = subprocess.run(["sh", "-c", line, "sh", VERDICT, *arguments], stdout=subprocess.PIPE, stderr=subprocess.PIPE, check=False)
    return done.returncode, done.stdout, done.stderr.decode()


def refused(*requests):
    """The number of the refusal of a run; 0 where it is accepted."""
    found = refusal(b"".join(map(w.bytes_of, requests)))
    return found.refusal if found else 0


class Output(TestCase):
    def test_one_file_prints_what_the_program_prints(self):
        for path in example_paths():
            status, output, _ = command("verdict", path)
            self.assertEqual(output, read(path[:-4] + ".out"), path)
            self.assertEqual(output, program().run(card.read(read(path)).run))
            self.assertEqual(status, 1 if verdicts.refusal_of(output) else 0, path)

    def test_accepted_says_nothing(self):
        self.assertEqual(command("verdict", data=ACCEPTED), (0, ACCEPTED_OUTPUT, ""))

    def test_forms_agree(self):
        run = card.read(REFUSED).run
        names = card.to_names(card.read(REFUSED))
        expected = REFUSED_OUTPUT
        for name, data in (("a.bin", run), ("a.card", names), ("a.hex", REFUSED), ("a.mark", b"\xef\xbb\xbf" + REFUSED)):
            status, output, _ = command("verdict", self.write(name, data))
            self.assertEqual((status, output), (1, expected), name)

    def test_upper_case_and_other_white_space(self):
        text = REFUSED.split(b"\n")
        words = b" ".join(line.split(b"#")[0] for line in text).upper().split()
        status, output, _ = command("verdict", data=b"\r\n\t".join(words))
        self.assertEqual((status, output), (1, REFUSED_OUTPUT))

    def test_empty(self):
        for data in (b"", b"\n\n", b"# nothing\n"):
            self.assertEqual(command("verdict", data=data), (0, b"", ""))

    def test_names_before_verdicts(self):
        one, two = ACCEPTED_OUTPUT, REFUSED_OUTPUT
        accepted, refused = self.cards()
        named = f"{accepted}:\n".encode() + one + f"{refused}:\n".encode() + two
        self.assertEqual(command("verdict", accepted, refused)[1], named)
        self.assertEqual(command("verdict", "-h", accepted, refused)[1], one + two)
        self.assertEqual(command("verdict", "-H", accepted)[1], f"{accepted}:\n".encode() + one)
        self.assertEqual(command("verdict", "-hH", accepted)[1], f"{accepted}:\n".encode() + one)
        self.assertEqual(command("verdict", "-H", data=ACCEPTED)[1], b"standard input:\n" + one)

    def test_a_name_with_a_line_feed_stays_on_one_line(self):
        path = self.write("a\nb.hex", ACCEPTED)
        self.assertTrue(command("verdict", "-H", path)[1].startswith(f"{self.folder}/a\\x0ab.hex:\n".encode()))


class Refusals(TestCase):
    def said(self, *requests, name="a.hex"):
        """What is said of a run of these requests, and its status."""
        text = "".join(" ".join(f"{word:08x}" for word in request) + "\n" for request in requests)
        status, _, error = command("verdict", self.write(name, text))
        self.assertEqual(status, 1, error)
        return error

    def test_place_request_pointer_and_address(self):
        _, path = self.cards()
        _, _, error = command("verdict", path)
        self.assertEqual(
            error,
            f"verdict: {path}:7: request 4, store 1 byte at 0x10 through 0.1: refused, 18: local write of Frozen\n"
            "    30000300 00000000 00000010 00000001 80000008           # store through node 1: refused\n",
        )

    def test_names_of_the_card(self):
        path = self.write("a.card", "x = heap 2 at 0x2000\n\nfree x\nload x 1 # gone\n")
        _, _, error = command("verdict", path)
        self.assertEqual(
            error,
            f"verdict: {path}:4: request 2, load 1 byte at 0x2000 through x (0.0): refused, 8: dead allocation\n    load x 1 # gone\n",
        )

    def test_the_name_that_the_line_has(self):
        path = self.write("a.card", "x = heap 2 at 16\np = raw x\nq = raw p\nstore q 01 # p\nfree q\nload p 1 # x q\n")
        self.assertIn("load 1 byte at 0x10 through p (0.0)", command("verdict", path)[2])

    def test_a_card_does_not_steer_the_terminal(self):
        path = self.write("a.card", "x = heap 2 at 16\nfree x\nload x\t1 # \x1b[2J é\n")
        self.assertTrue(command("verdict", path)[2].endswith("\n    load x  1 # \\x1b[2J é\n"))
        path = self.write("a.card", "x = \x1b[2J\n")
        self.assertTrue(command("verdict", path)[2].endswith(", found \\x1b[2J\n"))

    def test_bytes_have_no_lines(self):
        path = self.write("a.bin", card.read(REFUSED).run)
        self.assertIn(f"{path}: byte 76: request 4, store", command("verdict", path)[2])

    def test_lines_of_requests_that_are_broken_up(self):
        words = [f"{word:08x}" for word in w.words_of(card.read(REFUSED).run)[0]]
        _, _, error = command("verdict", data="\n".join(words).encode())
        self.assertIn("standard input:20: request 4", error)
        self.assertEqual(words[19], "30000300")

    def test_leak_names_the_lowest(self):
        """Past one of the stack and one that is dead."""
        made = "x = stack 1 at 16\ny = heap 1 at 32\nz = heap 1 at 48\nw = heap 1 at 64\n"
        for freed, allocation in (("", 1), ("free y\n", 2), ("free z\n", 1), ("free y\nfree z\n", 3)):
            path = self.write("leak.card", made + freed + "leaks\n")
            self.assertIn(f"25: memory leak: allocation {allocation} is live", command("verdict", path)[2])

    def test_each_test_of_2(self):
        one = w.join(w.ALLOCATE, extra=1, address=16, fourth=8)
        call = w.join(w.NEW_CALL, fourth=3)
        through = {"pointer": (0, 0), "address": 16}

        def retag(extra=1, fourth=0x60000002, following=(0, 1), **fields):
            return w.join(w.RETAG, **{**through, **fields}, extra=extra, fourth=fourth, following=following)

        cases = [
            ("unused field: has provenance is 1", [(0x101, 0, 16, 1)]),
            ("unused field: node is 2, and must be zero in an allocate", [(0x401, 0, 16, 1)]),
            ("unused field: extra is 1", [one, w.join(w.LOAD, **through, extra=1, fourth=1)]),
            ("unused field: alignment exponent is 2", [one, w.join(w.DEREFERENCEABLE, **through, exponent=2, fourth=1)]),
            ("unused field: address is 16", [w.join(w.NEW_CALL, address=16)]),
            ("unused field: fourth word is 1", [w.join(w.LEAK_CHECK, fourth=1)]),
            ("unused field: the fourth word of a raw retag is 00000007", [one, retag(3, 7, ())]),
            ("unused field: the zero bit of the fourth word is set", [one, retag(fourth=0x70000002)]),
            ("unused field: frame 1 is named without function entry", [one, retag(fourth=0x60800002)]),
            ("stray name: 1.0 is named without has provenance", [one, (0x20200000, 0, 16, 1)]),
            ("alignment exponent 30, at most 29 may be", [w.join(w.ALLOCATE, exponent=30, address=16, fourth=1)]),
            ("extra 5, outside its list 0 to 4", [w.join(w.ALLOCATE, extra=5, address=16, fourth=1)]),
            ("extra 6, outside its list 0 to 5", [one, retag(6, 0, ())]),
            ("byte 1: 80000100 is no byte word", [one, w.join(w.STORE, **through, fourth=2, following=(0x80000001, 0x80000100))]),
            ("byte 0: 00000001 is no byte word (an uninitialised byte is zero)", [one, w.join(w.STORE, **through, fourth=1, following=(1,))]),
            ("metadata: kind 3, outside its list 0 to 2", [one, retag(following=(0xC0000000, 1))]),
            ("metadata: a count of 5 beside no metadata", [one, retag(following=(5, 1))]),
            ("metadata: a count of 5 beside vtable", [one, retag(following=(0x80000005, 1))]),
            ("frame 3 is open already", [call, call]),
            ("frame 3 is not open", [w.join(w.END_CALL, fourth=3)]),
            ("frame 3 is not open", [call, w.join(w.END_CALL, fourth=3), w.join(w.END_CALL, fourth=3)]),
            ("frame 2 is not open", [one, call, retag(fourth=0xE1000002)]),
            ("frame 32, there are 0 to 31", [w.join(w.NEW_CALL, fourth=32)]),
            ("there is no kind 12", [(0xC0000000, 0, 0, 0)]),
            ("extra 3, outside its list 0 to 2", [w.join(w.EMPTY, extra=3)]),
            ("unused field: fourth word is 1, and must be zero in an emptying", [w.join(w.EMPTY, fourth=1)]),
            ("unused field: has provenance is 1", [w.join(w.EMPTY, (0, 0))]),
            ("frame 3 is not open", [call, w.join(w.EMPTY, extra=2), w.join(w.END_CALL, fourth=3)]),
            ("4,097 words after its fourth, at most 4,096 may be", [one, (0x30000100, 0, 16, 4097)]),
            ("4,194,304 words after its fourth, at most 4,096 may be", [one, (0x40000101, 0, 16, 0x60400000)]),
            ("the run ends inside it: 3 of 4 words are there", [one, (0x20000100, 0, 16)]),
            ("the run ends inside it: 1 of 2 words after its fourth are there", [one, (0x30000100, 0, 16, 2, 0)]),
        ]
        for expected, requests in cases:
            with self.subTest(expected):
                self.assertIn(f"2: malformed request: {expected}", self.said(*requests))

    def test_the_last_that_are_well_formed(self):
        """What lies just inside the bounds of 2 and 3 is refused with neither."""
        one = w.join(w.ALLOCATE, exponent=4, extra=4, address=16, fourth=4096)
        layouts = [
            (0, *[3 << 30] * 8, 1),
            (0, 4096),
            (0, 2 << 22 | 8, 4, 4 << 16 | 4),
            (0, 1 << 22 | 8, 8 << 16),
            (1 << 30, 1 << 30 | 4097),
            (1 << 30 | 0x3FFFFFFF, 1 << 30),
            (1 << 30 | 7, 8),
            (2 << 30, 8),
            (2 << 30, 2 << 30 | 255 << 22 | 8, *[8 << 16] * 255),
        ]
        for following in layouts:
            request = w.join(w.RETAG, (0, 0), extra=1, address=16, fourth=0x60000000 | len(following), following=following)
            self.assertIsNone(verdicts.refusal_of(program().run(w.bytes_of(one + request))))
            self.assertIsNone(w.no_mask(w.Request(1, 4, request)))
        others = [
            w.join(w.LOAD, (0, 0), 29, address=0, fourth=0),
            w.join(w.STORE, (0, 0), address=16, fourth=4096, following=[0xFFFFFFFF, 0xC0000000, 0x800000FF, 0] * 1024),
            w.join(w.NEW_CALL, fourth=31),
        ]
        for request in others:
            self.assertIsNone(verdicts.refusal_of(program().run(w.bytes_of(one + request))))
            self.assertIsNone(w.malformed(w.Request(1, 4, request), w.Standing()))

    def test_what_is_too_wide(self):
        """Addresses and positions from the width on are refused with 2, in every kind that has them; one less is not."""
        for extra, width in enumerate(w.WIDTHS[:-1]):
            empty = w.join(w.EMPTY, extra=extra)
            most = (1 << width) - 1
            for kind in (w.ALLOCATE, w.DEALLOCATE, w.LOAD, w.STORE, w.DEREFERENCEABLE, w.SIGNED_DEREFERENCEABLE):
                said = self.said(empty, w.join(kind, address=most + 1))
                self.assertIn(f"2: malformed request: address {most + 1:#x}, at most {most:#x} may be at {width} bits", said)
                self.assertNotEqual(refused(empty, w.join(kind, address=most)), 2)
            for pointer in (0, 1, 3):
                said = self.said(empty, w.join(w.RETAG, extra=pointer, address=most + 1))
                self.assertIn(f"2: malformed request: address {most + 1:#x}", said)
                self.assertNotEqual(refused(empty, w.join(w.RETAG, extra=pointer, address=most)), 2)
            for position in range(8):
                word = w.byte_word(w.Byte(7, (1, 2), position))
                said = self.said(empty, w.join(w.STORE, address=16, fourth=2, following=(0, word)))
                expected = f"2: malformed request: byte 1: position {position} in a pointer, which has positions 0 to {width // 8 - 1} at {width} bits"
                self.assertEqual(expected in said, position >= width // 8, said)
                self.assertEqual("7: missing provenance" in said, position < width // 8, said)

    def test_the_width_is_that_of_the_last_emptying(self):
        narrow, wide = w.join(w.EMPTY, extra=0), w.join(w.EMPTY, extra=2)
        load = w.join(w.LOAD, address=1 << 32)
        self.assertEqual(refused(load), 0)
        self.assertEqual(refused(narrow, wide, load), 0)
        self.assertIn("at most 0xffff may be at 16 bits", self.said(wide, narrow, load))

    def test_names_behind_an_emptying(self):
        """The same numbers, by the names that are given since, and by those of before up to the emptying."""
        text = "x = heap 2 at 16\nempty 32\ny = heap 1 at 32\nx = heap 1 at 48\nload x+1 1\n"
        error = command("verdict", self.write("a.card", text))[2]
        self.assertIn("a.card:5: request 4, load 1 byte at 0x31 through x (1.0): refused, 9: out of bounds\n", error)
        text = "x = heap 2 at 16\nload x+2 1\nempty 32\ny = heap 1 at 32\n"
        error = command("verdict", self.write("a.card", text))[2]
        self.assertIn("a.card:2: request 1, load 1 byte at 0x12 through x (0.0): refused, 9: out of bounds\n", error)

    def test_bytes_left_over(self):
        error = command("verdict", "-b", self.write("a.bin", b"\0\0\0\1\0"))[2]
        self.assertIn("the run ends inside it: 1 of 4 words and 1 byte are there", error)

    def test_each_reason_of_3(self):
        one = w.join(w.ALLOCATE, extra=1, address=16, fourth=8)
        nine_tuples = (0, *[3 << 30] * 9, 1)
        cases = [
            ("it has no layout words", ()),
            ("the layout's header is missing", (0,)),
            ("the tuple's tail is missing", (0, 3 << 30 | 1)),
            ("a header announces 2 cells, and 1 word follow", (0, 2 << 22 | 4, 1)),
            ("1 word left over after the last header's cells", (0, 1, 0)),
            ("9 tuples nested, at most 8 may be", nine_tuples),
            ("the cell at 1..2 starts before the end of the one before it, 4", (0, 2 << 22 | 8, 4, 1 << 16 | 1)),
            ("the cells end at 9, behind the size, 8", (0, 1 << 22 | 8, 8 << 16 | 1)),
            ("a slice without an element count", (0, 1 << 30 | 4)),
            ("a trait object without vtable metadata", (1 << 30 | 2, 2 << 30 | 4)),
            ("a mask of 4,097 bytes, at most 4,096 may be", (0, 4097)),
            ("a mask of 5,000 bytes, at most 4,096 may be", (1 << 30 | 1000, 1 << 30 | 5)),
        ]
        for expected, following in cases:
            request = w.join(w.RETAG, (0, 0), extra=1, address=16, fourth=0x60000000 | len(following), following=following)
            with self.subTest(expected):
                self.assertIn(f"3: layout without a mask: {expected}", self.said(one, request))


class BadText(TestCase):
    def error(self, text):
        path = self.write("a.hex", text)
        status, output, error = command("verdict", path)
        self.assertEqual((status, output), (2, b""))
        self.assertTrue(error.startswith(f"verdict: {path}:"), error)
        return error[len(f"verdict: {path}:") :].rstrip("\n")

    def test_line_and_column(self):
        good = "00000001 00000000 00000010 00000002\n"
        cases = [
            (good + "40000101 0000000 00000010 60000002", "2:10: a word has eight digits, and 0000000 has 7"),
            (good + "40000101 000000001 00000010", "2:10: a word has eight digits, and 000000001 has 9"),
            (good + "# é\n0000000g", "3:8: 'g' is no hexadecimal digit"),
            (good + "00000001 é0000000", "2:10: 'é' is no hexadecimal digit"),
            (good + "  0x000001", "2:4: 'x' is no hexadecimal digit"),
            ("0000000100000000", "1:1: a word has eight digits, and 0000000100000000 has 16"),
            ("\n\n00000001 00", "3:10: a word has eight digits, and 00 has 2"),
        ]
        for text, expected in cases:
            with self.subTest(text):
                self.assertEqual(self.error(text), expected)

    def test_far_into_a_long_text(self):
        line = "20000100 00000000 00000010 00000001  # a comment\n"
        self.assertEqual(self.error(line * 60_000 + "0000000"), "60001:1: a word has eight digits, and 0000000 has 7")

    def test_notation(self):
        self.assertEqual(self.error("x = heap 4 at 16\nload y 4\n"), "2:6: nothing is named y yet")


class Files(TestCase):
    def test_name_with_an_equals_sign(self):
        self.write("a=b.hex", REFUSED)
        status, output, error = command("verdict", "a=b.hex", cwd=self.folder, data=ACCEPTED)
        self.assertEqual((status, output), (1, REFUSED_OUTPUT))
        self.assertIn("verdict: a=b.hex:7: request 4", error)

    def test_name_that_is_no_text(self):
        name = b"\xff\xfe.hex"
        with open(os.path.join(os.fsencode(self.folder), name), "wb") as file:
            file.write(REFUSED)
        done = subprocess.run([VERDICT, "-H", name], cwd=self.folder, stdout=subprocess.PIPE, stderr=subprocess.PIPE, check=False)
        self.assertEqual((done.returncode, done.stdout), (1, name + b":\n" + REFUSED_OUTPUT))
        self.assertTrue(done.stderr.startswith(b"verdict: " + name + b":7: request 4"))

    def test_name_with_a_dash(self):
        self.write("-dash.bin", card.read(REFUSED).run)
        status, output, error = command("verdict", "-b", "--", "-dash.bin", cwd=self.folder)
        self.assertEqual((status, output), (1, REFUSED_OUTPUT))
        self.assertIn("-dash.bin: byte 76: request 4", error)
        self.assertEqual(command("verdict", "-b", "-dash.bin", cwd=self.folder)[0], 2)

    def test_standard_input(self):
        expected = (1, REFUSED_OUTPUT)
        for arguments in ((), ("-",), ("--", "-"), ("--",)):
            self.assertEqual(command("verdict", *arguments, data=REFUSED)[:2], expected)
        self.assertIn("standard input:7:", command("verdict", data=REFUSED)[2])

    def test_through_links(self):
        os.symlink(VERDICT, self.path("one"))
        os.symlink("one", self.path("two"))
        done = subprocess.run([self.path("two"), self.cards()[1]], stdout=subprocess.PIPE, stderr=subprocess.PIPE, check=False)
        self.assertEqual((done.returncode, done.stdout), (1, REFUSED_OUTPUT))

    def test_pipes_as_files(self):
        path = self.path("pipe")
        os.mkfifo(path)

        def fill():
            with open(path, "wb") as pipe:
                pipe.write(REFUSED)

        writer = threading.Thread(target=fill)
        writer.start()
        self.assertEqual(command("verdict", path)[:2], (1, REFUSED_OUTPUT))
        writer.join()

    def test_goes_on_after_a_bad_file(self):
        bad = self.write("bad.hex", "nothing that is known\n")
        accepted, refused = self.cards()
        status, output, error = command("verdict", "-h", "/nowhere", self.folder, bad, refused, accepted)
        self.assertEqual(status, 2)
        self.assertEqual(output, REFUSED_OUTPUT + ACCEPTED_OUTPUT)
        self.assertIn("verdict: /nowhere: No such file or directory\n", error)
        self.assertIn(f"verdict: {self.folder}: Is a directory\n", error)
        self.assertIn(f"verdict: {bad}:1:1: expected", error)
        self.assertIn("request 4", error)

    def test_standard_input_closed_or_a_folder(self):
        for line in ('"$@" <&-', '"$@" </'):
            status, output, error = shell(line)
            self.assertEqual((status, output), (2, b""), line)
            self.assertEqual(error, "verdict: standard input: closed, or a folder\n")


class BadOutput(TestCase):
    def test_standard_output_full_or_closed(self):
        for line in ('"$@" >/dev/full', '"$@" >&-', '"$@" >/dev/full 2>/dev/full', '"$@" >&- 2>&-'):
            for path in self.cards():
                self.assertEqual(shell(line, path)[0], 2, line)
        accepted, _ = self.cards()
        self.assertIn("verdict: standard output: No space left on device", shell('"$@" >/dev/full', accepted)[2])
        self.assertIn("verdict: standard output: Bad file descriptor", shell('"$@" >&-', accepted)[2])
        self.assertEqual(shell('"$@" >/dev/full', "--help")[0], 2)
        self.assertEqual(shell('"$@" >/dev/full', "--version")[0], 2)

    def test_standard_error_closed(self):
        accepted, refused = self.cards()
        for line in ('"$@" 2>&-', '"$@" 2>/dev/full'):
            self.assertEqual(shell(line, refused)[:2], (1, REFUSED_OUTPUT))
            self.assertEqual(shell(line, accepted)[0], 0)
            self.assertEqual(shell(line, "/nowhere")[0], 2)

    def test_reader_that_has_gone(self):
        text = b"".join(line + b"\n" for line in [b"00000001 00000000 00000010 00000002"] + [b"20000100 00000000 00000010 00000002"] * 20_000)
        path = self.write("long.hex", text)
        status = shell('{ "$@"; echo $? >&3; } 3>&2 | head -1 >/dev/null', path)[2]
        self.assertTrue(status.endswith("2\n"), status)

    def test_no_room_for_temporary_files(self):
        self.assertEqual(command("verdict", self.cards()[1], env={**os.environ, "TMPDIR": "/nowhere"})[0], 1)


class Words(TestCase):
    def test_help_and_version(self):
        status, output, error = command("verdict", "--help")
        self.assertEqual((status, error), (0, ""))
        self.assertIn(b"Exit status: 0 all accepted, 1 a refusal, 2 an error.", output)
        program()
        status, output, error = command("verdict", "--version")
        self.assertEqual((status, error), (0, ""))
        self.assertRegex(output.decode(), r"\Averdict of Hiedukson\ncommit .+\ntoolchain .+\nprogram sha256 [0-9a-f]{64}\n\Z")

    def test_unknown_option(self):
        status, output, error = command("verdict", "-x", self.cards()[1])
        self.assertEqual((status, output), (2, b""))
        self.assertEqual(error, "verdict: option -x not recognized (see verdict --help)\n")


class Speed(TestCase):
    def test_many_requests_as_text(self):
        """200,000 requests, the last refused: under a second of the processor's time."""
        first = "00000001 00000000 00000010 00000008  # allocate\n"
        load = "20000100 00000000 00000010 00000004  # a load\n"
        store = "30000100 00000000 00000010 00000001 80000007\n"
        path = self.write("long.hex", first + (load + store) * (REQUESTS // 2 - 1) + "20000000 00000000 00000010 00000004\n")
        before = resource.getrusage(resource.RUSAGE_CHILDREN)
        status, output, error = command("verdict", path)
        after = resource.getrusage(resource.RUSAGE_CHILDREN)
        took = after.ru_utime + after.ru_stime - before.ru_utime - before.ru_stime
        self.assertEqual(status, 1)
        self.assertIn(f"long.hex:{REQUESTS}: request {REQUESTS - 1}, load 4 bytes at 0x10 without provenance: refused, 7", error)
        self.assertEqual(output.count(b"\n"), REQUESTS + 3)
        self.assertLess(took, 1)


if __name__ == "__main__":
    unittest.main()
