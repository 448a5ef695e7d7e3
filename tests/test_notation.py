#!/usr/bin/env python3
"""The notation: what each line stands for, word by word, and what is said of a line that is wrong."""

import unittest

from support import TestCase

from hiedukson import card, notation
from hiedukson.errors import CardError

# Allocation 0 is x, 8 heap bytes with alignment 4 at 0x1000; its node 1 is r.
START = "x = heap 8 align 4 at 0x1000\nr = &mut x\n"
START_WORDS = "00000011 00000000 00001000 00000008 40000101 00000000 00001000 60000002 00000000 00000008"
TO_X = "00000000 00001000"


def words(text):
    run = notation.read(text.encode()).run
    return " ".join(run[at : at + 4].hex() for at in range(0, len(run), 4))


class Lines(TestCase):
    def test_start(self):
        self.assertEqual(words(START), START_WORDS)

    def gives(self, cases):
        for line, expected in cases:
            with self.subTest(line):
                self.assertEqual(words(START + line), f"{START_WORDS} {expected}")

    def test_allocations(self):
        self.gives(
            [
                ("a = stack 1 at 16", "00000000 00000000 00000010 00000001"),
                ("a = heap 0 at 0xffff_ffff_ffff_fffe", "00000001 ffffffff fffffffe 00000000"),
                ("a = global 4294967295 align 0x10 at 1_000", "00000022 00000000 000003e8 ffffffff"),
                ("a = function 1 align 536870912 at 0", "000000eb 00000000 00000000 00000001"),
                ("a = vtable 24 align 8 at 16", "0000001c 00000000 00000010 00000018"),
            ]
        )

    def test_places(self):
        self.gives(
            [
                ("load x 1", f"20000100 {TO_X} 00000001"),
                ("load r 1", f"20000300 {TO_X} 00000001"),
                ("load x+0x10 1", "20000100 00000000 00001010 00000001"),
                ("load x-1 1", "20000100 00000000 00000fff 00000001"),
                ("load x-4097 1", "20000100 ffffffff ffffffff 00000001"),
                ("load 0x10 1", "20000000 00000000 00000010 00000001"),
                ("load 127.4095@0x100000000 1", "2fffff00 00000001 00000000 00000001"),
            ]
        )

    def test_loads_and_tests(self):
        self.gives(
            [
                ("load x", f"20000100 {TO_X} 00000008"),
                ("load x+3", "20000100 00000000 00001003 00000005"),
                ("load x 4 align 4", f"20000110 {TO_X} 00000004"),
                ("deref x 3", f"70000100 {TO_X} 00000003"),
                ("deref x", f"70000100 {TO_X} 00000008"),
                ("deref-signed x 3", f"80000100 {TO_X} 00000003"),
                ("deref-signed x -1", f"80000100 {TO_X} ffffffff"),
                ("deref-signed x+1 -2147483648", "80000100 00000000 00001001 80000000"),
                ("leaks", "90000000 00000000 00000000 00000000"),
                ("empty 16", "f0000000 00000000 00000000 00000000"),
                ("empty 0x20", "f0000001 00000000 00000000 00000000"),
                ("empty 64", "f0000002 00000000 00000000 00000000"),
            ]
        )

    def test_stores(self):
        pointer = "c0000100 c8000110 d0000100 d8000100 e0000100 e8000100 f0000100 f8000100"
        self.gives(
            [
                ("store x 07", f"30000100 {TO_X} 00000001 80000007"),
                ("store x 07 FF __ align 2", f"30000108 {TO_X} 00000003 80000007 800000ff 00000000"),
                ("store x 0a*3 __*2", f"30000100 {TO_X} 00000005 8000000a 8000000a 8000000a 00000000 00000000"),
                ("store x nothing", f"30000100 {TO_X} 00000000"),
                ("store x ptr r", f"30000100 {TO_X} 00000008 {pointer}"),
                ("store x ptr 0x0102", f"30000100 {TO_X} 00000008 80000002 80000001 80000000 80000000 80000000 80000000 80000000 80000000"),
                ("store x 2a@r:3 2a@5.6:7", f"30000100 {TO_X} 00000002 d800012a f850062a"),
                ("ptr = raw r\nstore x ptr ptr", f"40000303 {TO_X} 00000000 30000100 {TO_X} 00000008 {pointer}"),
            ]
        )

    def test_references(self):
        self.gives(
            [
                ("a = & x", f"40000100 {TO_X} 60000002 00000000 00000008"),
                ("a = &x", f"40000100 {TO_X} 60000002 00000000 00000008"),
                ("a = &mut r+4", "40000301 00000000 00001004 60000002 00000000 00000004"),
                ("a = box x 3", f"40000102 {TO_X} 60000002 00000000 00000003"),
                ("a = raw x+1", "40000103 00000000 00001001 00000000"),
                ("a = fn-ptr x", f"40000104 {TO_X} 00000000"),
                ("a = vtable-ptr x", f"40000105 {TO_X} 00000000"),
                ("_ = & x", f"40000100 {TO_X} 60000002 00000000 00000008"),
                ("a = & 0x10 0", "40000000 00000000 00000010 60000002 00000000 00000000"),
            ]
        )

    def test_layouts(self):
        self.gives(
            [
                ("a = & x cells 0..4", f"40000100 {TO_X} 40000003 00000000 00400008 00000004"),
                ("a = & x 8 cells 0..1 4..8", f"40000100 {TO_X} 40000004 00000000 00800008 00000001 00040004"),
                ("a = & x slice 2 of 4", f"40000100 {TO_X} 60000002 40000002 40000004"),
                ("a = & x slice 2 of 4 cells 1..2", f"40000100 {TO_X} 40000003 40000002 40400004 00010001"),
                ("a = & x dyn 8", f"40000100 {TO_X} 60000002 80000000 80000008"),
                ("a = & x 4, slice 2 of 2", f"40000100 {TO_X} 60000003 40000002 c0000004 40000002"),
                ("a = & x 1, 2 cells 0..1, dyn 5", f"40000100 {TO_X} 40000005 80000000 c0000001 c0400002 00000001 80000005"),
                ("a = & x 4 with count 9", f"40000100 {TO_X} 60000002 40000009 00000004"),
                ("a = & x 4 with vtable", f"40000100 {TO_X} 60000002 80000000 00000004"),
            ]
        )

    def test_options(self):
        self.gives(
            [
                ("a = & x in 3", f"40000100 {TO_X} e1800002 00000000 00000008"),
                ("a = & x 1 in 31 pinned", f"40000100 {TO_X} af800002 00000000 00000001"),
                ("a = & x 1 no-freeze", f"40000100 {TO_X} 40000002 00000000 00000001"),
                ("a = & x 1 cells 0..1 freeze", f"40000100 {TO_X} 60000003 00000000 00400001 00000001"),
                ("a = &mut x pinned", f"40000101 {TO_X} 20000000"),
                ("a = &mut x 8 pinned in 0", f"40000101 {TO_X} a0000002 00000000 00000008"),
            ]
        )

    def test_calls_and_the_rest(self):
        self.gives(
            [
                ("call 0", "50000000 00000000 00000000 00000000"),
                ("end 31", "60000000 00000000 00000000 0000001f"),
                ("call 32", "50000000 00000000 00000000 00000020"),
                ("free x", f"10000111 {TO_X} 00000008"),
                ("free r", f"10000311 {TO_X} 00000008"),
                ("free x stack 4 align 1", f"10000100 {TO_X} 00000004"),
                ("free 0x10 heap 1", "10000001 00000000 00000010 00000001"),
                ("raw 50000000 00000000 00000000 00000000", "50000000 00000000 00000000 00000000"),
                ("raw 20000100 00000000", "20000100 00000000"),
            ]
        )

    def test_numbers_of_names(self):
        """A pinned or raw pointer adds no node, a reference does; each allocation counts its own."""
        text = START + "a = raw r\nb = &mut x pinned\nc = & r\ny = stack 1 at 16\nd = & y\ne = & c\n"
        [(first, names)] = notation.read(text.encode()).stretches
        expected = {(0, 0): ["x", "b"], (0, 1): ["r", "a"], (0, 2): ["c"], (1, 0): ["y"], (1, 1): ["d"], (0, 3): ["e"]}
        self.assertEqual((first, names), (0, expected))

    def test_names_behind_an_emptying(self):
        """Numbers start at 0 again, names may be given again, and those of before are held apart."""
        text = START + "raw f0000001 00000000 00000000 00000000\ny = stack 1 at 16\nr = & y\nempty 64\nempty 16\nx = heap 2 at 32\nload x 1\n"
        self.assertTrue(words(text).endswith("00000001 00000000 00000020 00000002 20000100 00000000 00000020 00000001"))
        expected = [(0, {(0, 0): ["x"], (0, 1): ["r"]}), (3, {(0, 0): ["y"], (0, 1): ["r"]}), (6, {}), (7, {(0, 0): ["x"]})]
        self.assertEqual(notation.read(text.encode()).stretches, expected)

    def test_names_that_are_written_behind_an_emptying(self):
        lines = ["a0 = heap 2 at 0x10", "a0.1 = & a0 2", "empty 16", "a0 = stack 1 at 0x20", "load 0.1@0x10 1", "a0.1 = & a0 1"]
        run = notation.read("".join(f"{line}\n" for line in lines).encode()).run
        self.assertEqual(notation.write(run), lines)

    def narrow(self, width, cases):
        """What lines behind an emptying give, with y as 8 heap bytes at 0x1000 and s as its node 1."""
        start = f"empty {width}\ny = heap 8 align 4 at 0x1000\ns = &mut y\n"
        for line, expected in cases:
            with self.subTest(f"{width}: {line}"):
                self.assertEqual(words(start + line), f"{words(start)} {expected}")
                written = notation.write(notation.read((start + line).encode()).run)[3]
                self.assertEqual(written, line.replace("y", "a0").replace("s", "a0.1").replace("a0.1tore", "store"))

    def test_narrow_pointers(self):
        """Offsets wrap at the width, and a pointer has as many bytes as the width."""
        self.narrow(
            16,
            [
                ("load y-4097 1", "20000100 00000000 0000ffff 00000001"),
                ("load y-32768 1", "20000100 00000000 00009000 00000001"),
                ("load y+32767 1", "20000100 00000000 00008fff 00000001"),
                ("load 0.0@0x10000 1", "20000100 00000000 00010000 00000001"),
                ("load 0x10000 1", "20000000 00000000 00010000 00000001"),
                ("store y ptr s+4", f"30000100 {TO_X} 00000002 c0000104 c8000110"),
                ("store y ptr s ptr y", f"30000100 {TO_X} 00000004 c0000100 c8000110 c0000000 c8000010"),
                ("store y 2a@s:1 2a@s:7", f"30000100 {TO_X} 00000002 c800012a f800012a"),
            ],
        )
        self.narrow(
            32,
            [
                ("load y-4097 1", "20000100 00000000 ffffffff 00000001"),
                ("load 0.0@0x100000000 1", "20000100 00000001 00000000 00000001"),
                ("store y ptr s", f"30000100 {TO_X} 00000004 c0000100 c8000110 d0000100 d8000100"),
            ],
        )
        self.narrow(64, [("load y+0xfffff000 1", "20000100 00000001 00000000 00000001")])

    def test_an_allocation_too_high_for_the_width(self):
        """It is written as it is, for the verdict to refuse; what goes through it has its words too."""
        text = "empty 16\nx = heap 4 at 0x12340\nload x 1\nload x+1 1\n"
        high = "f0000000 00000000 00000000 00000000 00000001 00000000 00012340 00000004 20000100 00000000 00012340 00000001"
        self.assertEqual(words(text), high + " 20000100 00000000 00002341 00000001")
        run = notation.read(text.encode()).run
        self.assertEqual(notation.write(run), ["empty 16", "a0 = heap 4 at 0x12340", "load a0 1", "load a0+1 1"])

    def test_many_equal_bytes(self):
        line = "store x " + " ".join(["00*65536", "00*65536", "00 00 00 00", "ff*5"])
        run = notation.read((START + line).encode()).run
        self.assertEqual(notation.write(run)[2], "store a0 00*65536 00*65536 00 00 00 00 ff*5")

    def test_raw_words_count(self):
        """What raw words make has its number too."""
        self.assertTrue(words("raw 00000001 00000000 00000010 00000001\ny = heap 1 at 32\nload y 1").endswith("20200100 00000000 00000020 00000001"))

    def test_comments_and_blank_lines(self):
        text = "# first\n\nx = heap 1 at 16   # an allocation\n   \t\nload x 1#load\r\n# last"
        source = notation.read(text.encode())
        self.assertEqual([line.comment for line in source.lines], ["# first", "", "# an allocation", "", "#load", "# last"])
        self.assertEqual(source.request_lines, [3, 5])


class Errors(TestCase):
    def fails(self, cases):
        for line, expected in cases:
            with self.subTest(line):
                with self.assertRaises(CardError) as raised:
                    notation.read((START + line).encode())
                self.assertEqual(raised.exception.of(""), f":{2 + 1 + line.count(chr(10))}{expected}")

    def test_statements(self):
        self.fails(
            [
                ("lod x", ":1: expected 'NAME =' or one of load, store, free, call, end, deref, deref-signed, leaks, empty, raw, found lod"),
                ("a = hep 4 at 16", ":5: expected one of stack, heap, global, function, vtable, vtable-ptr, fn-ptr, &mut, box, raw, &, found hep"),
                ("x = heap 1 at 16", ":1: x is named already, on line 1"),
                ("heap = heap 1 at 16", ":1: heap is a word of the notation, and no name"),
                ("load x 1 2", ":10: expected the end of the line, found 2"),
                ("leaks x", ":7: expected the end of the line, found x"),
                ("load", ":5: expected a place: a name, or an address, found the end of the line"),
                ("load y 1", ":6: nothing is named y yet"),
                ("é = & y", ":7: nothing is named y yet"),
                ("loadx 1", ":1: expected 'NAME =' or one of load, store, free, call, end, deref, deref-signed, leaks, empty, raw, found loadx"),
            ]
        )

    def test_emptyings(self):
        self.fails(
            [
                ("empty 24", ":7: a width is 16, 32 or 64, and 24 is none"),
                ("empty 0", ":7: a width is 16, 32 or 64, and 0 is none"),
                ("empty", ":6: expected a width, 16, 32 or 64, found the end of the line"),
                ("empty x", ":7: expected a width, 16, 32 or 64, found x"),
                ("empty 16 32", ":10: expected the end of the line, found 32"),
                ("empty = heap 1 at 16", ":1: empty is a word of the notation, and no name"),
                ("a = empty 16", ":5: expected one of stack, heap, global, function, vtable, vtable-ptr, fn-ptr, &mut, box, raw, &, found empty"),
                ("empty 64\nload x 1", ":6: x is gone: the memory was emptied on line 3"),
                ("empty 64\nempty 64\na = & r", ":7: r is gone: the memory was emptied on line 3"),
                ("empty 64\nx = heap 1 at 16\nempty 64\nload x", ":6: x is gone: the memory was emptied on line 5"),
                ("empty 64\nstore 0x10 ptr x", ":16: x is gone: the memory was emptied on line 3"),
                ("empty 64\nstore 0x10 01@r:0", ":15: r is gone: the memory was emptied on line 3"),
                ("empty 64\nfree x", ":6: x is gone: the memory was emptied on line 3"),
                ("empty 64\nload y", ":6: nothing is named y yet"),
                ("empty 16\nstore 0x10 ptr 0x10000", ":16: a pointer of 16 bits is at most 0xffff, and this is 0x10000"),
                ("empty 32\nstore 0x10 ptr 0.0@0x100000000", ":16: a pointer of 32 bits is at most 0xffffffff, and this is 0x100000000"),
                ("empty 16\nstore 0x10 01@0.0:8", ":19: a position is at most 7, and this is 8"),
            ]
        )

    def test_numbers(self):
        self.fails(
            [
                ("a = heap 4 at 0x10000000000000000", ":15: an address is at most 18,446,744,073,709,551,615, and this is 0x10000000000000000"),
                ("a = heap 4294967296 at 16", ":10: a number of bytes is at most 4,294,967,295, and this is 4294967296"),
                ("a = heap 4 align 3 at 16", ":18: an alignment is a power of two, and 3 is none"),
                ("a = heap 4 align 0 at 16", ":18: an alignment is a power of two, and 0 is none"),
                ("a = heap 4 16", ":12: expected 'at ADDRESS', and before it 'align N' at most, found 16"),
                ("a = heap four at 16", ":10: expected a number of bytes, found four"),
                ("a = heap 0x at 16", ":10: expected a number of bytes, found 0x"),
                ("a = heap 1__ at 16", ":10: 1__ is no number"),
                ("load 0x10", ":10: expected a number of bytes, which is not known here, found the end of the line"),
                ("load x+9", ":9: expected a number of bytes, which is not known here, found the end of the line"),
                ("load 128.0@16 1", ":6: words end at 127.4095"),
                ("load 0.4096@16 1", ":6: words end at 127.4095"),
                ("load 0.1 1", ":10: expected '@' and an address, found 1"),
                ("deref-signed x 2147483648", ":16: a signed length is at most 2,147,483,647, and this is 2147483648"),
            ]
        )

    def test_references(self):
        self.fails(
            [
                ("a = & x in 32", ":12: a frame is at most 31, and this is 32"),
                ("a = & x in 1 in 2", ":14: expected a layout, 'in FRAME', 'pinned', 'freeze', 'no-freeze' or the end of the line, found in"),
                ("a = & x slice 2", ":16: expected 'of' and the size of an element, found the end of the line"),
                ("a = & x slice 2 of 1, 4", ":23: a slice comes last in a tuple"),
                ("a = & x 4,", ":11: expected the tuple's tail: SIZE, 'slice COUNT of SIZE' or 'dyn SIZE', found the end of the line"),
                ("a = & x cells 4..2", ":18: a cell at 4 ends between 4 and 65539, and this at 2"),
                ("a = & x cells 4", ":16: expected '..' and the end of the cell, found the end of the line"),
                ("a = & x 4194304", ":9: a size in a layout is at most 4,194,303, and this is 4194304"),
                ("a = & x 4 with nothing", ":16: expected 'vtable' or 'count N', found nothing"),
                ("a = & 9.0@16 1", ":1: there is no pointer to name, as what this goes through was never made; write _ ="),
                ("free 0x10", ":10: expected kind and size of the allocation, which are not known here, found the end of the line"),
            ]
        )

    def test_bytes(self):
        self.fails(
            [
                ("store x", ":8: expected bytes of two hexadecimal digits, '__', 'ptr PLACE' or 'nothing', found the end of the line"),
                ("store x 7", ":9: expected bytes of two hexadecimal digits, '__', 'ptr PLACE' or 'nothing', found 7"),
                ("store x 07 008", ":12: expected the end of the line, found 008"),
                ("store x 07*0", ":12: a byte is repeated once or more"),
                ("store x 07*65537", ":12: how often the byte stands there is at most 65,536, and this is 65537"),
                ("store x 07@x:8", ":14: a position is at most 7, and this is 8"),
                ("store x ptr y", ":13: nothing is named y yet"),
            ]
        )

    def test_raw(self):
        self.fails(
            [
                ("raw", ":4: expected words of eight hexadecimal digits, found the end of the line"),
                ("raw 1234567", ":5: expected words of eight hexadecimal digits, found 1234567"),
                ("raw 00 00000000", ":8: expected words of eight hexadecimal digits, found 00000000"),
                ("raw 90000000 00000000 00000000 00000000 90000000", ":5: these are the words of 2 requests, and a line has one"),
                ("raw 90000000\nleaks", ":1: the run ends inside the request before, so nothing may follow it"),
            ]
        )

    def test_bad_text(self):
        with self.assertRaises(CardError) as raised:
            notation.read(b"# fine\nload \xff")
        self.assertEqual(raised.exception.of("a"), "a:2:6: this is no UTF-8 text")


class Forms(TestCase):
    def test_which_form(self):
        cases = [
            (b"", card.WORDS),
            (b"# only a comment", card.WORDS),
            (b"00000001", card.WORDS),
            (b"\n# a = b\n  deadbeef 00000000", card.WORDS),
            (b"deadbeef = heap 1 at 16", card.NAMES),
            (b"a = heap 1 at 16", card.NAMES),
            (b"# 00000001\nleaks", card.NAMES),
            (b"end 0", card.NAMES),
            (b"raw 00000000", card.NAMES),
            (b"0000000g", card.WORDS),
            (b"\xef\xbb\xbf00000001", card.WORDS),
            (b"\xef\xbb\xbfleaks", card.NAMES),
            (b"leaks\0", card.BYTES),
        ]
        for data, form in cases:
            with self.subTest(data):
                self.assertEqual(card.form_of(data), form)


if __name__ == "__main__":
    unittest.main()
