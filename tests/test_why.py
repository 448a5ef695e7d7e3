#!/usr/bin/env python3
"""bin/why: what it says of cards that are accepted, refused and damaged."""

import os
import shutil
import subprocess
import time
import unittest

import generate
from support import BIN, EXAMPLES, TestCase, command, program, read, run

from hiedukson import card, refusals, reports, rules, sources
from hiedukson import words as w

ALIASING = os.path.join(EXAMPLES, "aliasing-write.hex")
PERMISSIONS = {*range(17, 25), *range(26, 29)}
GENERATED = 20
FACTS = 600
# The refusals that the request and the memory tell more of.
TOLD = {*range(2, 7), *range(8, 16), 25}

NAMES = """\
# title: names
b = heap 2 at 0x10
x = &mut b
p = raw x
store x 07   # Unique
load b 1
store p 08
leaks
"""

SAID = """\
{name}: refused, 18 at 5: local write of Frozen

#0  line 2  b = heap 2 at 0x10
      b: new allocation, bytes 0x10..0x12 Unique
#1  line 3  x = &mut b
      x: new, below b, bytes 0x10..0x12 Reserved
#2  line 4  p = raw x
#3  line 5  store x 07
      x: bytes 0x10..0x11 Reserved -> Unique
#4  line 6  load b 1
      loads 07
      x: bytes 0x10..0x11 Unique -> Frozen
#5  line 7  store p 08
      refused, 18: local write of Frozen
1 request behind it was not performed

#5 is refused, 18: local write of Frozen
  met: x at byte 0x10: Frozen
    made Reserved             #1  x = &mut b
    became Unique             #3  store x 07
    became Frozen             #4  load b 1
    last read, foreign to x   #4  load b 1
    last written, local to x  #3  store x 07
  rule: A write needs every reference on its pointer's path to be Cell, Reserved or Unique at the
        byte. A shared reference is Frozen outside its cells; a mutable one that was written through
        becomes Frozen when a pointer that is not borrowed from it reads the byte.
  advice: Do that read before the first write through x, or read through x, or borrow it again after
          the read.

b: allocation 0, live heap, 2 bytes at 0x10, alignment 1
  b  0x10..0x12 Unique
  └─ x (also p)  0x10..0x11 Frozen, 0x11..0x12 Reserved  <- refused here
"""

AT_3 = """\
{name}: accepted

#0  line 2  b = heap 2 at 0x10
      b: new allocation, bytes 0x10..0x12 Unique
#1  line 3  x = &mut b
      x: new, below b, bytes 0x10..0x12 Reserved
#2  line 4  p = raw x
#3  line 5  store x 07
      x: bytes 0x10..0x11 Reserved -> Unique

b: allocation 0, live heap, 2 bytes at 0x10, alignment 1
  b  0x10..0x12 Unique
  └─ x (also p)  0x10..0x11 Unique, 0x11..0x12 Reserved
"""

# A memory is emptied while a call is open; what is then made has the numbers of what was dropped.
EMPTIED = """\
b = heap 2 at 0x10
x = &mut b
g = global 1 at 0x20
free b
call 3
call 0
empty 16                 # firmware
b = heap 6 align 2 at 0xfff8
y = &mut b 2
store y 07
store b+2 ptr b+4
load b 4
store y 08
"""

EMPTIED_SAID = """\
{name}: refused, 18 at 12: local write of Frozen

#0  line 1  b = heap 2 at 0x10
      b: new allocation, bytes 0x10..0x12 Unique
#1  line 2  x = &mut b
      x: new, below b, bytes 0x10..0x12 Reserved
#2  line 3  g = global 1 at 0x20
      g: new allocation, bytes 0x20..0x21 Unique
#3  line 4  free b
      b: live -> dead
      x: bytes 0x10..0x12 Reserved -> Disabled
#4  line 5  call 3
#5  line 6  call 0
#6  line 7  empty 16
      pointers have 16 bits: addresses end at 0xffff
      b: dropped, dead heap, 2 bytes at 0x10
      g: dropped, live global, 1 byte at 0x20
      frame 0: closed
      frame 3: closed
#7  line 8  b = heap 6 align 2 at 0xfff8
      b: new allocation, bytes 0xfff8..0xfffe Unique
#8  line 9  y = &mut b 2
      y: new, below b, bytes 0xfff8..0xfffe Reserved
#9  line 10  store y 07
      y: bytes 0xfff8..0xfff9 Reserved -> Unique
#10  line 11  store b+2 ptr b+4
      y: bytes 0xfffa..0xfffc Reserved -> Disabled
#11  line 12  load b 4
      loads 07 __ ptr b at 0xfffc
      y: bytes 0xfff8..0xfff9 Unique -> Frozen
#12  line 13  store y 08
      refused, 18: local write of Frozen

#12 is refused, 18: local write of Frozen
  met: y at byte 0xfff8: Frozen
    made Reserved             #8   y = &mut b 2
    became Unique             #9   store y 07
    became Frozen             #11  load b 4
    last read, foreign to y   #11  load b 4
    last written, local to y  #9   store y 07
  rule: A write needs every reference on its pointer's path to be Cell, Reserved or Unique at the
        byte. A shared reference is Frozen outside its cells; a mutable one that was written through
        becomes Frozen when a pointer that is not borrowed from it reads the byte.
  advice: Do that read before the first write through y, or read through y, or borrow it again after
          the read.

pointers have 16 bits: addresses end at 0xffff

b: allocation 0, live heap, 6 bytes at 0xfff8, alignment 2
  b  0xfff8..0xfffe Unique
  └─ y  0xfff8..0xfff9 Frozen, 0xfff9..0xfffa Reserved, 0xfffa..0xfffc Disabled, 0xfffc..0xfffe Reserved  <- refused here
"""

DOT = """\
digraph card {
  graph [fontname=monospace, fontsize=11];
  node [shape=box, fontname=monospace, fontsize=11];
  subgraph cluster_0 {
    label="b: allocation 0, live heap\\n2 bytes at 0x10, alignment 1";
    n0_0 [label="b\\n0x10..0x12 Unique"];
    n0_1 [label="x (also p)\\n0x10..0x11 Frozen\\n0x11..0x12 Reserved", class="met", color=red, penwidth=2];
    n0_0 -> n0_1;
  }
}
"""


class Said(TestCase):
    def why(self, *arguments, **options):
        status, output, error = command("why", *arguments, **options)
        return status, output.decode(), error

    def test_names(self):
        path = self.write("x.card", NAMES)
        self.assertEqual(self.why(path), (1, SAID.format(name=path), ""))

    def test_standard_input(self):
        self.assertEqual(self.why(data=NAMES.encode()), (1, SAID.format(name="standard input"), ""))
        self.assertEqual(self.why("-", data=NAMES.encode()), (1, SAID.format(name="standard input"), ""))

    def test_at(self):
        path = self.write("x.card", NAMES)
        self.assertEqual(self.why("--at", "3", path), (0, AT_3.format(name=path), ""))
        self.assertEqual(self.why("--at", "5", path), (1, SAID.format(name=path), ""))

    def test_dot(self):
        path = self.write("x.card", NAMES)
        self.assertEqual(self.why("--dot", path), (1, DOT, ""))

    @unittest.skipUnless(shutil.which("dot"), "Graphviz is not there")
    def test_graphviz_takes_it(self):
        """Names, protectors and several allocations, as Graphviz reads them."""
        for name in ("linked-list-moved-box.card", "released-reserved.hex", "refusals/25-leak.hex"):
            _, graph, _ = command("why", "--dot", os.path.join(EXAMPLES, name))
            status, picture, error = run(["dot", "-Tsvg"], graph)
            self.assertEqual((status, error), (0, ""), name)
            self.assertIn(b"<svg", picture)

    def test_emptied(self):
        """The width, what is dropped, and the names and numbers of before and behind."""
        path = self.write("x.card", EMPTIED)
        self.assertEqual(self.why(path), (1, EMPTIED_SAID.format(name=path), ""))

    def test_emptied_at(self):
        """The state that is shown has the width that was in force then; that of 64 bits is not said."""
        path = self.write("x.card", EMPTIED + "empty 64\n")
        width = "\n\npointers have 16 bits: addresses end at 0xffff\n\n"
        for at, is_narrow in ((5, False), (6, True), (8, True)):
            status, said, _ = self.why("--at", str(at), path)
            self.assertEqual((status, width in said), (0, is_narrow), at)
        self.assertTrue(self.why("--at", "6", path)[1].endswith(f"{width}no allocation was made since #6\n"))
        said = self.why(data=b"empty 16\nx = heap 1 at 0x10\nempty 64\ny = heap 1 at 0x20\n")[1]
        self.assertNotIn(width, said)
        self.assertIn("#2  line 3  empty 64\n      pointers have 64 bits: addresses end at 0xffffffffffffffff\n      x: dropped", said)

    def test_emptied_dot(self):
        path = self.write("x.card", EMPTIED)
        caption = '  label="pointers have 16 bits: addresses end at 0xffff"; labelloc=t;\n'
        self.assertIn(caption, self.why("--dot", path)[1])
        self.assertNotIn("labelloc", self.why("--dot", "--at", "5", path)[1])

    def test_emptied_words(self):
        """By numbers, which start again."""
        path = self.write("x.hex", card.to_words(card.read(EMPTIED.encode())))
        said = self.why(path)[1]
        self.assertIn("#6  line 7  empty, width 16\n      pointers have 16 bits: addresses end at 0xffff\n      0.0: dropped, dead", said)
        self.assertIn("  met: 0.1 at byte 0xfff8: Frozen\n    made Reserved               #8 ", said)

    def test_pointers_of_each_width(self):
        """A loaded pointer has as many bytes as the width; with fewer, or of another width, it is told byte by byte."""
        for width, others in ((16, "10@b:0 00@b:1 __"), (32, "10@b:0 00@b:1 00@b:2 00@b:3 __"), (64, None)):
            lines = f"empty {width}\nb = heap 9 at 0x10\nstore b ptr b\nload b {width // 8 + 1}\nload b {width // 8 - 1}\n"
            said = self.why(data=lines.encode())[1]
            self.assertIn("      loads ptr b at 0x10 __\n", said)
            self.assertIn("      loads 10@b:0", said)
            if others:
                self.assertNotIn(f"      loads {others}\n", said)

    def test_words_and_bytes(self):
        """A card as words or bytes says the same by numbers, and bytes have no lines."""
        status, words, _ = self.why(ALIASING)
        self.assertEqual(status, 1)
        self.assertIn("#4  line 9  store 1 byte at 0x10 through 0.1\n      refused, 18: local write of Frozen\n", words)
        self.assertIn("  met: 0.1 at byte 0x10: Frozen\n", words)
        path = self.write("x.bin", card.read(read(ALIASING)).run)
        status, said, _ = self.why(path)
        self.assertEqual(status, 1)
        self.assertIn("#4  store 1 byte at 0x10 through 0.1\n      refused", said)

    def test_accepted(self):
        status, said, error = self.why(os.path.join(EXAMPLES, "vec-push.card"))
        self.assertEqual((status, error), (0, ""))
        self.assertIn("vec-push.card: accepted\n", said)
        self.assertIn("      loads ptr buf at 0x2000\n", said)
        self.assertNotIn("rule:", said)

    def test_branches(self):
        """Children stand below their parent in the order in which they were made, each with all that is below it."""
        lines = "r = heap 1 at 0x10\na = & r\nb = & r\nc = & a\nd = & a\ne = & c\nf = & b\ncall 0\ng = box f in 0\nz = stack 0 at 0x20\n"
        _, said, _ = self.why(data=lines.encode())
        tree = (
            "r: allocation 0, live heap, 1 byte at 0x10, alignment 1\n"
            "  r  0x10..0x11 Unique\n"
            "  ├─ a  0x10..0x11 Frozen\n"
            "  │  ├─ c  0x10..0x11 Frozen\n"
            "  │  │  └─ e  0x10..0x11 Frozen\n"
            "  │  └─ d  0x10..0x11 Frozen\n"
            "  └─ b  0x10..0x11 Frozen\n"
            "     └─ f  0x10..0x11 Frozen\n"
            "        └─ g  [weak protector]  0x10..0x11 protected Reserved with local read\n"
            "\n"
            "z: allocation 1, live stack, 0 bytes at 0x20, alignment 1\n"
            "  z  no bytes\n"
        )
        self.assertTrue(said.endswith("\n\n" + tree), said)

    def test_a_deep_tree(self):
        """A chain of a thousand references is drawn."""
        lines = ["x0 = heap 1 at 0x10"] + [f"x{number} = & x{number - 1}" for number in range(1, 1000)]
        status, output, error = command("why", "--at", "999", data="\n".join(lines).encode())
        self.assertEqual((status, error), (0, ""))
        self.assertTrue(output.endswith(b"x999  0x10..0x11 Frozen\n"))

    def test_no_request(self):
        path = self.write("empty.hex", "# nothing\n")
        self.assertEqual(self.why(path), (0, f"{path}: accepted\n\nno allocation was made\n", ""))
        self.assertEqual(self.why("--dot", path)[0], 0)

    def test_loaded_bytes(self):
        """Uninitialised bytes, a byte of a pointer, and a whole pointer."""
        lines = "b = heap 16 at 0x10\nstore b+1 2a@b:3\nstore b+8 ptr b+4\nload b 16\n"
        _, said, _ = self.why(data=lines.encode())
        self.assertIn("      loads __ 2a@b:3 __ __ __ __ __ __ ptr b at 0x14\n", said)


class Refusals(TestCase):
    def test_every_refusal(self):
        """Each run in examples/refusals is explained, with a rule and an advice; 17 to 24 and 26 to 28 by what was met."""
        folder = os.path.join(EXAMPLES, "refusals")
        seen = set()
        for name in sorted(name for name in os.listdir(folder) if name.endswith(".hex")):
            number = int(name[:2])
            status, output, error = command("why", os.path.join(folder, name))
            said = output.decode()
            seen.add(number)
            self.assertEqual((status, error), (1, ""), name)
            self.assertIn(f"refused, {number}: {refusals.name(number)}\n", said)
            self.assertEqual(number in PERMISSIONS, "  met: " in said, name)
            self.assertEqual(number in PERMISSIONS, "<- refused here" in said, name)
            self.assertIn("  rule: ", said)
            self.assertIn("  advice: ", said)
            self.assertNotIn("{", said)
        self.assertEqual(seen, {*range(2, 16), *range(17, 29)})

    def test_every_refusal_has_a_rule(self):
        self.assertEqual(set(rules.RULES), set(refusals.NAMES))

    def test_facts(self):
        """What is said beside the rule."""
        cases = {
            "x = heap 2 at 0x10\ny = heap 2 at 0x11\n": "  it overlaps x: allocation 0, live heap, 2 bytes at 0x10, alignment 1\n",
            "x = heap 0 at 0x10\ny = heap 0 at 0x10\n": "  it overlaps x: allocation 0, live heap, 0 bytes at 0x10, alignment 1\n",
            "x = heap 2 at 0x11 align 2\n": None,
            "x = heap 2 align 2 at 0x11\n": "  0x11 is no multiple of 2\n",
            "x = heap 2 at 0\n": "  the address is 0\n",
            "x = heap 2 at 0xfffffffffffffffe\n": "  it would end at 0x10000000000000000, above 2^64 - 1\n",
            "empty 16\nx = heap 2 at 0xfffe\n": "  it would end at 0x10000, above 2^16 - 1\n  #0, empty 16, has dropped all allocations",
            "empty 32\nx = heap 2 at 0xffffffff\n": "  it would end at 0x100000001, above 2^32 - 1\n  #0, empty 32, has dropped all",
            "empty 16\nx = heap 1 at 0xffff\n": "  it would end at 0x10000, above 2^16 - 1\n",
            "empty 16\nx = heap 2 at 0xfff0\ny = heap 2 at 0xfff1\n": "  it overlaps x: allocation 0, live heap, 2 bytes at 0xfff0, alignment 1\n  rule:",
            "empty 16\nload 0x10000 1\n": "  address 0x10000, at most 0xffff may be at 16 bits\n  #0, empty 16, has dropped all allocations and closed all frames; pointers have 16 bits since\n",
            "empty 16\nempty 32\nx = raw 0x100000000\n": "  address 0x100000000, at most 0xffffffff may be at 32 bits\n  #1, empty 32, has",
            "empty 16\nx = heap 2 at 0x10\nstore x 00 2a@x:2\n": "  byte 1: position 2 in a pointer, which has positions 0 to 1 at 16 bits\n",
            "call 0\nempty 64\nend 0\n": "  frame 0 is not open\n  #1, empty 64, has dropped all allocations and closed all frames; pointers have 64 bits since\n",
            "x = heap 2 at 0x10\nempty 64\nload 0.0@0x10 1\n": "  allocation 0 is named, and 0 allocations made\n  #1, empty 64, has dropped all allocations",
            "x = heap 2 at 0x10\nfree x\nempty 64\nx = heap 2 at 0x10\nfree x\nload x 1\n": "  x is dead since #4, free x\n  rule:",
            "x = heap 2 at 0x10\nempty 64\nx = heap 3 at 0x10\nleaks\n": "  it was made at #2, x = heap 3 at 0x10\n  rule:",
            "raw f0000007 00000000 00000000 00000000\n": "  extra 7, outside its list 0 to 2\n  rule:",
            "x = heap 4 at 0x10\nload x+1 2 align 2\n": "  0x11 lies 1 above a multiple of 2\n",
            "x = heap 2 at 0x10\nfree x\nload x 1\n": "  x is dead since #1, free x\n",
            "x = heap 2 at 0x10\nload x+1 2\n": "  x: allocation 0, live heap, 2 bytes at 0x10, alignment 1\n",
            "x = heap 2 at 0x10\nleaks\n": "  the answer names x: allocation 0, live heap, 2 bytes at 0x10, alignment 1\n  it was made at #0, x = heap 2 at 0x10\n",
            "x = heap 1 at 0x10\ny = stack 1 at 0x20\nz = heap 1 at 0x30\nleaks\n": "  it was made at #0, x = heap 1 at 0x10\n  it has the lowest number of 2 heap allocations that are live\n",
            "x = heap 1 at 0x10\nz = heap 1 at 0x30\nfree x\nleaks\n": "  it was made at #1, z = heap 1 at 0x30\n  rule:",
            "x = heap 2 at 0x10\nraw 60000000 00000000 00000000 00000003\n": "#1  line 2  end call, frame 3\n",
            "load 0.0@0x10 1\n": "  allocation 0 is named, and 0 allocations made\n",
            "x = heap 2 at 0x10\nload 0.1@0x10 1\n": "  node 1 of x is named, and 1 node made\n",
            "end 3\n": "  frame 3 is not open\n",
            "x = heap 4096 at 0x10\ny = heap 1 at 0x2000\n": "  before the request the memory holds 1 of 128 allocations, 4,096 of 4,096 bytes,",
            "x = heap 2 at 0x10\ny = & x\nstore y 01\n": "  advice: y is a shared reference: it writes its cells alone.",
            "x = heap 2 at 0x10\ncall 0\ny = & x in 0\nstore y 01\n": "  advice: Take y as a mutable reference, or as a raw pointer,",
            "x = heap 2 at 0x10\ncall 0\ny = &mut x 1 in 0\nstore x+1 01\nload y+1 1\n": "  advice: Stay inside the bytes that y points to, or read",
            "x = heap 2 at 0x10\ncall 0\ny = box x 1 in 0\nstore x+1 01\nstore y+1 02\n": "  advice: Stay inside the bytes that y points to, or write",
        }
        for lines, fact in cases.items():
            status, output, error = command("why", data=lines.encode())
            if fact is None:
                self.assertEqual((status, output), (2, b""), lines)
            else:
                self.assertEqual((status, error), (1, ""), lines)
                self.assertIn(fact, output.decode())

    def test_a_full_frame(self):
        lines = ["b = heap 1 at 0x10", "call 3", "x = & b in 3", "end 3", "call 3"]
        lines += [f"x{number} = & b in 3" for number in range(65)]
        _, output, _ = command("why", data="\n".join(lines).encode())
        self.assertIn("#69 is refused, 15: size exceeded\n", output.decode())
        self.assertIn("  frame 3 holds 64 of 64 protected references\n", output.decode())

    def test_a_frame_that_an_emptying_closed(self):
        """Entries are counted since the frame was opened again."""
        lines = ["b = heap 1 at 0x10", "call 3", "x = & b in 3", "empty 16", "b = heap 1 at 0x10", "call 3"]
        lines += [f"x{number} = & b in 3" for number in range(65)]
        _, output, _ = command("why", data="\n".join(lines).encode())
        self.assertIn("#70 is refused, 15: size exceeded\n", output.decode())
        self.assertIn("  frame 3 holds 64 of 64 protected references\n", output.decode())

    def test_facts_of_generated_runs(self):
        """Where there is something to say beside the rule, it is said of every such refusal."""
        met = set()
        for seed in range(FACTS):
            report = reports.of_source(sources.of_card(card.read(generate.run(seed), is_binary=True)), program().run)
            explanation = report.explanation
            if explanation is not None:
                met.add(explanation.refusal)
                is_said = bool(explanation.facts) and all(explanation.facts)
                self.assertEqual(is_said, explanation.refusal in TOLD, f"seed {seed}: {explanation}")
        self.assertGreaterEqual(met, {2, 3, 4, 5, 6, 7, 8, 9, 12, 13, 15, 17, 18, 19, 22, 25})

    def test_generated_runs(self):
        """Every run is explained, damaged ones too, with the verdict of bin/verdict."""
        for seed in range(GENERATED):
            data = generate.run(seed)
            status, output, error = command("why", "-b", data=data)
            expected, _, _ = command("verdict", "-b", data=data)
            self.assertEqual((status, error), (expected, ""), f"seed {seed}")
            self.assertEqual(b" is refused, " in output, status == 1)


class Bad(TestCase):
    def check(self, message, *arguments, **options):
        """An error: status 2, this on standard error, nothing on standard output."""
        status, output, error = command("why", *arguments, **options)
        self.assertEqual((status, output), (2, b""))
        self.assertEqual(error, f"why: {message}\n")

    def test_files(self):
        self.check(f"{self.path('none')}: No such file or directory", self.path("none"))
        self.check(f"{self.folder}: Is a directory", self.folder)

    def test_damaged_text(self):
        path = self.write("x.hex", "00000001 00000000\n  0000001 00000002\n")
        self.check(f"{path}:2:3: a word has eight digits, and 0000001 has 7", path)
        path = self.write("x.card", "b = heap 2 at 0x10\nx = &mut c\n")
        self.check(f"{path}:2:10: nothing is named c yet", path)

    def test_at(self):
        path = self.write("x.card", NAMES)
        self.check(f"{path}: no request 6: the last one that was answered is 5", "--at", "6", path)
        self.check("--at -1: a request's number is expected (see why --help)", "--at=-1", path)
        self.check("--at x: a request's number is expected (see why --help)", "--at", "x", path)
        self.check("standard input: no request 0: the card has none", "--at", "0", data=b"")

    def test_usage(self):
        self.check("one card at a time (see why --help)", ALIASING, ALIASING)
        self.check("option --nothing not recognized (see why --help)", "--nothing", ALIASING)

    def test_standard_output(self):
        with open("/dev/full", "wb") as full:
            status, error = run_to(full, ALIASING)
        self.assertEqual((status, error), (2, "why: standard output: No space left on device\n"))

    def test_help(self):
        for option in ("-h", "--help"):
            status, output, error = command("why", option)
            self.assertEqual((status, error), (0, ""))
            self.assertTrue(output.startswith(b"why [-b]"))
        status, output, _ = command("why", "--version")
        self.assertEqual(status, 0)
        self.assertTrue(output.startswith(b"why of Hiedukson\n"))


def run_to(file, path):
    """bin/why with this standard output."""
    done = subprocess.run([os.path.join(BIN, "why"), path], stdout=file, stderr=subprocess.PIPE, check=False)
    return done.returncode, done.stderr.decode()


class Speed(TestCase):
    def test_thousand_requests(self):
        """A thousand requests, most of which change a permission: a second or two, and ten on a busy machine."""
        size = 64
        lines = [w.join(w.ALLOCATE, extra=1, address=4096, fourth=size)]
        fourth = w.settings_word(False, True, True, 0, 2)
        for number in range(999):
            if number % 20 == 0:
                lines.append(w.join(w.RETAG, (0, 0), extra=1, address=4096, fourth=fourth, following=(0, size)))
            else:
                lines.append(w.join(w.STORE, (0, 0), address=4096 + number * 7 % size, fourth=1, following=(1 << 31,)))
        data = b"".join(map(w.bytes_of, lines))
        start = time.monotonic()
        status, output, error = command("why", "-b", data=data)
        took = time.monotonic() - start
        self.assertEqual((status, error), (0, ""))
        self.assertGreater(output.count(b" -> "), 900)
        self.assertLess(took, 10)


if __name__ == "__main__":
    unittest.main()
