#!/usr/bin/env python3
"""docs/CARDS.md: every card in it is run, and what the document shows is what the commands print.

A block 'card NAME' is a card. The blocks behind it belong to it: 'verdict' is what bin/verdict prints, where a line '..' stands
for any lines; 'refusal' is what it says on standard error; 'names NAME' is what bin/card makes of an earlier card's words.
"""

import os
import re
import unittest

from support import ROOT, TestCase, command

DOCUMENT = os.path.join(ROOT, "docs", "CARDS.md")
BLOCK = re.compile(r"^```(\w+)(?: (\S+))?\n(.*?)^```$", re.MULTILINE | re.DOTALL)
WIDEST = 100


def document():
    with open(DOCUMENT, encoding="utf-8") as file:
        return file.read()


def matches(shown, printed):
    """Whether the lines that are shown are those that are printed; '..' stands for any."""
    parts = [re.escape(line) + r"\n" if line != ".." else r"(?:.*\n)*" for line in shown.splitlines()]
    return re.fullmatch("".join(parts), printed) is not None


class Document(TestCase):
    def test_cards(self):
        blocks = BLOCK.findall(document())
        judged = None
        seen = {"verdict": 0, "refusal": 0, "names": 0, "card": 0}
        for kind, name, text in blocks:
            if kind not in seen:
                continue
            seen[kind] += 1
            if kind == "card":
                self.write(name, text)
                judged = command("verdict", name, cwd=self.folder)
            elif kind == "verdict":
                self.assertTrue(matches(text, judged[1].decode()), f"{text}\nis not\n{judged[1].decode()}")
            elif kind == "refusal":
                self.assertEqual(judged[2], text)
                self.assertNotEqual(judged[0], 0)
            else:
                words = command("card", name, cwd=self.folder)[1]
                self.assertEqual(command("card", data=words)[1].decode(), text)
        self.assertGreaterEqual(seen["card"], 8)
        self.assertGreaterEqual(seen["verdict"], 7)
        self.assertGreaterEqual(seen["refusal"], 5)
        self.assertEqual(seen["names"], 1)

    def test_a_card_without_a_shown_refusal_is_accepted(self):
        blocks = [block for block in BLOCK.findall(document()) if block[0] in ("card", "refusal")]
        for at, (kind, name, text) in enumerate(blocks):
            if kind != "card":
                continue
            is_refused = at + 1 < len(blocks) and blocks[at + 1][0] == "refusal"
            status = command("verdict", self.write(name, text))[0]
            self.assertEqual(status == 0, not is_refused, name)

    def test_snippets_that_are_asked_for(self):
        for title in ("`Vec::push` with a two-phase borrow", "`split_at_mut`", "A protected argument", "`Cell`", "A linked list", "A `Box` that is given away", "Firmware with 16-bit pointers"):
            self.assertIn(f"\n### {title}", document())

    def test_every_word_of_the_notation_is_taught(self):
        from hiedukson.notation import statements

        for word in [*statements.STATEMENTS, *statements.GIVING]:
            self.assertRegex(document(), rf"[`= ]{re.escape(word)}[ `]", word)

    def test_width(self):
        in_code = False
        for number, line in enumerate(document().splitlines(), 1):
            if line.startswith("```"):
                in_code = not in_code
            if not in_code and not line.startswith("|"):
                self.assertLessEqual(len(line), WIDEST, f"line {number}")

    def test_matches(self):
        self.assertTrue(matches("..\nb\n", "a\nb\n"))
        self.assertFalse(matches("..\nb\n", "a\nb\nc\n"))
        self.assertFalse(matches("b\n", "a\nb\n"))


if __name__ == "__main__":
    unittest.main()
