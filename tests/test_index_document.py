#!/usr/bin/env python3
"""docs/CARDS.md: what it shows of bin/why and bin/cards is what they print.

A block 'why NAME' is what bin/why prints of an earlier 'card NAME'. The blocks 'index NAME' are the cards of an index, of
which 'table' is what bin/cards prints."""

import os
import re
import unittest

from support import ROOT, TestCase, command, read

from hiedukson import index, tables
from hiedukson.commands import cards, why

DOCUMENT = os.path.join(ROOT, "docs", "CARDS.md")
BLOCK = re.compile(r"^```(\w+)(?: (\S+))?\n(.*?)^```$", re.MULTILINE | re.DOTALL)


def blocks(*kinds):
    return [block for block in BLOCK.findall(read(DOCUMENT).decode()) if block[0] in kinds]


class Document(TestCase):
    def test_why(self):
        shown = 0
        for kind, name, text in blocks("card", "why"):
            if kind == "card":
                self.write(name, text)
            else:
                self.assertEqual(command("why", name, cwd=self.folder), (1, text.encode(), ""))
                shown += 1
        self.assertEqual(shown, 2)

    def test_index(self):
        for _, name, text in blocks("index"):
            self.write(name, text)
        [(_, _, table)] = blocks("table")
        self.assertEqual(command("cards", ".", cwd=self.folder), (1, table.encode(), ""))

    def test_options(self):
        """Every option of the two commands is in the document, and every way to sort, but the one that is usual."""
        text = read(DOCUMENT).decode()
        for option in set(why.LONG + cards.LONG) - {"help", "version", "binary", "by="}:
            self.assertIn(f"--{option.rstrip('=')}", text)
        for order in set(cards.ORDERS) - {tables.BY_CARD}:
            self.assertIn(f"`--by {order}`", text)
        for suffix in index.SUFFIXES:
            self.assertIn(f"`{suffix}`", text)


if __name__ == "__main__":
    unittest.main()
