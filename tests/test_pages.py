#!/usr/bin/env python3
"""bin/cards --html: pages that are whole HTML, link to each other, escape what cards say, and are replaced whole."""

import html.parser
import os
import shutil
import sys
import unittest
from urllib.parse import unquote

from support import BIN, EXAMPLES, TestCase, command, read, run

from hiedukson import folders
from hiedukson.errors import CardError

VOID = {"meta", "link", "input", "br", "hr"}
HOSTILE = '</pre><script>alert("1")</script>&amp;'
REFUSED = "b = heap 2 at 0x10\nx = &mut b\nstore x 07\nload b 1\nstore x 08\n"


class Page(html.parser.HTMLParser):
    """The tags of a page, which must be balanced, its links, ids and text."""

    def __init__(self, text):
        super().__init__()
        self.open = []
        self.tags = []
        self.links = []
        self.ids = []
        self.text = []
        self.feed(text)
        self.close()
        assert not self.open, self.open

    def handle_starttag(self, tag, attributes):
        self.tags.append(tag)
        if tag not in VOID:
            self.open.append(tag)
        values = dict(attributes)
        self.links += [values[key] for key in ("href", "src") if key in values]
        self.ids += [values["id"]] if "id" in values else []

    def handle_startendtag(self, tag, attributes):
        self.tags.append(tag)

    def handle_endtag(self, tag):
        assert self.open.pop() == tag, (tag, self.open)

    def handle_data(self, data):
        self.text.append(data)


class PagesCase(TestCase):
    def pages(self, *arguments, **options):
        return command("cards", "--html", self.path("out"), *arguments, **options)

    def page(self, name):
        return Page(read(self.path(f"out/{name}")).decode())

    def all_pages(self):
        for folder, _, files in os.walk(self.path("out")):
            for name in files:
                if name.endswith(".html"):
                    yield os.path.join(folder, name)

    def check_links(self, path, page):
        self.assertEqual(len(page.ids), len(set(page.ids)))
        for link in page.links:
            target, _, fragment = link.partition("#")
            self.assertNotIn(":", target)
            if target:
                self.assertTrue(os.path.isfile(os.path.join(os.path.dirname(path), unquote(target, errors="surrogateescape"))), link)
            else:
                self.assertIn(fragment, page.ids)


class Pages(PagesCase):
    def test_examples(self):
        """Every card has a page, all are whole, and every link leads somewhere."""
        status, output, error = self.pages(EXAMPLES)
        self.assertEqual((status, error), (0, ""))
        count = int(output.split(b"\n")[-2].split()[0])
        pages = list(self.all_pages())
        self.assertEqual(len(pages), count + 1)
        for path in pages:
            with self.subTest(path=path):
                self.check_links(path, Page(read(path).decode()))
        self.assertEqual(self.page("index.html").tags.count("tr"), count + 1)

    def test_what_a_card_shows(self):
        self.write("a.card", "# title: Frozen by a read\n# library: core\n# version: 1.2\n# verdict: 17 at 4\n" + REFUSED)
        status, _, error = self.pages(self.folder)
        self.assertEqual((status, error), (1, ""))
        text = "".join(self.page("cards/a.card.html").text)
        for said in (
            "Frozen by a read",
            "core 1.2",
            "18 at 4",
            "local write of Frozen",
            "filed as 17 at 4",
            "x: bytes 0x10..0x11 Unique -> Frozen",
            "x at byte 0x10: Frozen",
            "became Frozen",
            "last written, local to x",
            "A write needs every reference",
            "Do that read before the first write through x",
            "store x 08",
        ):
            self.assertIn(said, text)
        self.assertIn("filed as 17 at 4", "".join(self.page("index.html").text))

    def test_hostile_cards(self):
        """What a card says, and what it is called, is text in the pages and nothing else."""
        self.write("a.card", f"# title: {HOSTILE}\n# library: {HOSTILE}\n{REFUSED}# {HOSTILE}\n")
        self.write("b <i>&%20#?\".card", REFUSED)
        self.write(os.fsdecode(b"\xff.card"), REFUSED)
        status, _, error = self.pages(self.folder)
        self.assertEqual((status, error), (1, ""))
        pages = list(self.all_pages())
        self.assertEqual(len(pages), 4)
        for path in pages:
            page = Page(read(path).decode())
            self.check_links(path, page)
            self.assertNotIn("i", page.tags)
            self.assertEqual(page.tags.count("script"), os.path.basename(path) == "index.html")
        self.assertIn(HOSTILE, self.page("cards/a.card.html").text)

    def test_forms_and_errors(self):
        """Bytes, an empty card and one that cannot be read have pages too."""
        self.write("a.bin", bytes.fromhex("00000001 00000000 00000010 00000002 2000"))
        self.write("b.hex", "# verdict: accepted\n")
        self.write("c.hex", "0000")
        status, _, error = self.pages(self.folder)
        self.assertEqual(status, 2)
        self.assertIn("c.hex:1:1: ", error)
        self.assertIn("the run ends inside it", "".join(self.page("cards/a.bin.html").text))
        self.assertIn("The card has none.", self.page("cards/b.hex.html").text)
        self.assertIn("not judged", self.page("cards/c.hex.html").text)
        for path in self.all_pages():
            self.assertNotIn(self.folder.encode(), read(path))

    def test_same_cards_same_pages(self):
        self.pages(os.path.join(EXAMPLES, "refusals"))
        before = {path: read(path) for path in self.all_pages()}
        self.pages(os.path.join(EXAMPLES, "refusals"))
        self.assertEqual({path: read(path) for path in self.all_pages()}, before)

    def without_graphviz(self, path):
        """The command where no `dot` is found."""
        tools = self.path("tools")
        os.mkdir(tools)
        os.symlink(sys.executable, os.path.join(tools, "python3"))
        return run([os.path.join(BIN, "cards"), "--html", self.path("out"), path], env={"PATH": tools})

    def test_trees_as_text(self):
        path = self.write("a.card", "# verdict: 18 at 4\n" + REFUSED)
        self.assertEqual(self.without_graphviz(path)[::2], (0, ""))
        page = self.page("cards/a.card.html")
        self.assertNotIn("svg", page.tags)
        self.assertIn("  └─ x  0x10..0x11 Frozen, 0x11..0x12 Reserved  <- refused here", "".join(page.text))

    def test_narrow_pointers(self):
        """What an emptying drops has its name of before, what is made behind it the new one; the width stands above the trees."""
        old = "r = heap 1 at 0x10\nq = &mut r\ncall 5\n"
        narrow = self.write("a.card", f"# verdict: 18 at 8\n{old}empty 16\n{REFUSED}")
        self.assertEqual(self.without_graphviz(narrow)[::2], (0, ""))
        text = "".join(self.page("cards/a.card.html").text)
        told = ["empty 16", "pointers have 16 bits: addresses end at 0xffff", "r: dropped, live heap, 1 byte at 0x10", "frame 5: closed", "x at byte 0x10: Frozen"]
        for said in told:
            self.assertIn(said, text)
        self.assertEqual(text.count("pointers have 16 bits"), 2)
        self.assertIn("  └─ x  0x10..0x11 Frozen, 0x11..0x12 Reserved  <- refused here", text)
        os.remove(narrow)
        shutil.rmtree(self.path("tools"))
        wide = self.write("a.card", f"# verdict: 18 at 8\n{old}empty 64\n{REFUSED}")
        self.assertEqual(self.without_graphviz(wide)[::2], (0, ""))
        self.assertEqual("".join(self.page("cards/a.card.html").text).count("pointers have 64 bits"), 1)

    @unittest.skipUnless(shutil.which("dot"), "Graphviz is not there")
    def test_trees_drawn(self):
        path = self.write("a.card", "c = stack 1 at 0x20\n" + REFUSED)
        self.pages(path)
        self.assertEqual(self.page("cards/a.card.html").tags.count("svg"), 2)

    def test_long_cards(self):
        """Of a long card the requests that changed a permission are shown, the refused one, and those that explain it."""
        lines = ["b = heap 2 at 0x10", "x = &mut b"] + ["load b 2"] * 5000 + ["store x 01", "store x 02"] + ["load b 1"] * 3 + ["store x 03", "leaks", "leaks"]
        path = self.write("a.card", "".join(f"{line}  # {line * 2}\n" for line in lines))
        self.pages(path)
        page = self.page("cards/a.card.html")
        self.check_links(self.path("out/cards/a.card.html"), page)
        shown = [each for each in page.ids if each.startswith("r")]
        self.assertEqual(shown, ["r0", "r1", "r5002", "r5003", "r5004", "r5006", "r5007"])
        gaps = [text for text in page.text if " not " in text and text.split()[1].startswith("request")]
        self.assertEqual(gaps, ["5,000 requests not shown", "1 request not shown", "2 requests behind it were not performed"])
        self.assertLess(os.stat(self.path("out/cards/a.card.html")).st_size, 20_000)

    def test_large_trees_are_text(self):
        path = self.write("a.card", "b = heap 1 at 0x10\n" + "".join(f"x{number} = & b\n" for number in range(200)))
        self.pages(path)
        self.assertNotIn("svg", self.page("cards/a.card.html").tags)


class Installed(PagesCase):
    def test_without_the_repository(self):
        """An installed copy has all that it writes."""
        prefix = self.path("prefix")
        self.assertEqual(command("install", "--no-library", prefix)[0], 0)
        path = self.write("a.card", "# verdict: 18 at 4\n" + REFUSED)
        self.assertEqual(run([f"{prefix}/bin/cards", "--html", self.path("out"), path])[::2], (0, ""))
        self.check_links(self.path("out/index.html"), self.page("index.html"))
        self.check_links(self.path("out/cards/a.card.html"), self.page("cards/a.card.html"))
        self.assertEqual(run([f"{prefix}/bin/why", path])[1], command("why", path)[1])


class Replaced(PagesCase):
    def test_an_older_index_goes_whole(self):
        self.write("a.card", REFUSED)
        self.write("b.card", REFUSED)
        self.pages(self.path("a.card"), self.path("b.card"))
        self.pages(self.path("b.card"))
        self.assertEqual(sorted(os.listdir(self.path("out/cards"))), ["b.card.html"])
        self.assertEqual(sorted(os.listdir(self.folder)), ["a.card", "b.card", "out"])

    def test_an_empty_folder_is_taken(self):
        os.mkdir(self.path("out"))
        self.write("a.card", REFUSED)
        self.assertEqual(self.pages(self.path("a.card"))[0], 1)
        self.assertTrue(os.path.exists(self.path("out/index.html")))

    def test_other_folders_stay(self):
        """A folder with other files, a file, a link: nothing is judged, printed or written."""
        self.write("a.card", REFUSED)
        os.mkdir(self.path("out"))
        self.write("out/index.html", "<html>mine</html>")
        before = "the folder has other files in it, and is left as it is"
        self.check_refused(before)
        self.assertEqual(os.listdir(self.path("out")), ["index.html"])
        shutil.rmtree(self.path("out"))
        self.write("out", "mine")
        self.check_refused("not a folder")
        os.unlink(self.path("out"))
        os.symlink(self.folder, self.path("out"))
        self.check_refused("not a folder")

    def check_refused(self, message):
        expected = (2, b"", f"cards: {self.path('out')}: {message}\n")
        self.assertEqual(self.pages(self.path("a.card")), expected)

    def test_no_place_to_write(self):
        path = self.write("a.card", REFUSED)
        status, output, error = command("cards", "--html", self.path("none/out"), path)
        self.assertEqual((status, output), (2, b""))
        self.assertEqual(error, f"cards: {self.path('none/out')}: No such file or directory\n")

    def test_a_failure_leaves_the_old_one(self):
        """A file that cannot be written in the middle: the old folder stands, and nothing lies beside it."""
        os.mkdir(self.path("out"))
        self.write("out/old", "old")
        files = {"new": b"new", "x" * 300: b"too long a name"}
        with self.assertRaises(CardError):
            folders.replace(self.path("out"), files, lambda folder: True)
        self.assertEqual(os.listdir(self.folder), ["out"])
        self.assertEqual(read(self.path("out/old")), b"old")

    def test_mode(self):
        """Others may read the pages, as the mask allows."""
        path = self.write("a.card", REFUSED)
        old = os.umask(0o022)
        try:
            self.pages(path)
        finally:
            os.umask(old)
        self.assertEqual(os.stat(self.path("out")).st_mode & 0o777, 0o755)


if __name__ == "__main__":
    unittest.main()
