#!/usr/bin/env python3
"""bin/install: what is installed works without the repository; every command has a page, and the pages say what the commands do."""

import os
import re
import shutil
import subprocess
import unittest

from support import BIN, REFUSED, REFUSED_OUTPUT, ROOT, TestCase, command, run

from hiedukson.notation import statements

MAN = os.path.join(ROOT, "man")
COMMANDS = sorted(name for name in os.listdir(BIN) if name not in ("lib", "install"))


def page(name):
    with open(os.path.join(MAN, f"{name}.1"), encoding="utf-8") as file:
        return file.read().replace("\\-", "-")


class Install(TestCase):
    def setUp(self):
        super().setUp()
        self.prefix = self.path("usr")

    def install(self):
        status, output, error = command("install", "--no-library", self.prefix)
        self.assertEqual((status, output), (0, b""), error)

    def test_works_without_the_repository(self):
        """The installed command runs where it was moved to, with no rt and with a repository that it cannot find."""
        self.install()
        moved = self.path("elsewhere")
        os.rename(self.prefix, moved)
        env = {"PATH": os.path.join(self.folder, "tools")}
        os.mkdir(env["PATH"])
        os.symlink(os.path.realpath(shutil.which("python3")), os.path.join(env["PATH"], "python3"))
        card = self.write("a.hex", REFUSED)
        status, output, error = run([f"{moved}/bin/verdict", card], env=env)
        self.assertEqual((status, output), (1, REFUSED_OUTPUT), error)
        os.symlink(f"{moved}/bin/verdict", self.path("link"))
        self.assertEqual(run([self.path("link"), card], env=env)[:2], (1, REFUSED_OUTPUT))
        self.assertEqual(run([f"{moved}/bin/card", card], env=env)[0], 0)
        version = run([f"{moved}/bin/verdict", "--version"], env=env)
        self.assertEqual(version[1], command("verdict", "--version")[1])

    def test_all_is_there(self):
        self.install()
        self.assertEqual(sorted(os.listdir(f"{self.prefix}/bin")), COMMANDS)
        self.assertEqual(sorted(os.listdir(f"{self.prefix}/share/man/man1")), sorted(os.listdir(MAN)))
        self.assertTrue(os.path.exists(f"{self.prefix}/share/doc/hiedukson/CARDS.md"))
        leftovers = [name for _, folders, files in os.walk(self.prefix) for name in folders + files if re.search(r"\.(part|old|new)$|pycache", name)]
        self.assertEqual(leftovers, [])

    def test_again_replaces(self):
        self.install()
        stray = f"{self.prefix}/libexec/hiedukson/bin/lib/hiedukson/stray.py"
        with open(stray, "w", encoding="utf-8"):
            pass
        self.install()
        self.assertFalse(os.path.exists(stray))
        self.assertEqual(run([f"{self.prefix}/bin/verdict"], REFUSED)[0], 1)

    def test_bad_words(self):
        self.assertEqual(command("install")[0], 2)
        self.assertEqual(command("install", "a", "b")[0], 2)
        self.assertEqual(command("install", "--no-library", ROOT)[0], 2)
        self.assertFalse(os.path.islink(os.path.join(BIN, "verdict")))
        file = self.write("file", b"")
        status, _, error = command("install", "--no-library", file)
        self.assertEqual(status, 2)
        self.assertRegex(error, r"\Ainstall: .*file.*: (Not a directory|File exists)\n\Z")

    def test_not_from_an_installed_copy(self):
        self.install()
        shutil.copy(os.path.join(BIN, "install"), f"{self.prefix}/libexec/hiedukson/bin/install")
        status, _, error = run([f"{self.prefix}/libexec/hiedukson/bin/install", self.path("b")])
        self.assertEqual((status, error), (2, "install: this is an installed copy: install from the repository\n"))


class Pages(TestCase):
    def test_every_command_has_a_page(self):
        self.assertEqual(sorted(os.listdir(MAN)), [f"{name}.1" for name in COMMANDS])

    def test_every_option_is_on_its_page(self):
        for name in COMMANDS:
            usage = command(name, "--help")[1].decode()
            options = set(re.findall(r"(?<![\w-])--?[a-zA-Z][a-z-]*", usage))
            for option in options - {"-bHh"}:
                self.assertIn(option, page(name), f"{name} {option}")

    def test_every_word_of_the_notation_is_on_the_page(self):
        for word in [*statements.STATEMENTS, *statements.GIVING]:
            self.assertRegex(page("card"), rf"(^|[ ,]){re.escape(word)}([ ,]|$)".replace("^", r"(?m:^)").replace("$", r"(?m:$)"), word)

    @unittest.skipUnless(shutil.which("groff"), "there is no groff")
    def test_pages_are_well_formed(self):
        for name in COMMANDS:
            done = subprocess.run(["groff", "-man", "-ww", "-z", os.path.join(MAN, f"{name}.1")], stderr=subprocess.PIPE, check=False)
            self.assertEqual((done.returncode, done.stderr.decode()), (0, ""), name)


if __name__ == "__main__":
    unittest.main()
