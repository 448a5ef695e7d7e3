#!/usr/bin/env python3
"""The program is found, and never used when it is stale: tried in small repositories with a stand-in for rt and the program."""

import os
import pty
import shutil
import subprocess
import sys
import time
import unittest

from support import BIN, TestCase, read, run

from hiedukson import progress

CRATES = "verdict: core io\nother: core\ntree_borrows staticlib: core\ncore:\n"
# The stand-in for rt counts its calls, says what the file 'says' has, and builds the program unless that is forbidden.
RT = """#!/bin/sh
crate="${PWD##*/}"
cd "$(dirname "$0")/.." || exit 9
[ "$1" = version ] && { echo kit-0; exit 0; }
mkdir -p "crates/$crate/out"
[ "$crate $*" = "tree_borrows lib" ] && { echo call >>calls; echo archive >crates/tree_borrows/out/libtree_borrows.a; exit 0; }
[ "$crate $*" = "verdict run" ] || exit 9
[ -z "$(cat)" ] || exit 8
echo call >>calls
cat says
sleep "$(cat pause)"
[ ! -e broken ] || exit 1
cp program crates/verdict/out/verdict
"""
PROGRAM = """#!/bin/sh
cat >/dev/null
printf '0 0 %s\\n' "$(cat {root}/crates/core/src/lib.rt)"
"""
# What rt says at the end of a crate's check.
CHECKED = "crate {}: modules loaded=2 checked=4\nlogic=proved functions=1\n"
# A card that any program may be given.
CARD = b"00000001 00000000 00000010 00000002\n"


class Estimate(TestCase):
    def meter(self, *lines):
        below = {"a": ["a"], "b": ["a", "b"], "c": ["a", "c"]}
        meter = progress.Meter({"a": 6_000, "b": 60_000, "c": 60_000}, lambda crate: below[crate], "log", print)
        for line in lines:
            meter.hear(line)
        return meter

    def checked(self, crate, modules):
        return f"crate {crate}: modules loaded=2 checked={modules}".encode(), b"axioms os: none reached", b"logic=proved functions=3"

    def test_before_anything_is_measured(self):
        self.assertEqual(self.meter().line(5), "proving: crate 1 of 3, 5 s so far, about 16 s more")
        self.assertEqual(self.meter(*self.checked("a", 4)).line(70), "proving: crate 2 of 3, 1 min 10 s so far, longer than expected")

    def test_as_fast_as_it_goes(self):
        meter = self.meter(*self.checked("a", 0), *self.checked("b", 4))
        self.assertEqual(meter.line(80), "proving: crate 3 of 3, 1 min 20 s so far, about 1 min 20 s more")

    def test_of_what_is_built_nothing_is_said(self):
        self.assertEqual(self.meter(*self.checked("b", 4)).line(80), "proving: crate 3 of 3, 1 min 20 s so far, about 1 min 20 s more")

    def test_other_lines_count_for_nothing(self):
        lines = b"fn a: proved", b"only=0 proved=0", b"logic=proved functions=3", b"crate b: modules loaded=2 checked=4", b"logic=not-proved"
        self.assertEqual(self.meter(*lines).done, set())


class Repository(TestCase):
    def setUp(self):
        super().setUp()
        self.root = self.path("repository")
        for folder in ("crates/core/src", "crates/verdict/src", "crates/other/src", "crates/tree_borrows", "crates/core/must-fail", "kit"):
            os.makedirs(os.path.join(self.root, folder))
        shutil.copytree(BIN, os.path.join(self.root, "bin"), ignore=shutil.ignore_patterns("__pycache__"))
        self.put("crates.txt", CRATES)
        self.put("crates/core/src/lib.rt", "one")
        self.put("crates/verdict/src/main.rt", "main")
        self.put("crates/other/src/lib.rt", "other")
        self.put("says", CHECKED.format("core") + CHECKED.format("verdict"))
        self.put("pause", "0")
        self.put("program", PROGRAM.format(root=self.root), 0o755)
        self.put("kit/rt", RT, 0o755)

    def put(self, name, text, mode=0o644):
        path = os.path.join(self.root, name)
        with open(path, "w", encoding="utf-8") as file:
            file.write(text)
        os.chmod(path, mode)

    def calls(self):
        """How often rt was asked to check."""
        path = os.path.join(self.root, "calls")
        if not os.path.exists(path):
            return 0
        with open(path, encoding="utf-8") as file:
            return len(file.readlines())

    def verdict(self, has_rt=True, data=CARD):
        return run([os.path.join(self.root, "bin/verdict")], data, env=self.env(has_rt))

    def env(self, has_rt=True):
        """An environment with the tools that are needed, and with rt or without it."""
        bare = self.path("bare")
        if not os.path.exists(bare):
            os.makedirs(bare)
            for tool in ("python3", "sh", "cat", "dirname", "cp", "mkdir", "sleep", "git"):
                os.symlink(os.path.realpath(sys.executable) if tool == "python3" else shutil.which(tool), os.path.join(bare, tool))
        return {"PATH": f"{self.root}/kit:{bare}" if has_rt else bare}

    def test_built_once(self):
        self.assertEqual(self.verdict(), (0, b"0 0 one\n", ""))
        self.assertEqual(self.verdict(), (0, b"0 0 one\n", ""))
        self.assertEqual(self.calls(), 1)

    def test_built_again_when_a_source_changes(self):
        self.verdict()
        self.put("crates/core/src/lib.rt", "two")
        self.assertEqual(self.verdict(), (0, b"0 0 two\n", ""))
        self.assertEqual(self.calls(), 2)
        self.verdict()
        self.assertEqual(self.calls(), 2)

    def test_built_again_when_an_older_source_takes_the_place(self):
        self.verdict()
        path = os.path.join(self.root, "crates/core/src/lib.rt")
        self.put("crates/core/src/lib.rt", "old")
        os.utime(path, (1, 1))
        self.assertEqual(self.verdict()[1], b"0 0 old\n")

    def test_built_again_when_a_source_comes_or_goes(self):
        self.verdict()
        self.put("crates/verdict/src/more.rt", "more")
        self.verdict()
        self.assertEqual(self.calls(), 2)
        os.unlink(os.path.join(self.root, "crates/verdict/src/more.rt"))
        self.verdict()
        self.assertEqual(self.calls(), 3)
        self.put("crates.txt", CRATES + "more: core\n")
        self.verdict()
        self.assertEqual(self.calls(), 4)

    def test_built_again_when_the_program_is_another(self):
        self.verdict()
        self.put("crates/verdict/out/verdict", "#!/bin/sh\ncat >/dev/null\necho 0 0 wrong\n", 0o755)
        self.assertEqual(self.verdict()[1], b"0 0 one\n")
        self.assertEqual(self.calls(), 2)

    def test_built_again_with_another_toolchain(self):
        self.verdict()
        self.put("kit/rt", RT + "# another\n", 0o755)
        self.verdict()
        self.assertEqual(self.calls(), 2)

    def test_version_says_that_it_may_be_stale(self):
        words = [os.path.join(self.root, "bin/verdict"), "--version"]
        self.assertTrue(run(words, env=self.env())[1].endswith(b"\ntoolchain kit-0\nprogram not built yet\n"))
        self.verdict()
        for has_rt in (True, False):
            self.assertRegex(run(words, env=self.env(has_rt))[1], rb"\nprogram sha256 [0-9a-f]{64}\n\Z")
        self.put("crates/core/src/lib.rt", "two")
        self.assertRegex(run(words, env=self.env())[1], rb"\nprogram sha256 [0-9a-f]{64}, to be checked again: its sources may have changed\n\Z")
        self.assertRegex(run(words, env=self.env(has_rt=False))[1], rb"\nprogram sha256 [0-9a-f]{64}, to be checked again")
        self.assertEqual(self.calls(), 1)

    def test_not_built_again_for_what_has_no_part_in_it(self):
        self.verdict()
        self.put("crates/other/src/lib.rt", "changed")
        self.put("crates/core/must-fail/a.edit", "changed")
        self.verdict()
        self.assertEqual(self.calls(), 1)

    def test_without_rt(self):
        status, output, error = self.verdict(has_rt=False)
        self.assertEqual((status, output), (2, b""))
        self.assertEqual(error, "verdict: crates/verdict/out/verdict is not built, and there is no rt to build it\n")
        self.verdict()
        self.assertEqual(self.verdict(has_rt=False), (0, b"0 0 one\n", ""))
        self.put("crates/core/src/lib.rt", "two")
        status, output, error = self.verdict(has_rt=False)
        self.assertEqual((status, output), (2, b""))
        self.assertEqual(error, "verdict: crates/verdict/out/verdict is older than crates/core/src/lib.rt, and there is no rt to build it again\n")

    def test_without_rt_a_record_counts(self):
        """A source that was only touched, and checked again, does not make the program stale where there is no rt."""
        self.verdict()
        later = os.stat(os.path.join(self.root, "crates/verdict/out/verdict")).st_mtime + 100
        os.utime(os.path.join(self.root, "crates.txt"), (later, later))
        self.assertEqual(self.verdict(has_rt=False)[0], 2)
        self.put("kit/rt", RT.replace("cp program", "cp -p program"), 0o755)
        self.verdict()
        self.assertEqual(self.verdict(has_rt=False), (0, b"0 0 one\n", ""))

    def test_not_proved(self):
        self.verdict()
        self.put("crates/core/src/lib.rt", "two")
        self.put("broken", "")
        self.put("says", "".join(f"line {number}\n" for number in range(40)))
        status, output, error = self.verdict()
        self.assertEqual((status, output), (2, b""))
        self.assertNotIn("line 24\n", error)
        self.assertIn("verdict:     line 25\n", error)
        self.assertIn("line 39\nverdict: crates/verdict/out/verdict is not proved, rt ended with status 1; target/log/check-verdict.out has all that it said\n", error)
        with open(os.path.join(self.root, "target/log/check-verdict.out"), encoding="utf-8") as log:
            self.assertEqual(len(log.readlines()), 40)

    def test_progress(self):
        self.put("pause", "3")
        self.put("says", CHECKED.format("core"))
        status, output, error = self.verdict()
        self.assertEqual((status, output), (0, b"0 0 one\n"))
        lines = error.splitlines()
        self.assertRegex(lines[0], r"^verdict: proving: crate 2 of 2, \d+ s so far, about (1 min )?\d+ s more \(the prover's output is in .*target/log/check-verdict.out\)$")
        self.assertRegex(lines[1], r"^verdict: the check took \d+ s$")
        self.assertEqual(len(lines), 2)

    def test_progress_on_a_terminal(self):
        """One line, written again each second and taken away at the end."""
        self.put("pause", "4")
        self.put("says", CHECKED.format("core"))
        above, below = pty.openpty()
        command = [os.path.join(self.root, "bin/verdict"), self.write("a.hex", CARD)]
        env = {**os.environ, "PATH": f"{self.root}/kit:{os.environ['PATH']}"}
        done = subprocess.run(command, stdout=subprocess.PIPE, stderr=below, env=env, check=False)
        said = os.read(above, 1 << 16).decode()
        os.close(above)
        os.close(below)
        self.assertEqual((done.returncode, done.stdout), (0, b"0 0 one\n"))
        self.assertRegex(said, r"\A(\rproving: crate 2 of 2, \d+ s so far, about (1 min )?\d+ s more\x1b\[K){2,}\r\x1b\[Kverdict: the check took \d+ s\r\n\Z")

    def test_two_at_once(self):
        self.put("pause", "3")
        command = [os.path.join(self.root, "bin/verdict"), self.write("a.hex", CARD)]
        env = {**os.environ, "PATH": f"{self.root}/kit:{os.environ['PATH']}"}
        both = [subprocess.Popen(command, stdout=subprocess.PIPE, stderr=subprocess.DEVNULL, env=env) for _ in range(2)]
        self.assertEqual([one.communicate()[0] for one in both], [b"0 0 one\n"] * 2)
        self.assertEqual(self.calls(), 1)

    def test_install_with_the_library(self):
        for folder, name, text in (("include", "tree_borrows.h", "header"), ("man", "verdict.1", "page")):
            os.mkdir(os.path.join(self.root, folder))
            self.put(f"{folder}/{name}", text)
        prefix = self.path("usr")
        for _ in range(2):
            self.assertEqual(run([os.path.join(self.root, "bin/install"), prefix], env=self.env()), (0, b"", ""))
        self.assertEqual(self.calls(), 2)
        self.assertEqual(read(f"{prefix}/lib/libtree_borrows.a"), b"archive\n")
        self.assertEqual(read(f"{prefix}/include/tree_borrows.h"), b"header")
        self.assertEqual(read(f"{prefix}/share/man/man1/verdict.1"), b"page")
        self.assertEqual(run([f"{prefix}/bin/verdict"], CARD, env=self.env(has_rt=False))[:2], (0, b"0 0 one\n"))
        self.assertIn(b"toolchain kit-0\n", run([f"{prefix}/bin/verdict", "--version"], env=self.env(has_rt=False))[1])

    def test_taken_as_another_command_built_it(self):
        """What stands there after a whole check is fresh, unless a source has changed since that began."""
        began, words = time.time_ns(), "import sys; sys.path.insert(0, 'bin/lib'); from hiedukson import program; print(program.BUILT.take(int(sys.argv[1])))"
        taken = lambda: run(["python3", "-c", words, str(began)], cwd=self.root, env=self.env())[1]
        self.assertEqual(taken(), b"False\n")
        os.mkdir(os.path.join(self.root, "crates/verdict/out"))
        shutil.copy(os.path.join(self.root, "program"), os.path.join(self.root, "crates/verdict/out/verdict"))
        self.assertEqual(taken(), b"True\n")
        self.assertEqual(self.verdict(), (0, b"0 0 one\n", ""))
        self.assertEqual(self.calls(), 0)
        self.put("crates/core/src/lib.rt", "two")
        self.assertEqual(taken(), b"False\n")
        self.assertEqual(self.verdict(), (0, b"0 0 two\n", ""))
        self.assertEqual(self.calls(), 1)

    def test_no_repository(self):
        os.unlink(os.path.join(self.root, "crates.txt"))
        status, _, error = self.verdict()
        self.assertEqual(status, 2)
        self.assertIn("is neither a repository nor an installed copy", error)

    def test_program_that_fails(self):
        self.put("program", "#!/bin/sh\necho broken >&2\nexit 3\n", 0o755)
        status, output, error = self.verdict()
        self.assertEqual((status, output, error), (2, b"", "verdict: the program ended with status 3: broken\n"))

    def test_program_that_reads_nothing(self):
        self.put("program", "#!/bin/sh\nexit 1\n", 0o755)
        self.assertEqual(self.verdict(data=CARD * 100_000)[0], 2)

    def test_bad_input_needs_no_program(self):
        status, _, error = self.verdict(has_rt=False, data=b"0000000")
        self.assertEqual((status, error), (2, "verdict: standard input:1:1: a word has eight digits, and 0000000 has 7\n"))


if __name__ == "__main__":
    unittest.main()
