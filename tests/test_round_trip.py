#!/usr/bin/env python3
"""To words and back gives the same words, for generated runs that are accepted and refused, and for all examples."""

import collections
import random
import re
import unittest

import generate
from support import REFUSED, TestCase, command, example_paths, program, read, refusal

from hiedukson import card, notation, verdicts
from hiedukson import words as w
from hiedukson.errors import CardError

RUNS = 2000
# 1 and 16 are about lent memory, and no run reaches them.
REACHED = {2, 3, 4, 5, 6, 7, 8, 9, 10, 11, 12, 13, 15, 17, 18, 19, 20, 21, 22, 23, 25, 26, 27}


def names_and_back(run):
    return notation.read("".join(f"{line}\n" for line in notation.write(run)).encode()).run


def without_blanks(text):
    return [re.sub(rb"\s*#", b"#", line, count=1) for line in text.splitlines()]


# What damage puts in: parts of the notation, digits, and what is neither.
PIECES = list("0123456789abcdef &+-,.:@*=#_\n\r\t") + ["0x", "..", "__", "cells", "slice", " of ", "ptr ", "in 0", "a0", "a0.1", "raw ", "é", "\udcff", "\0"]


def damaged(source, text):
    """A text with some of it left out, doubled or replaced."""
    for _ in range(source.randint(1, 3)):
        at = source.randrange(len(text) + 1)
        end = min(len(text), at + source.choice((0, 0, 1, 1, 2, 9)))
        text = text[:at] + source.choice(PIECES) * source.randint(0, 2) + text[end:]
    return text


class RoundTrip(TestCase):
    def test_generated_runs(self):
        met = collections.Counter()
        for seed in range(RUNS):
            run = generate.run(seed)
            self.assertEqual(names_and_back(run), run, f"seed {seed}")
            output = program().run(run)
            refused = verdicts.refusal_of(output)
            met[refused.refusal if refused else 0] += 1
            with self.subTest(seed=seed):
                self.check_reasons(run, refused)
        self.assertGreater(met[0], RUNS // 10)
        self.assertEqual(REACHED - set(met), set())

    def check_reasons(self, run, refused):
        """What the commands say of 2 and 3 is what the program says: a reason for those requests, and for no others."""
        last = refused.index if refused else None
        standing = w.Standing()
        for request in w.requests(run):
            malformed = w.malformed(request, standing)
            if request.index == last:
                self.assertEqual(malformed is not None, refused.refusal == 2, malformed)
                if malformed is None:
                    self.assertEqual(w.no_mask(request) is not None, refused.refusal == 3)
                return
            self.assertIsNone(malformed)
            self.assertIsNone(w.no_mask(request))
            standing.follow(request.words[0], request.fourth)

    def test_accepted_requests_have_names(self):
        """What the program accepts is said in names, but for a pinned reference whose unread words are no layout."""
        for seed in range(RUNS // 4):
            run = generate.run(seed)
            refused = refusal(run)
            lines = notation.write(run)
            for request, line in zip(w.requests(run), lines):
                if refused and request.index >= refused.index:
                    break
                if line.startswith("raw"):
                    self.assertTrue(request.is_pinned, f"seed {seed}: {line}")

    def test_runs_without_a_pattern(self):
        """Bytes at random, which hold requests of all kinds with all fields set."""
        for seed in range(RUNS // 4):
            run = generate.random_bytes(random.Random(seed), seed % 90)
            self.assertEqual(names_and_back(run), run, f"seed {seed}")

    def test_one_field_wild(self):
        """A small run with each bit of each word flipped."""
        run = card.read(REFUSED).run
        for bit in range(8 * len(run)):
            flipped = bytearray(run)
            flipped[bit // 8] ^= 1 << bit % 8
            self.assertEqual(names_and_back(bytes(flipped)), bytes(flipped), f"bit {bit}")

    def test_examples_through_the_command(self):
        """Words to names to words give the same text, comments and all, but for the blanks before a comment."""
        self.assertGreater(len(example_paths()), 20)
        for path in example_paths():
            status, names, error = command("card", path)
            self.assertEqual((status, error), (0, ""))
            status, words, error = command("card", data=names)
            self.assertEqual((status, error), (0, ""))
            self.assertEqual(without_blanks(words), without_blanks(read(path)), path)

    def test_damaged_texts(self):
        """A damaged card, in names or words, is read, or is an error with line and column; nothing else happens."""
        read_again = 0
        errors = 0
        for seed in range(RUNS):
            source = random.Random(seed)
            whole = card.read(generate.run(seed)[:400], is_binary=True)
            try:
                text = damaged(source, card.to_names(whole) if seed % 2 else card.to_words(whole))
                found = card.read(text.encode("utf-8", "surrogateescape"))
            except CardError as error:
                if "ends inside a word" not in error.message:
                    errors += 1
                    self.assertIsNotNone(error.line, error.message)
                    self.assertIsNotNone(error.column, error.message)
                    self.assertLessEqual(error.line, text.count("\n") + 1)
                continue
            read_again += 1
            self.assertEqual(names_and_back(found.run), found.run)
            self.assertEqual(len(list(w.requests(found.run))), len([index for index, _ in found.lines() if index is not None]))
        self.assertGreater(read_again, RUNS // 20)
        self.assertGreater(errors, RUNS // 2)

    def test_numbers_of_accepted_runs(self):
        """The names stand for the pointers that the program gives: a0.1 is what it prints as 0.1."""
        for seed in range(RUNS // 10):
            run = generate.run(seed)
            output = program().run(run)
            lines = notation.write(run)
            for answer in verdicts.answers(output):
                line = lines[answer.index]
                if answer.refusal or " = " not in line or line.startswith("_ "):
                    continue
                allocation, node = answer.given.split(".")
                name = f"a{allocation}" if node == "0" else f"a{allocation}.{node}"
                self.assertEqual(line.split(" ")[0], name, f"seed {seed}")


if __name__ == "__main__":
    unittest.main()
