#!/usr/bin/env python3
"""The memories of a replay are those of every prefix, the changes are all there is, and what is said to have refused did."""

import collections
import unittest

import borrows
import generate
from support import EXAMPLES, TestCase, program, read

from hiedukson import card, changes, history, memories, permissions, replay, verdicts
from hiedukson import words as w
from hiedukson.permissions import FOREIGN, LOCAL, READ, WRITE

REPLAYED = 60
MET = 1200
RELEASED = f"{EXAMPLES}/released-reserved.hex"
REFUSED_BY_PERMISSION = sorted(permissions.MET)


def judge(run):
    return program().run(run)


def prefixes(run, count):
    """The memories before the first request of a run and after each, one run of the program for each."""
    ends = [4 * request.start for request in w.requests(run)][1:count] + [len(run)]
    return [memories.EMPTY] + [memories.of_output(judge(run[:end])) for end in ends[:count]]


def runs():
    """Runs of all kinds, and runs in which permissions decide."""
    for seed in range(REPLAYED):
        yield f"seed {seed}", generate.run(seed)
        yield f"borrows {seed}", borrows.run(seed)


class Replays(TestCase):
    def test_all_prefixes(self):
        """Stretches that are not looked into have the memories that their prefixes print."""
        for name, run in runs():
            steps = replay.replay(run, judge)
            expected = prefixes(run, len(steps))
            self.assertEqual([step.before for step in steps], expected[: len(steps)], name)
            self.assertEqual([step.after for step in steps], expected[1 : len(steps) + 1], name)

    def test_changes_are_all(self):
        """The changes, made to the memory before, give the one after."""
        for name, run in runs():
            for step in replay.replay(run, judge):
                made = changes.between(step.before, step.after)
                self.assertEqual(rows(step.after), changed(rows(step.before), made), name)

    def test_what_changes_nothing_is_not_looked_into(self):
        """A run of n loads costs some 2 log n runs of the program."""
        allocate = w.join(w.ALLOCATE, extra=1, address=16, fourth=2)
        load = w.join(w.LOAD, (0, 0), address=16, fourth=1)
        run = w.bytes_of(allocate) + w.bytes_of(load) * 4000
        judged = []

        def counted(run):
            judged.append(run)
            return judge(run)

        self.assertEqual(len(replay.replay(run, counted)), 4001)
        self.assertLess(len(judged), 30)

    def test_emptyings(self):
        """What stands before an emptying and is made again behind it is no stretch in which nothing changes."""
        lines = ("x = heap 1 at 0x10", "empty 64", "x = heap 1 at 0x10", "load x 1", "empty 16", "empty 32", "x = heap 1 at 0x10")
        run = card.read("\n".join(lines).encode()).run
        steps = replay.replay(run, judge)
        self.assertEqual([len(step.after.allocations) for step in steps], [1, 0, 1, 1, 0, 0, 1])
        self.assertEqual([step.empties for step in steps], [False, True, False, False, True, True, False])
        self.assertEqual(replay.since_emptied(steps), (steps[5], steps[6:]))
        self.assertEqual(replay.since_emptied(steps[:1]), (None, steps[:1]))
        self.assertEqual(replay.since_emptied(steps[:2]), (steps[1], []))
        dropped = changes.between(steps[1].before, steps[1].after)
        self.assertEqual(dropped, [changes.Dropped(steps[0].after.allocations[0])])
        self.assertEqual(changes.between(steps[5].before, steps[5].after), [])

    def test_an_emptying_that_is_refused_drops_nothing(self):
        steps = replay.replay(card.read(b"x = heap 1 at 0x10\nraw f0000003 00000000 00000000 00000000\n").run, judge)
        self.assertEqual((steps[1].answer.refusal, steps[1].empties), (2, False))
        self.assertEqual(steps[1].before, steps[1].after)
        self.assertEqual(replay.since_emptied(steps), (None, steps))

    def test_no_request(self):
        self.assertEqual(replay.replay(b"", judge), [])


def rows(memory):
    """What a memory says of permissions: states by allocation, protectors and codes by node."""
    found = {}
    for allocation in memory.allocations:
        found[allocation.number] = allocation.state
        for node in allocation.nodes:
            found[node.pointer] = (node.protector, node.codes)
    return found


def changed(found, made):
    """The rows with some changes made."""
    for change in made:
        if isinstance(change, changes.Made):
            codes = "".join(code * (end - first) for first, end, code in change.stretches)
            found[change.node.pointer] = (change.node.protector, codes)
            found.setdefault(change.node.pointer.allocation, "live")
        elif isinstance(change, changes.Became):
            protector, codes = found[change.pointer]
            assert set(codes[change.first : change.end]) == {change.before}
            codes = codes[: change.first] + change.after * (change.end - change.first) + codes[change.end :]
            found[change.pointer] = (protector, codes)
        elif isinstance(change, changes.Protector):
            assert found[change.pointer][0] == change.before
            found[change.pointer] = (change.after, found[change.pointer][1])
        elif isinstance(change, changes.Dropped):
            assert found.pop(change.allocation.number) == change.allocation.state
            for node in change.allocation.nodes:
                assert found.pop(node.pointer) == (node.protector, node.codes)
        else:
            assert found[change.allocation] == change.before
            found[change.allocation] = change.after
    return found


class WhatWasMet(TestCase):
    """The permission that is said to have refused a request is the first that refuses in the visiting order."""

    def test_generated_runs(self):
        met = collections.Counter()
        for seed in range(MET):
            run = borrows.run(seed)
            refused = verdicts.refusal_of(judge(run))
            if refused is None or refused.refusal not in REFUSED_BY_PERMISSION:
                continue
            request = next(request for request in w.requests(run) if request.index == refused.index)
            prefix = run[: 4 * request.start]
            before = memories.of_output(judge(prefix))
            met[refused.refusal] += 1
            with self.subTest(seed=seed):
                self.check(replay.Step(request, refused, before, before), prefix)
        self.assertGreater(min(met[refusal] for refusal in REFUSED_BY_PERMISSION), 4, met)

    def test_a_retag_goes_byte_by_byte(self):
        """Of two permissions that refuse, a retag meets the one at the lower byte, and not at the higher node."""
        lines = ("r = heap 2 at 0x10", "p = &mut r", "call 0", "q = &mut p 1 in 0", "store q 01", "store r+1 02", "x = & p 2")
        steps = replay.replay(card.read("\n".join(lines).encode()).run, judge)
        self.assertEqual(steps[-1].before.node(memories.Pointer(0, 1)).codes, "35")
        self.assertEqual(steps[-1].answer.refusal, 21)
        self.assertEqual(history.met(steps[-1]), history.Spot((0, 2), 0))

    def test_cells_of_a_shared_reference_are_not_read(self):
        """Where both bytes are Disabled, a shared reference meets the one that is no cell, all others the first."""
        for reference, offset in (("& p 2 cells 0..1", 1), ("& p 2", 0), ("&mut p 2 cells 0..1", 0), ("box p 2 cells 0..1", 0)):
            lines = ("r = heap 2 at 0x10", "p = &mut r", "store r 01 02", f"x = {reference}")
            steps = replay.replay(card.read("\n".join(lines).encode()).run, judge)
            self.assertEqual(steps[-1].answer.refusal, 17)
            self.assertEqual(history.met(steps[-1]), history.Spot((0, 1), offset), reference)

    def test_a_weak_protector_prevents_nothing(self):
        """A deallocation meets the reference, and not the box above it, which is protected too."""
        lines = ("r = heap 1 at 0x10", "call 0", "b = box r in 0", "x = &mut b in 0", "free x")
        steps = replay.replay(card.read("\n".join(lines).encode()).run, judge)
        self.assertEqual(steps[-1].answer.refusal, 24)
        self.assertEqual(history.met(steps[-1]), history.Spot((0, 2), 0))

    def check(self, step, prefix):
        spot = history.met(step)
        self.assertIsNotNone(spot)
        if step.answer.refusal == 24:
            self.assertEqual(spot, first_preventing(step, prefix))
            return
        self.assertEqual((spot, step.answer.refusal), first_refusal(step))
        self.assertEqual(alone(step, spot, prefix), step.answer.refusal)


def alone(step, spot, prefix):
    """The refusal of an access to the byte alone, through the same pointer, in place of the request."""
    address = step.before.allocation(spot.pointer.allocation).address + spot.offset
    if access_of(step.request) == READ:
        request = w.join(w.LOAD, step.pointer, address=address, fourth=1)
    else:
        request = w.join(w.STORE, step.pointer, address=address, fourth=1, following=(w.byte_word(w.Byte(7)),))
    refused = verdicts.refusal_of(judge(prefix + w.bytes_of(request)))
    return refused.refusal


def first_preventing(step, prefix):
    """The first spot that prevents a deallocation, after the write to all bytes that it begins with."""
    allocation = step.before.allocation(step.pointer.allocation)
    stored = [w.byte_word(w.Byte(7))] * allocation.size
    store = w.join(w.STORE, step.pointer, address=allocation.address, fourth=allocation.size, following=stored)
    written = memories.of_output(judge(prefix + w.bytes_of(store))).allocation(allocation.number)
    for node in in_order(written, written.nodes[0]):
        for offset, code in enumerate(node.codes):
            if node.protector == "strong" and code in PREVENTING:
                return history.Spot(node.pointer, offset)
    return None


def in_order(allocation, node):
    yield node
    for child in allocation.nodes:
        if child.parent == node.pointer:
            yield from in_order(allocation, child)


def access_of(request):
    return READ if request.kind in (w.LOAD, w.RETAG) else WRITE


# The protected codes of bytes that were used locally.
PREVENTING = "8abd"
# The rules by access and relation: the refusal of each code that is refused.
REFUSALS = {
    (READ, LOCAL): {"5": 17, "e": 26},
    (WRITE, LOCAL): {"4": 18, "c": 27, "d": 27, "5": 19, "e": 28, "9": 20, "a": 20},
    (READ, FOREIGN): {"b": 21},
    (WRITE, FOREIGN): {"8": 22, "a": 22, "d": 22, "b": 23},
}


def first_refusal(step):
    """The first spot that refuses and its refusal, by a plain walk through the tree."""
    allocation = step.before.allocation(step.pointer.allocation)
    offsets = history.touched(step.request, allocation)
    if step.request.kind is w.RETAG:
        found = (walk(step, allocation, allocation.nodes[0], [offset]) for offset in offsets)
        return next(spot for spot in found if spot)
    return walk(step, allocation, allocation.nodes[0], offsets)


def walk(step, allocation, node, offsets):
    relation = LOCAL if is_above(allocation, node, step.pointer.node) else FOREIGN
    refusals = REFUSALS[access_of(step.request), relation]
    for offset in offsets:
        if node.codes[offset] in refusals:
            return history.Spot(node.pointer, offset), refusals[node.codes[offset]]
    for child in allocation.nodes:
        if child.parent == node.pointer:
            found = walk(step, allocation, child, offsets)
            if found:
                return found
    return None


def is_above(allocation, node, number):
    """Whether a node is on the path from the root to the one with this number."""
    while number != node.pointer.node:
        parent = allocation.nodes[number].parent
        if parent is None:
            return False
        number = parent.node
    return True


# Which access makes which code of another, by document 01's rules.
CAUSES = {
    (WRITE, LOCAL): ("13", "23", "7b", "8b"),
    (READ, LOCAL): ("78", "9a", "cd"),
    (READ, FOREIGN): ("34", "79", "8a"),
    (WRITE, FOREIGN): ("15", "35", "45", "7e", "9e", "ce"),
}


# What the end of a node's own protector makes of its codes.
RELEASES = ("60", "71", "81", "91", "a1", "b3", "c4", "d4", "e5")


def reached():
    """For each code, those that it can become in one step or more."""
    steps = [pair for pairs in (*CAUSES.values(), RELEASES) for pair in pairs]
    found = {code: set() for code in "0123456789abcde"}
    for _ in found:
        for before, after in steps:
            found[before] |= {after} | found[after]
    return found


class Histories(TestCase):
    """What is said of a permission's past agrees with its codes."""

    def test_no_permission_returns(self):
        """What lets a replay leave stretches out: a code that was left is not reached again."""
        for code, later in reached().items():
            self.assertNotIn(code, later)

    def test_generated_runs(self):
        met = collections.Counter()
        for seed in range(MET // 6):
            steps = replay.replay(borrows.run(seed), judge)
            with self.subTest(seed=seed):
                for node in steps[-1].after.allocations[0].nodes:
                    for offset in range(len(node.codes)):
                        self.check(steps, history.Spot(node.pointer, offset), met)
        self.assertEqual({cause for cause in CAUSES if met[cause] < 20}, set())

    def test_what_a_release_reads(self):
        """The end of a call reads what its argument has read, which another argument sees."""
        steps = replay.replay(card.read(read(RELEASED)).run, judge)
        met = collections.Counter()
        self.check(steps, history.met(steps[-1]), met)
        self.assertEqual(met, {(READ, FOREIGN): 1, w.END_CALL: 1})

    def check(self, steps, spot, met):
        turns = history.changes_of(steps, spot)
        self.assertIsNone(turns[0].before)
        self.assertEqual([turn.before for turn in turns[1:]], [turn.after for turn in turns[:-1]])
        self.assertEqual(turns[-1].after, spot.code(steps[-1].after))
        accesses = history.accesses_of(steps, spot)
        later = reached()
        for turn in turns[1:]:
            self.assertIn(turn.after, later[turn.before])
            self.check_cause(turn, accesses, met)

    def check_cause(self, turn, accesses, met):
        """A change by an access is by one that the step made at the byte."""
        found = {(access.kind, access.relation) for access in accesses if access.step is turn.step}
        for cause, pairs in CAUSES.items():
            if turn.before + turn.after in pairs:
                self.assertIn(cause, found, turn)
                met[cause] += 1
                met[turn.step.request.kind] += 1


if __name__ == "__main__":
    unittest.main()
