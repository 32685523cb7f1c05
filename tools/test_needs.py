#!/usr/bin/env python3
"""Sees what is planned on by made-up notes of what provers took. It needs no kit.

    tools/test_needs.py
"""

from __future__ import annotations

import os
import sys
import tempfile
import unittest
from typing import Any

import gate_cost
import needs
from needs import EDITS, MARGIN, PROOF, TESTS, Noted

MB = needs.MEGABYTE


def call(*_: Any) -> None:
    """A task's call."""


class Planned(unittest.TestCase):
    """Notes of a crate `low`, none of `new`."""

    noted = {
        ("low", PROOF): Noted(600, 1000, 30),
        ("low", TESTS): Noted(900, 1000, 90),
        ("low", EDITS): Noted(2000, 1000, 9),
    }

    def test_what_was_seen_counts_with_a_margin(self) -> None:
        """By kind; a crate that has grown counts as much more as rt's guess has."""
        of = needs.planned(self.noted, ("low", PROOF), 1000 * MB)
        self.assertAlmostEqual(of, 600 * MB * MARGIN)
        of = needs.planned(self.noted, ("low", PROOF), 2000 * MB)
        self.assertAlmostEqual(of, 1200 * MB * MARGIN)

    def test_the_guess(self) -> None:
        """What is more than was guessed counts, too; the guess does where nothing is noted."""
        of = needs.planned(self.noted, ("low", EDITS), 1000 * MB)
        self.assertAlmostEqual(of, 2000 * MB * MARGIN)
        self.assertEqual(needs.planned(self.noted, ("new", PROOF), 5.0), 5.0)

    def test_tasks(self) -> None:
        """Tasks of `rt ci` keep what they wait for and their call; unknown work is reckoned in seconds, too."""
        tasks: dict[tuple[str, str], needs.Task] = {
            ("low", "proof"): ([], 300, 1000.0 * MB, call),
            ("low", "tests"): ([], 300, 1000.0 * MB, call),
            ("new", "proof"): ([("low", "proof")], 100, 7.0, call),
            ("new", "tests"): ([("low", "proof")], 0, 7.0, call),
            ("new", "edits"): ([("new", "proof")], 5, 7.0, call),
        }
        found = needs.by_notes(tasks, self.noted, {"low": 300, "new": 100})
        self.assertEqual(found["low", "proof"][1], 30)
        self.assertAlmostEqual(found["low", "tests"][2], 900 * MB * MARGIN)
        self.assertEqual(found["new", "proof"], ([("low", "proof")], 20, 7.0, call))
        self.assertEqual(found["new", "tests"][1], 0)
        self.assertEqual(found["new", "edits"], tasks["new", "edits"])

    def test_a_file_says_it_again(self) -> None:
        """What was written is read; a file that isn't there has nothing."""
        with tempfile.TemporaryDirectory() as folder:
            path = f"{folder}/out/needs.txt"
            self.assertEqual(needs.read(path), {})
            needs.write(self.noted, path)
            self.assertEqual(needs.read(path), self.noted)


class Seen(unittest.TestCase):
    """What is looked at in /proc."""

    def test_this_process_holds_memory(self) -> None:
        """A process that is gone holds none."""
        self.assertGreater(gate_cost.memory_in(os.getpid(), "status", "VmHWM"), MB)
        self.assertEqual(gate_cost.memory_in(2**30, "status", "VmHWM"), 0)


if __name__ == "__main__":
    if set(sys.argv[1:]) & {"-h", "--help"}:
        sys.exit(__doc__)
    unittest.main()
