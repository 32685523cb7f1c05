#!/usr/bin/env python3
"""Sees what is told of the proofs of made-up runs: those that were made, and those that were
taken from an earlier run, by their sums. It needs no kit.

    tools/test_proofs.py
"""
from __future__ import annotations

import tempfile
import threading
import types
import unittest
from typing import Any
from unittest import mock

import proofs
import repository

NONE_MADE = "gate: proved in this run: 0 crates and the tests of 0"
NONE_TAKEN = (
    "gate: taken from an earlier run on this machine: 0 crates and the tests of 0"
)
BY_SUMS = ", each by the sum of all that it was made of:"


def store_of(sums: set[str]) -> Any:
    """A class of what earlier runs keep, as `rt` has one: these sums."""

    class Kept:
        """What earlier runs keep."""

        def give(self, _: object, __: bool, key: str) -> bool:
            """Gives what is kept under a sum."""
            return key in sums

        def keep(self, _: object, __: bool, key: str) -> None:
            """Keeps something under a sum, unless there is no room for it."""
            if not key.startswith("large"):
                sums.add(key)

    return Kept


class Told(unittest.TestCase):
    """A made-up machine, on which runs make these proofs, but for those that fail."""

    def setUp(self) -> None:
        self.sums = {"one"}
        self.proofs: list[tuple[str, bool, str]] = []
        self.fails: set[str] = set()

    def work(self, kept: Any, name: str, is_of_tests: bool, key: str) -> None:
        """Takes a proof or makes it, as `rt ci` does."""
        crate = types.SimpleNamespace(name=name)
        if not kept.give(crate, is_of_tests, key) and name not in self.fails:
            kept.keep(crate, is_of_tests, key)

    def told(self) -> list[str]:
        """What the tool tells of a run, whose status is that of `rt`."""
        store = store_of(self.sums)

        def run(_: list[str]) -> int:
            kept = store()
            threads = [
                threading.Thread(target=self.work, args=(kept, *it))
                for it in self.proofs
            ]
            for it in threads:
                it.start()
            for it in threads:
                it.join()
            return len(self.fails)

        rtlib = types.SimpleNamespace(Crate=types.SimpleNamespace(stamp=str))
        rt = types.SimpleNamespace(
            rtlib=rtlib,
            Kept=store,
            main=run,
            in_lanes=dict,
            crates_of=lambda _: [],
        )
        with tempfile.TemporaryDirectory() as folder:
            path = f"{folder}/told"
            with mock.patch.object(repository, "kit", return_value=rt):
                self.assertEqual(proofs.main(["--told", path]), len(self.fails))
            return proofs.told(path).splitlines()

    def test_made_and_taken(self) -> None:
        """What is taken is told with its sum, and what is made by its name, in the order of the names."""
        self.proofs = [("b", False, "one"), ("c", True, "two"), ("a", False, "three")]
        made, taken, *rest = self.told()
        self.assertTrue(made.endswith("1 crate and the tests of 1: a, c's tests"))
        self.assertTrue(taken.endswith(f"1 crate and the tests of 0{BY_SUMS}"))
        self.assertEqual(rest, ["gate:   b one"])

    def test_all_are_made(self) -> None:
        """Where nothing is taken no sum is told. What there is no room to keep was made."""
        self.proofs = [("a", False, "two"), ("a", True, "large")]
        made, *rest = self.told()
        self.assertTrue(made.endswith("1 crate and the tests of 1: a, a's tests"))
        self.assertEqual(rest, [NONE_TAKEN])

    def test_all_are_taken(self) -> None:
        """A second run takes what the first one kept, and makes the rest again."""
        self.proofs = [("a", False, "two"), ("a", True, "three")]
        self.told()
        made, taken, *rest = self.told()
        self.assertEqual(made, NONE_MADE)
        self.assertTrue(taken.endswith(f"1 crate and the tests of 1{BY_SUMS}"))
        self.assertEqual(rest, ["gate:   a two", "gate:   a's tests three"])

    def test_what_fails_is_neither(self) -> None:
        """A proof that fails was neither made nor taken; the others are told all the same."""
        self.proofs = [("a", False, "two"), ("b", False, "one")]
        self.fails = {"a"}
        made, _, *rest = self.told()
        self.assertEqual((made, rest), (NONE_MADE, ["gate:   b one"]))

    def test_a_killed_run(self) -> None:
        """Where a run could tell nothing, that is said."""
        self.assertIn("isn't known", proofs.told("/no/such/file"))


if __name__ == "__main__":
    unittest.main()
