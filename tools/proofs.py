#!/usr/bin/env python3
"""Runs `rt ci` in the current folder, the top of a repository, and tells which proofs were made in this run.

    tools/proofs.py [--told FILE] [CRATE..]

The gate runs it. `rt` keeps what it proved, beside the kit, under a sum of all that it was made of: the kit, the crate's files,
its line of crates.txt, what HANDLES allows, and the libraries below as they were built. A later run on the machine takes what is
kept under the same sum. FILE is written at the end: how many crates, and crates' tests, were proved in this run, and how
many were taken so, each of these with its sum. Without FILE, that goes to the standard error.

Where no crate is named the files of each are summed once. Before and after a library is built `rt` sums the files that it is
made of, those of each crate below once for each path of crates.txt that leads there: of fifty crates that are tens of
thousands of sums, on one processor, while the proofs wait. And `rt` guesses a prover's memory so high that two large ones fill
a machine of 24 GB: by needs.py as many run as memory holds. All else is `rt ci`.
"""

from __future__ import annotations

import argparse
import io
import os
import sys
from typing import Any

import needs
import repository


def counted(proofs: list[tuple[str, bool]]) -> str:
    """How many crates are proved, and of how many the tests are."""
    of_tests = sum(is_of_tests for _, is_of_tests in proofs)
    crates = len(proofs) - of_tests
    return f"{crates} crate{'s' * (crates != 1)} and the tests of {of_tests}"


def named(crate: str, is_of_tests: bool) -> str:
    """A proof, by what it is of."""
    return f"{crate}'s tests" if is_of_tests else crate


class Account:
    """Which proofs a run has made, and under which sums it has taken others."""

    def __init__(self) -> None:
        self.made: list[tuple[str, bool]] = []
        self.taken: dict[tuple[str, bool], str] = {}

    def follow(self, store: Any) -> None:
        """Takes note of what is given and kept from now on by `rt`'s class of what runs keep."""
        give, keep = store.give, store.keep

        def noted_give(kept: Any, crate: Any, tests: bool, key: str) -> bool:
            is_given = bool(give(kept, crate, tests, key))
            if is_given:
                self.taken[crate.name, bool(tests)] = key
            return is_given

        def noted_keep(kept: Any, crate: Any, tests: bool, key: str) -> None:
            # (of each proof that is made, also where there is no room to keep it)
            self.made.append((crate.name, bool(tests)))
            keep(kept, crate, tests, key)

        store.give, store.keep = noted_give, noted_keep

    def text(self) -> str:
        """What is told of a run."""
        made, taken = sorted(self.made), sorted(self.taken)
        names = ", ".join(named(*it) for it in made)
        lines = [f"proved in this run: {counted(made)}{': ' if names else ''}{names}"]
        lines += [
            f"taken from an earlier run on this machine: {counted(taken)}"
            f"{', each by the sum of all that it was made of:' if taken else ''}"
        ]
        lines += [f"  {named(*it)} {self.taken[it]}" for it in taken]
        return "".join(f"gate: {line}\n" for line in lines)


def told(path: str) -> str:
    """What a run has written to its FILE, which it hasn't where it was killed."""
    if not os.path.isfile(path):
        return "gate: which proofs were made in this run isn't known: it was killed\n"
    with open(path, encoding="utf-8") as it:
        return it.read()


def sum_once(rt: Any) -> None:
    """Has the files of each crate summed once."""
    sum_anew = rt.rtlib.Crate.stamp
    sums: dict[str, str] = {}

    def stamp(crate: Any) -> str:
        folder = os.path.realpath(crate.folder)
        if folder not in sums:
            sums[folder] = sum_anew(crate)
        return sums[folder]

    rt.rtlib.Crate.stamp = stamp


def plan_by_notes(rt: Any) -> None:
    """Has as many provers run at a time as memory holds by what they have taken before."""
    in_lanes, noted = rt.in_lanes, needs.read()
    lines = {it.name: it.count(rb"\n") for it in rt.crates_of(os.getcwd())}
    rt.in_lanes = lambda tasks: in_lanes(needs.by_notes(tasks, noted, lines))


def main(words: list[str]) -> int:
    """Runs `rt ci`, and returns its status."""
    read = argparse.ArgumentParser(description=(__doc__ or "").partition("\n")[0])
    read.add_argument("--told", metavar="FILE")
    read.add_argument("crates", metavar="CRATE", nargs="*")
    given = read.parse_args(words)
    # (the run may stand in another folder then)
    to = os.path.abspath(given.told) if given.told else "/dev/stderr"
    rt = repository.kit()
    # (of a named crate the wrong bodies are tried, too, in folders that change)
    if not given.crates:
        sum_once(rt)
    plan_by_notes(rt)
    account = Account()
    account.follow(rt.Kept)
    # (the gate reads each line as it comes)
    if isinstance(sys.stdout, io.TextIOWrapper):
        sys.stdout.reconfigure(line_buffering=True)
    try:
        return int(rt.main(["ci", *given.crates]))
    finally:
        with open(to, "w", encoding="utf-8") as it:
            it.write(account.text())


if __name__ == "__main__":
    sys.exit(main(sys.argv[1:]))
