#!/usr/bin/env python3
"""Plays rows of data over the built programs, and says which are answered otherwise than they should be.

    tests/play.py [--programs FOLDER] [--but FOLDER/NAME].. [FILE.rows..]

FOLDER has the programs as a release names them (`ssa-pipe`); without it they are those that `rt run` and the gate build, or
the released ones. Without a file all rows are played, but those of the files that `--but` names, as `hub/fronts`, and those of
what isn't served yet. The first line of a failure names the row and says what is wrong; the last line is `N passed, M failed`,
of rows, and the status is 0 where M is 0. README.md says how to add a row.
"""

from __future__ import annotations

import argparse
import concurrent.futures
import glob
import importlib
import os
import sys
from collections.abc import Iterator, Sequence
from typing import NamedTuple

import rows
from programs import Programs

TESTS = os.path.dirname(os.path.realpath(__file__))
# The folders of rows of what isn't served yet. Their files are played where they are named.
NOT_SERVED = ("kubernetes",)


class Played(NamedTuple):
    """How many rows of a file were answered as they should be, and of each example that wasn't what is to be said."""

    passed: int
    failed: int
    told: list[str]


def answers(programs: Programs, example: rows.Example) -> Iterator[str]:
    """What comes at each row of an example, by the player that its folder names."""
    player = os.path.basename(os.path.dirname(os.path.realpath(example.path)))
    yield from importlib.import_module(f"players.{player}").play(programs, example)


def play_example(programs: Programs, example: rows.Example) -> Played:
    """Plays an example. Rows behind one that is answered otherwise aren't played, and count as failed."""
    came = answers(programs, example)
    for at, row in enumerate(example.rows):
        try:
            answer = next(came)
            if answer == row.wanted:
                continue
            why = rows.difference(row.wanted, answer)
        except StopIteration:
            why = "no answer came"
        except Exception as error:  # pylint: disable=broad-except
            name = "" if isinstance(error, rows.Wrong) else f"{type(error).__name__}: "
            why = f"{name}{error}"
        left = len(example.rows) - at
        more = f" ({left - 1} rows behind it aren't played)" if left > 1 else ""
        told = f"{example.path}:{row.line}: {why}{more}\n  row: {row.step}\n  of: {example.heading}"
        return Played(at, left, [told])
    return Played(len(example.rows), 0, [])


def play_file(folder: str, path: str) -> Played:
    """Plays the examples of a file over the programs of a folder."""
    try:
        examples = rows.examples_of(path)
    except (rows.Malformed, OSError, UnicodeDecodeError) as error:
        return Played(0, 1, [f"{error}"])
    played = [play_example(Programs(folder), it) for it in examples]
    return Played(
        sum(it.passed for it in played),
        sum(it.failed for it in played),
        [line for it in played for line in it.told],
    )


def all_files(left_out: Sequence[str]) -> list[str]:
    """All files of rows of what is served but these, the largest first."""
    absent = {f"{TESTS}/{it}.rows" for it in left_out}
    for folder in NOT_SERVED:
        absent |= {*glob.glob(f"{TESTS}/{folder}/*.rows")}
    found = {*glob.glob(f"{TESTS}/*/*.rows")} - absent
    return sorted(found, key=lambda it: (-os.path.getsize(it), it))


def main(words: Sequence[str]) -> int:
    """Plays what the words name."""
    read = argparse.ArgumentParser(description=(__doc__ or "").partition("\n")[0])
    read.add_argument("--programs", metavar="FOLDER", default="")
    read.add_argument("--but", metavar="FOLDER/NAME", action="append", default=[])
    read.add_argument("files", metavar="FILE.rows", nargs="*")
    given = read.parse_args(words)
    paths = [os.path.relpath(it) for it in given.files or all_files(given.but)]
    passed = failed = 0
    lanes = len(os.sched_getaffinity(0))
    with concurrent.futures.ProcessPoolExecutor(lanes) as pool:
        for played in pool.map(play_file, [given.programs] * len(paths), paths):
            passed, failed = passed + played.passed, failed + played.failed
            for line in played.told:
                print(f"FAILED: {line}", flush=True)
    print(f"{passed} passed, {failed} failed")
    return int(failed > 0 or not passed)


if __name__ == "__main__":
    sys.exit(main(sys.argv[1:]))
