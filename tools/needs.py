"""What provers have taken, by crate and kind, and what is planned on by that: memory, and processor time.

`tools/needs.txt` has a line for each crate's own proof, its tests and its wrong bodies: `NAME KIND MEGABYTES GUESS SECONDS`, the
most memory that was seen, what `rt` guesses of that crate, and the processor seconds. `./test` writes such a file of its run to
`out/needs.txt`; copy it where it differs much. A crate that has grown is planned on as much larger as `rt`'s guess has grown;
of one without a line the guess itself counts.
"""

from __future__ import annotations

import os
from collections.abc import Callable, Mapping
from typing import Any, NamedTuple

import repository

FILE = f"{repository.TOP}/tools/needs.txt"
WRITTEN = f"{repository.TOP}/out/needs.txt"
MEGABYTE = 1_000_000
# What is planned on beside what was seen.
MARGIN = 1.15
# What `rt ci` and this gate call the same kinds.
PROOF, TESTS, EDITS = "crate", "tests", "edits"
KINDS = {"proof": PROOF, "tests": TESTS}

Key = tuple[str, str]
# What `rt ci` runs: what it waits for, its work, its memory, and the call.
Task = tuple[list[Any], float, float, Callable[..., Any]]


class Noted(NamedTuple):
    """What a prover took, and what `rt` guessed that it takes."""

    megabytes: int
    guess: int
    seconds: int


def read(path: str = FILE) -> dict[Key, Noted]:
    """What a file has, or nothing where it isn't there."""
    if not os.path.isfile(path):
        return {}
    with open(path, encoding="utf-8") as lines:
        rows = [line.split() for line in lines if not line.startswith("#")]
    return {(name, kind): Noted(*map(int, rest)) for name, kind, *rest in rows}


def write(seen: Mapping[Key, Noted], path: str = WRITTEN) -> None:
    """Writes a file, by crate."""
    os.makedirs(os.path.dirname(path), exist_ok=True)
    with open(path, "w", encoding="utf-8") as it:
        print("# crate, kind, megabytes, rt's guess, processor seconds", file=it)
        for (name, kind), noted in sorted(seen.items()):
            print(name, kind, *noted, file=it)


def planned(noted: Mapping[Key, Noted], key: Key, guess: float) -> float:
    """The bytes to plan on, where `rt` guesses so many."""
    found = noted.get(key)
    if not found or not found.guess:
        return guess
    return found.megabytes / found.guess * guess * MARGIN


def by_notes(
    tasks: Mapping[Key, Task], noted: Mapping[Key, Noted], lines: Mapping[str, int]
) -> dict[Key, Task]:
    """The tasks of `rt ci` with the memory that was noted, and as work the seconds that were noted in place of lines of code."""
    known = {
        key: noted[key[0], KINDS[key[1]]].seconds
        for key in tasks
        if (key[0], KINDS.get(key[1], "")) in noted
    }
    all_lines = sum(lines[name] for name, _ in known)
    each = sum(known.values()) / all_lines if all_lines else 1.0
    found = {}
    for key, (waits, work, memory, call) in tasks.items():
        kind = KINDS.get(key[1])
        if kind:
            memory = planned(noted, (key[0], kind), memory)
            work = known.get(key, work * each) if work else 0
        found[key] = waits, work, memory, call
    return found
