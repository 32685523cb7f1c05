#!/usr/bin/env python3
"""Runs a command (by default `rt ci`) and prints what the prover took by crate, in processor minutes and by the clock.

    tools/gate_cost.py [COMMAND WORD..]

`./test` prints the same table at its end. It looks at /proc twice a second and keeps the last processor time seen of
each prover that stands below the command, so each check is counted up to half a second short. The crate itself, its
tests and its wrong bodies (which are tried in folders of their own, `rt-edit-*`) are counted apart; the clock counts the
time in which any prover of these was at work. The most memory
that one of them held is told beside it. The longest chain is that of crates, each above the one before it, whose
proofs take longest by the clock: with more processors the gate would still take as long. The command's own output goes
to standard error; the table to standard output.
"""

from __future__ import annotations

import collections
import os
import re
import subprocess
import sys
import threading
import time
from typing import NamedTuple

import repository

TICKS = os.sysconf("SC_CLK_TCK")
KINDS = ("crate", "tests", "edits")
SECONDS_BETWEEN = 0.5
# The memory of what a prover runs is looked at once in so many looks.
LOOKS_OF_MEMORY = 4
# A processor counts as idle where no look of so many has seen the chain's provers use it.
LOOKS = 6


class Process(NamedTuple):
    """What /proc says of a process."""

    parent: int
    state: str
    taken: float
    start: str


Key = tuple[str, str]


def processes() -> dict[int, Process]:
    """Each process by its number."""
    found = {}
    for name in os.listdir("/proc"):
        if name.isdigit():
            try:
                with open(
                    f"/proc/{name}/stat", encoding="ascii", errors="replace"
                ) as it:
                    words = it.read().rpartition(")")[2].split()
                taken = (int(words[11]) + int(words[12])) / TICKS
                found[int(name)] = Process(int(words[1]), words[0], taken, words[19])
            except (OSError, IndexError):
                pass
    return found


def is_below(number: int, top: int, all_of: dict[int, Process]) -> bool:
    """Whether a process is another one or was started by it, or by one that it started."""
    for _ in range(30):
        if number == top:
            return True
        if number not in all_of:
            return False
        number = all_of[number].parent
    return False


def memory_in(number: int, file: str, word: str) -> int:
    """The bytes that a file of a process in /proc says behind a word, or 0."""
    try:
        with open(f"/proc/{number}/{file}", encoding="ascii", errors="replace") as it:
            found = re.search(rf"^{word}:\s+(\d+) kB$", it.read(), re.M)
    except OSError:
        return 0
    return 1024 * int(found[1]) if found else 0


def what(number: int) -> Key | None:
    """The crate and the kind of a prover's run, or None of another process."""
    try:
        with open(f"/proc/{number}/cmdline", "rb") as it:
            words = it.read().decode(errors="replace").split("\0")
        folder = os.readlink(f"/proc/{number}/cwd")
    except OSError:
        return None
    is_prover = words and os.path.basename(words[0]) == "rattle"
    if not is_prover or "--crate-name" not in words:
        return None
    crate = words[words.index("--crate-name") + 1]
    is_edit = "rt-edit-" in folder
    kind = "edits" if is_edit else "tests" if "--test" in words else "crate"
    return crate, kind


class Watch(threading.Thread):
    """Watches the provers below a process until it is told to end."""

    def __init__(self, top: int) -> None:
        super().__init__(daemon=True)
        self.top = top
        self.began = time.time()
        self.clock: dict[Key, float] = collections.defaultdict(float)
        self.most: dict[Key, int] = collections.defaultdict(int)
        self.ended = threading.Event()
        self._taken: dict[tuple[int, str], tuple[Key, float]] = {}
        self._seen = time.time()
        self._busy: collections.deque[int] = collections.deque(maxlen=LOOKS)
        self._looks = 0
        self._below: dict[int, int] = {}

    def run(self) -> None:
        """Looks until the end."""
        while not self.ended.wait(SECONDS_BETWEEN):
            self.look()

    def look(self) -> None:
        """Takes what /proc shows."""
        all_of = processes()
        now = time.time()
        working: dict[int, Key] = {}
        busy = 0
        for number, process in all_of.items():
            # (a number is given again, and a process is rt's own until it becomes a prover)
            run = number, process.start
            key = self._taken[run][0] if run in self._taken else None
            if not key and is_below(number, self.top, all_of):
                key = what(number)
            if key and process.state != "Z":
                self._taken[run] = key, process.taken
                working[number] = key
                busy += process.state == "R" and key[1] != "edits"
        for key in set(working.values()):
            self.clock[key] += now - self._seen
        self._seen = now
        self._busy.append(busy)
        self.look_at_memory(working, all_of)

    def look_at_memory(
        self, working: dict[int, Key], all_of: dict[int, Process]
    ) -> None:
        """Notes what the provers hold: the most of each by itself, with what it runs (clang, or copies of itself) now and then."""
        self._looks += 1
        if self._looks % LOOKS_OF_MEMORY == 1:
            self._below = collections.defaultdict(int)
            for number, process in all_of.items():
                if process.parent in working:
                    held = memory_in(number, "smaps_rollup", "Pss")
                    self._below[process.parent] += held
        for number, key in working.items():
            # (a prover that another one runs is counted there)
            if all_of[number].parent not in working:
                held = memory_in(number, "status", "VmHWM")
                held += self._below.get(number, 0)
                self.most[key] = max(self.most[key], held)

    def idle(self) -> int:
        """How many processors the provers leave, but for those of wrong bodies."""
        most = max(self._busy, default=0)
        return max(len(os.sched_getaffinity(0)) - most, 0)

    def taken(self) -> dict[Key, float]:
        """The processor seconds by crate and kind."""
        found: dict[Key, float] = collections.defaultdict(float)
        for key, seconds in list(self._taken.values()):
            found[key] += seconds
        return found


def longest_chain(clock: dict[Key, float]) -> list[tuple[str, float]]:
    """The crates, lowest first, each above the one before it, whose proofs take longest by the clock, with the minutes."""
    near = repository.crates()
    chains: dict[str, list[tuple[str, float]]] = {}

    def minutes(chain: list[tuple[str, float]]) -> float:
        return sum(it for _, it in chain)

    for name, words in near.items():
        own = [(name, clock.get((name, "crate"), 0) / 60)]
        chains[name] = (
            max((chains[word] for word in words), key=minutes, default=[]) + own
        )
    for name in near:
        own = [(f"{name}'s tests", clock.get((name, "tests"), 0) / 60)]
        chains[f"{name}'s tests"] = chains[name] + own
    longest: list[tuple[str, float]] = max(chains.values(), key=minutes, default=[])
    return [row for row in longest if row[1] > 0]


def row(name: str, by: list[tuple[float, float, int]]) -> str:
    """A line of the table: of each kind the processor minutes, the minutes by the clock and the memory, if known; and the sum."""
    cells = []
    for taken, clock, most in by:
        told = f" ({clock / 60:.1f}; {most / 1e9:.1f})" if clock else ""
        cells.append(f"{taken / 60:.1f}{told}" if taken else "")
    whole = sum(taken for taken, _, _ in by) / 60
    return f"| {name} | {' | '.join(cells)} | {whole:.1f} |"


def table(watch: Watch) -> str:
    """What the provers took."""
    taken, clock = watch.taken(), watch.clock
    names = {name for name, _ in taken}
    lines = [
        "| crate | itself | its tests | its wrong bodies | in all |",
        "|---|---|---|---|---|",
    ]
    for name in sorted(names, key=lambda it: -sum(taken[it, kind] for kind in KINDS)):
        by = [
            (taken[name, kind], clock[name, kind], watch.most[name, kind])
            for kind in KINDS
        ]
        lines.append(row(f"`{name}`", by))
    sums = [(sum(taken[name, kind] for name in names), 0.0, 0) for kind in KINDS]
    lines.append(row("all", sums))
    chain = longest_chain(clock)
    told = ", ".join(f"{name} {minutes:.1f}" for name, minutes in chain)
    length = sum(minutes for _, minutes in chain)
    whole = sum(os.times()[:4]) / 60
    minutes = (time.time() - watch.began) / 60
    processors = len(os.sched_getaffinity(0))
    return "\n".join(
        [
            *lines,
            "",
            "Processor minutes, and in brackets minutes by the clock, and gigabytes.",
            f"Longest chain by the clock, {length:.1f} minutes: {told or 'none'}.",
            f"{minutes:.1f} minutes on {processors} processors; {whole:.1f} processor "
            "minutes in all, with programs and tools.",
        ]
    )


def main() -> int:
    """Runs the command and prints the table; its status is the command's."""
    with subprocess.Popen(sys.argv[1:] or ["rt", "ci"], stdout=sys.stderr) as started:
        watch = Watch(started.pid)
        watch.start()
        status = started.wait()
    watch.ended.set()
    watch.join()
    print(table(watch))
    return status


if __name__ == "__main__":
    if set(sys.argv[1:2]) & {"-h", "--help"}:
        sys.exit(__doc__)
    sys.exit(main())
