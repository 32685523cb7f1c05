#!/usr/bin/env python3
"""Times `ssa-pipe` beside `ssa-replay` on the same requests, each on a connection of its own.

Usage: bench/piping.py [COUNT..]   (default: 1000 10000 100000; build crates/ssa_replay first by `rt run`)

The requests read one object. `ssa-pipe` is the same program, called by that name through a link. A time is the processor time
of the process (one core), the least of three plays. The script fails where `ssa-pipe` takes more than 1.2 times as long for
each of more requests as for each of fewer: a step costs what it does, and not the connections that there were.
"""
from __future__ import annotations

import os
import subprocess
import sys
import tempfile

from scripts import TYPES, WIDGETS, Script, head, program_of, request, row, text_of, widget

COUNTS = (1_000, 10_000, 100_000)
PLAYS = 3
# So many times as long as one of fewer requests one of more may take.
GROWTH = 1.2


def script_of(count: int) -> Script:
    """An object, and so many requests that read it."""
    script = Script()
    script.request("PATCH", f"{WIDGETS}/one?fieldManager=alice&force=true", widget("one", 1, 0))
    for _ in range(count):
        script.line({"gone": script.request("GET", f"{WIDGETS}/one")})
    return script


def play(words: list[str], given: str) -> tuple[float, float]:
    """The processor time of a program that reads this file, in seconds, and its peak memory, in MiB."""
    with open(given) as lines, subprocess.Popen(words, stdin=lines, stdout=subprocess.DEVNULL) as child:
        _, status, usage = os.wait4(child.pid, 0)
        child.returncode = os.waitstatus_to_exitcode(status)
    if child.returncode:
        sys.exit(f"{words[0]} ended with status {child.returncode}")
    return usage.ru_utime + usage.ru_stime, usage.ru_maxrss / 1024


def main() -> None:
    counts = [int(word) for word in sys.argv[1:]] or COUNTS
    top = os.path.dirname(os.path.dirname(os.path.abspath(__file__)))
    replay = program_of(top)
    each: list[float] = []
    with tempfile.TemporaryDirectory() as folder:
        pipe, types, lines = (f"{folder}/{name}" for name in ("ssa-pipe", "types.json", "lines.jsonl"))
        os.symlink(replay, pipe)
        with open(types, "w") as out:
            out.write(text_of(TYPES))
        head("requests", "`ssa-pipe`", "one", "peak memory", "`ssa-replay`", "one", "peak memory")
        for count in counts:
            script_of(count).write(lines)
            piped = min(play([pipe, "--types", types], lines) for _ in range(PLAYS))
            replayed = min(play([replay, "--types", types, "--script", lines], lines) for _ in range(PLAYS))
            cells = [(f"{took:.2f} s", f"{took / count * 1e6:.0f} us", f"{peak:.0f} MiB") for took, peak in (piped, replayed)]
            row(f"{count:,}", *cells[0], *cells[1])
            each.append(piped[0] / count)
    if any(more > fewer * GROWTH for fewer, more in zip(each, each[1:])):
        sys.exit("one of more requests takes longer than one of fewer")


if __name__ == "__main__":
    main()
