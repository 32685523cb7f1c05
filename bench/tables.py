#!/usr/bin/env python3
"""Times the revisioned store over tables, several builds beside each other, and takes their peak memory.

Usage: bench/tables.py SIZE.. -- BINARY..     e.g. 1000 100000 -- before/tables now/tables

`bench/build.py tables FOLDER [COMMIT]` builds the program over this tree or a commit. Each binary is called ROUNDS times (a
variable of the environment; 5 if it isn't set), the binaries in turn; a table is printed for each size: what was timed in
microseconds each, first with keys that ascend and then in no order, and the peak of the process in MiB; medians, a column a
binary.
"""
import os
import re
import statistics
import subprocess
import sys

TOLD = re.compile(r"(.+): \d+ in \d+ ns, (\d+) ns each")
ORDERS = ("keys ascend", "in no order")


def told_in(lines):
    """What was timed, by what it is and the order of keys: the program runs everything in one order, then in the other."""
    told = {}
    for line in lines:
        found = TOLD.match(line)
        if found:
            what = re.sub(r" at \d+$", "", found[1])
            turn = sum(name == what for name, _ in told)
            told[what, turn] = int(found[2]) / 1000
    half = {}
    for (what, turn), took in told.items():
        count = sum(name == what for name, _ in told)
        half.setdefault(ORDERS[turn * 2 // count], []).append((what, took))
    return {f"{what}, {order}{repeated(what, rows, i)}": took
            for order, rows in half.items() for i, (what, took) in enumerate(rows)}


def repeated(what, rows, i):
    """Pages are asked for at the newest revision first, and then at the one in the middle."""
    return ", older" if any(name == what for name, _ in rows[:i]) else ""


def once(binary, size):
    with subprocess.Popen([binary, str(size)], stdin=subprocess.DEVNULL, stdout=subprocess.DEVNULL,
                          stderr=subprocess.PIPE, text=True) as child:
        lines = child.stderr.read().splitlines()
        _, status, usage = os.wait4(child.pid, 0)
        child.returncode = os.waitstatus_to_exitcode(status)
    if child.returncode:
        sys.exit(f"{binary} {size}: status {child.returncode}")
    return {**told_in(lines), "peak memory, MiB": usage.ru_maxrss / 1024}


def run(sizes, binaries):
    rounds = int(os.environ.get("ROUNDS", "5"))
    for size in sizes:
        taken = {binary: [] for binary in binaries}
        for _ in range(rounds):
            for binary in binaries:
                taken[binary].append(once(binary, size))
        print(f"== {size} objects, medians of {rounds}: {', '.join(binaries)}")
        for what in taken[binaries[0]][0]:
            cells = [statistics.median(one[what] for one in taken[binary]) for binary in binaries]
            print(f"{what:56s}" + "".join(f"{cell:14.1f}" for cell in cells), flush=True)


def main(words):
    at = words.index("--") if "--" in words else 0
    if not words[:at] or not words[at + 1:]:
        sys.exit(__doc__)
    run([int(word) for word in words[:at]], words[at + 1:])


if __name__ == "__main__":
    main(sys.argv[1:])
