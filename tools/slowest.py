#!/usr/bin/env python3
"""Prints the functions and lemma files that the prover took longest over, from what checks from scratch left in out/.

    tools/slowest.py [COUNT [CRATE..]]

A check writes a file for each module that it has checked, one after another where it has one job: the time between two
files is what the later one took, on the clock. A function has several modules; functions that call one another (`+NAME`)
are one. What a later check did again is counted by that check alone, so run it after a check with out/ away.
"""
import collections
import glob
import os
import re
import sys

PARTS = "Answers Code Given Goals Hides Instances Invariants Kinds Layout Loans Lts Met Named Proof Reads Statement Tie".split()


def function_of(module):
    """Returns the function or file that a module belongs to."""
    words = module.split(".")
    while len(words) > 1 and words[-1].split("-")[0] in PARTS:
        words.pop()
    return ".".join(words)


def taken(folder, crate):
    """Returns the seconds by function of one crate."""
    files = sorted((it.stat().st_mtime, it.name) for it in os.scandir(folder) if it.name.endswith(".oantt"))
    seconds = collections.Counter()
    for (before, _), (after, name) in zip(files, files[1:]):
        of_proofs = re.fullmatch(rf"Rattle-{crate}-proofs\.(.*)\.oantt", name)
        function = function_of(of_proofs[1]) if of_proofs else "(specs, and what is below)"
        seconds[function] += after - before
    return seconds


def main():
    count = int(sys.argv[1]) if len(sys.argv) > 1 else 10
    top = os.path.join(os.path.dirname(os.path.abspath(__file__)), "..", "crates")
    rows = []
    for crate in sys.argv[2:] or sorted(os.listdir(top)):
        for folder in glob.glob(f"{top}/{crate}/out/incremental/antt-checked-*"):
            rows += [(seconds, crate, function) for function, seconds in taken(folder, crate).items()]
    print("| crate | function | seconds |\n|---|---|---|")
    for seconds, crate, function in sorted(rows, reverse=True)[:count]:
        print(f"| `{crate}` | `{function}` | {seconds:.0f} |")


if __name__ == "__main__":
    main()
