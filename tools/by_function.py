#!/usr/bin/env python3
"""Proves a crate from scratch as the gate does, and prints the processor seconds of each function.

    tools/by_function.py CRATE [--test] [COUNT]

With --test the crate with its tests. The libraries below must be built (`rt check` or `rt lib` in the crate does that). The
gate proves a crate in one process; `rt check` from scratch works in batches, each of which reads the libraries anew, so what
`tools/slowest.py` prints after it has more of that. What is read and what several functions need is counted where it comes
first: before the first function, and with the first function that needs it.
"""
import os
import re
import subprocess
import sys

sys.path.insert(0, "/opt/rattle/bin")
import rtlib  # noqa: E402

TOP = os.path.dirname(os.path.dirname(os.path.realpath(__file__)))
TICKS = os.sysconf("SC_CLK_TCK")


def seconds_of(pid):
    """Returns the processor seconds that a process took so far, or None once it has ended."""
    try:
        with open(f"/proc/{pid}/stat", encoding="ascii", errors="replace") as it:
            fields = it.read().rpartition(")")[2].split()
        return (int(fields[11]) + int(fields[12])) / TICKS
    except (OSError, IndexError):
        return None


def checked(crate, tests):
    """Yields each function that is checked, with the processor seconds until then; the last is what the prover says."""
    words = crate.words(["--jobs", "1"], tests=tests, keeps=False)
    command = [rtlib.RATTLE, "check", *words, "--progress"]
    how = {"stdout": subprocess.PIPE, "stderr": subprocess.STDOUT, "text": True, "errors": "replace"}
    with subprocess.Popen(command, cwd=crate.folder, **how) as prover:
        said = ""
        for line in prover.stdout:
            found = re.match(r"checked (\S+), \d+ of \d+", line)
            seconds = seconds_of(prover.pid)
            said = line.strip() or said
            if found and seconds is not None:
                yield found[1], seconds
    yield said, None


def main():
    words = [it for it in sys.argv[1:] if it != "--test"]
    crate = rtlib.Crate(f"{TOP}/crates/{words[0]}", TOP, {})
    count = int(words[1]) if len(words) > 1 else 20
    rows, before, first = [], None, None
    for name, seconds in checked(crate, "--test" in sys.argv):
        if seconds is None:
            print(name[:120])
        elif before is None:
            first = before = seconds
        else:
            rows.append((seconds - before, name))
            before = seconds
    print(f"{first:.0f} before and with the first function, {sum(it for it, _ in rows):.0f} with {len(rows)} more")
    print("| function | seconds |\n|---|---|")
    for seconds, name in sorted(rows, reverse=True)[:count]:
        print(f"| `{name}` | {seconds:.0f} |")


if __name__ == "__main__":
    main()
