#!/usr/bin/env python3
"""Counts instructions of several builds of ssa_replay in turn, by `valgrind --tool=callgrind`: one table, a column a build, and
the last build's share of the first one's beside what it was to be.

Usage: bench/instructions.py FOLDER..     e.g. bench/instructions.py before now; each folder has the built program ssa_replay

What one request or line takes is the difference of two plays, as bench/scripts.py says, with the C library asked to keep freed
pieces as the script ssa-replay does.
"""
import os
import re
import subprocess
import sys
import tempfile
from collections.abc import Callable

import scripts
import serving

Scripts = tuple[scripts.Script, scripts.Script]
OBJECTS = 64


def counted(program: str, folder: str, script: scripts.Script) -> int:
    """The instructions of a play."""
    types, path = os.path.join(folder, "types.json"), os.path.join(folder, "script.jsonl")
    with open(types, "w") as out:
        out.write(scripts.text_of(scripts.TYPES))
    script.write(path)
    words = ["valgrind", "--tool=callgrind", "--callgrind-out-file=/dev/null", program, "--types", types, "--script", path]
    ran = subprocess.run(words, stdout=subprocess.DEVNULL, stderr=subprocess.PIPE, text=True, check=True)
    found = re.search(r"Collected : (\d+)", ran.stderr)
    if not found:
        sys.exit(f"callgrind counted nothing: {ran.stderr[-300:]}")
    return int(found[1])


def of_one(program: str, folder: str, plays: Scripts, count: int) -> int:
    """What one of so many things takes that a script goes on with."""
    made, script = plays
    base = counted(program, folder, script.up_to(len(made.events)))
    return (counted(program, folder, script) - base) // count


def writes(method: str, fields: int, count: int) -> Scripts:
    """Applies in turn of objects that stand, or creates."""
    made = scripts.Script()
    names = [f"w{at:02d}" for at in range(OBJECTS)] if method == "PATCH" else []
    for name in names:
        made.request("PATCH", f"{scripts.WIDGETS}/{name}?fieldManager=alice", scripts.widget(name, fields, 0))
    script = made.copy()
    for turn in range(1, count + 1):
        name = names[turn % OBJECTS] if names else f"n{turn:05d}"
        target = f"{scripts.WIDGETS}/{name}" if names else scripts.WIDGETS
        script.request(method, f"{target}?fieldManager=alice", scripts.widget(name, fields, turn))
    return made, script


def of_writes(method: str, fields: int, count: int) -> Callable[[str, str], int]:
    return lambda program, folder: of_one(program, folder, writes(method, fields, count), count)


def of_gets(count: int) -> Callable[[str, str], int]:
    return lambda program, folder: of_one(program, folder, serving.requests_of("GET", 10, count, serving.store_of(0)), count)


def line_of_fifty(program: str, folder: str) -> int:
    """A line of a watch, of fifty that follow an object of 1 KB, beside a pump of no line."""
    changes = 100
    none = of_one(program, folder, serving.followed(50, changes, 0), changes)
    return (of_one(program, folder, serving.followed(50, changes), changes) - none) // 50


def rare_page(program: str, folder: str) -> int:
    """A page by a selector that finds one object in a hundred, for each object that it reads."""
    objects, count = 2000, 3
    made = serving.store_of(objects)
    script = made.copy()
    for _ in range(count):
        script.request("GET", f"{scripts.WIDGETS}?labelSelector=app%3Drare&limit=500")
    return of_one(program, folder, (made, script), count * objects)


ROWS = (
    ("an apply of 10 fields", "0.55", of_writes("PATCH", 10, 640)),
    ("an apply of 100 fields", "0.75", of_writes("PATCH", 100, 192)),
    ("an apply of 1,000 fields", "", of_writes("PATCH", 1000, 64)),
    ("a create of 10 fields", "0.5", of_writes("POST", 10, 640)),
    ("a GET of 10 fields", "", of_gets(640)),
    ("a line to 50 watchers", "0.5", line_of_fifty),
    ("an object of 1 KB that a selector passes over", "0.33", rare_page),
)


def main(folders: list[str]) -> None:
    os.environ.setdefault("GLIBC_TUNABLES", "glibc.malloc.tcache_count=2000")
    scripts.head("instructions", *folders, "share", "aim")
    with tempfile.TemporaryDirectory() as folder:
        for what, aim, count in ROWS:
            found = [count(os.path.join(it, "ssa_replay"), folder) for it in folders]
            scripts.row(what, *(f"{it:,}" for it in found), f"{found[-1] / max(1, found[0]):.2f}", aim)


if __name__ == "__main__":
    main(sys.argv[1:])
