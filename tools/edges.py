#!/usr/bin/env python3
"""Checks that each line of crates.txt names only crates and libraries that some file of its crate names.

    tools/edges.py [--thin]

A name that no file of src/, specs/ or proofs/ has is printed, and the status is 1: each crate on a line is read before the
crate's first function. Lines of programs are left out: a program's check has to be handed the library of each type that it drops,
where nothing between them carries it. With --thin it prints instead the crates that only one file names and that nothing else on the line
stands on, each with that file: what holds a crate above another.
"""
import os
import re
import sys
from collections.abc import Iterator

TOP = os.path.dirname(os.path.dirname(os.path.realpath(__file__)))


def lines() -> dict[str, list[str]]:
    """Returns what each crate stands on, by its line."""
    with open(f"{TOP}/crates.txt", encoding="utf-8") as listed:
        parts = [line.partition("#")[0].partition(":") for line in listed]
    return {name.strip(): names.split() for name, colon, names in parts if colon}


def named_in(path: str) -> set[str]:
    """Returns the crates and libraries that a file names outside of comments, and other words that look so."""
    with open(path, encoding="utf-8") as file:
        text = re.sub(r"//.*" if path.endswith(".rt") else r"--.*", "", file.read())
    found = set(re.findall(r"\bRattle\.(\w+)", text))
    return found | set(re.findall(r"(?<![\w.:])(\w+)::", text)) if path.endswith(".rt") else found


def files_of(crate: str) -> Iterator[str]:
    """Yields each file of a crate."""
    for part in ("src", "specs", "proofs"):
        for folder, _, names in os.walk(f"{TOP}/crates/{crate}/{part}"):
            yield from (f"{folder}/{name}" for name in sorted(names))


def naming(crate: str, names: list[str]) -> dict[str, list[str]]:
    """Returns the files of a crate that name each of these crates and libraries."""
    words = {path: named_in(path) for path in files_of(crate)}
    return {name: [os.path.relpath(path, TOP) for path, named in words.items() if name in named] for name in names}


def below(crate: str, crates: dict[str, list[str]]) -> set[str]:
    """Returns the crates below one."""
    return {it for name in crates[crate] if name in crates for it in {name} | below(name, crates)}


def main() -> int:
    """Prints the names that no file has, or with --thin those that one file has."""
    crates = lines()
    found = {crate: naming(crate, names) for crate, names in crates.items()}
    if "--thin" in sys.argv:
        for crate, by_name in found.items():
            for name, files in by_name.items():
                others = (other for other in crates[crate] if other in crates and other != name)
                if name in crates and len(files) == 1 and not any(name in below(other, crates) for other in others):
                    print(f"{crate}: {name}, by {files[0]}")
        return 0
    libraries = {crate: by_name for crate, by_name in found.items() if not os.path.exists(f"{TOP}/crates/{crate}/src/main.rt")}
    idle = [f"{crate}: {name}" for crate, by_name in libraries.items() for name, files in by_name.items() if not files]
    for line in idle:
        print(f"crates.txt: no file names what its line does: {line}")
    return 1 if idle else 0


if __name__ == "__main__":
    sys.exit(main())
