#!/usr/bin/env python3
"""Sees that the heads of the sources name modules and crates that there are.

    tools/heads.py

A head is the lines `//! ..` that a file of `crates/*/src` begins with, but for rows of tables. Of the words in backquotes these
are looked at, each where several have commas, `and` or `or` between them, and none in brackets:
- behind `in`: a module of the same crate, or a crate of crates.txt or of the kit; with a `/` in it a file or a folder of the
  repository or of the crate; with `of the crate ..` after it a module of that one;
- behind `the crate`, or before an `'s`: a crate;
- in a sentence that begins with `Stands on`: a crate that the line of crates.txt has.
The status is 1 where something is amiss.
"""

from __future__ import annotations

import os
import re
import sys
from collections.abc import Iterable, Iterator

import edges
import repository
from repository import TOP

SOURCE = re.compile(r"crates/\w+/src/.*\.rt")
NAME = re.compile(r"\([^()]*\)|`([^`]+)`")
ITEM = r"`[^`]+`(?:\s+\([^()]*\))?"
LIST = rf"({ITEM}(?:(?:,|,?\s+(?:and|or))\s+{ITEM})*)"
PLACES = re.compile(rf"\b[Ii]n\s+{LIST}(?:\s+of\s+the\s+crate\s+`(\w+)`)?")
CRATES = re.compile(rf"\bthe\s+crates?\s+{LIST}")
OWNERS = re.compile(r"(`\w+`)'")
BELOW = re.compile(r"\b(?:S|It\s+s)tands\s+on\s+([^.]*)")


def head_of(path: str) -> str:
    """The head of a source, with an empty line for each row of a table."""
    lines = []
    with open(f"{TOP}/{path}", encoding="utf-8") as source:
        for line in source:
            if not line.startswith("//!"):
                break
            words = line[3:].strip()
            lines.append("" if words.startswith("|") else words)
    return "\n".join(lines)


def crate_of(path: str) -> str:
    """The crate of a source."""
    return path.split("/")[1]


class Known:
    """What heads can name: files, and the crates of crates.txt and of the kit."""

    def __init__(self, files: Iterable[str], lines: dict[str, list[str]]) -> None:
        self.lines = lines
        self.crates = {it for name, names in lines.items() for it in (name, *names)}
        self._paths = set(files)
        for path in files:
            while path := os.path.dirname(path):
                self._paths.add(path)

    def is_module(self, name: str, path: str) -> bool:
        """Whether a module is below a source of its crate, beside it or further up."""
        folder = path.removesuffix(".rt")
        while folder.count("/") >= len("crates/NAME/src".split("/")) - 1:
            if {f"{folder}/{name}.rt", f"{folder}/{name}"} & self._paths:
                return True
            folder = os.path.dirname(folder)
        return False

    def is_file(self, name: str, crate: str) -> bool:
        """Whether a file or a folder is there, from the top on or in the crate, where definitions go without their ending."""
        path = name.rstrip("/")
        own = f"crates/{crate}/{path}"
        return bool({path, own, f"{own}.antt"} & self._paths)


def fault_of_place(name: str, other: str | None, path: str, known: Known) -> str:
    """What is amiss with a name behind `in`, maybe of another crate; nothing where it is well."""
    if other:
        is_there = known.is_module(name, f"crates/{other}/src/lib.rt")
        return "" if is_there else f"no module {name} in {other}"
    if "/" in name:
        return "" if known.is_file(name, crate_of(path)) else f"no file {name}"
    is_there = name in known.crates or known.is_module(name, path)
    return "" if is_there else f"no module or crate {name}"


def looked_at(path: str, text: str, known: Known) -> Iterator[tuple[int, str]]:
    """The names that are looked at in a source's head: where each begins, and what is amiss with it."""

    def names(found: re.Match[str]) -> Iterator[tuple[int, str]]:
        for name in NAME.finditer(found[1]):
            if name[1]:
                yield found.start(1) + name.start(), name[1]

    for found in PLACES.finditer(text):
        for at, name in names(found):
            yield at, fault_of_place(name, found[2], path, known)
    for pattern in (CRATES, OWNERS):
        for found in pattern.finditer(text):
            for at, name in names(found):
                yield at, "" if name in known.crates else f"no crate {name}"
    crate = crate_of(path)
    for found in BELOW.finditer(text):
        for at, name in names(found):
            is_named = name in known.lines.get(crate, ())
            yield at, "" if is_named else f"{crate} doesn't stand on {name}"


def told_of(files: list[str], lines: dict[str, list[str]]) -> tuple[list[str], int]:
    """What is amiss with the heads of the sources among these files, and how many names were looked at."""
    known = Known(files, lines)
    told, count = [], 0
    for path in filter(SOURCE.fullmatch, files):
        text = head_of(path)
        for at, why in sorted(looked_at(path, text, known)):
            count += 1
            if why:
                line = text.count("\n", 0, at) + 1
                told.append(f"{path}:{line}: {why}")
    return told, count


def main() -> int:
    """Looks at all heads. Returns the exit status."""
    files = repository.files()
    told, count = told_of(files, edges.lines())
    sources = len(list(filter(SOURCE.fullmatch, files)))
    print(*told, f"{count} names in the heads of {sources} sources", sep="\n")
    return int(bool(told))


if __name__ == "__main__":
    if len(sys.argv) > 1:
        sys.exit(__doc__)
    sys.exit(main())
