"""Files of rows: what they look like, and how an answer is told that isn't the wanted one.

A file `tests/PLAYER/NAME.rows` begins with a head, lines that begin with `# ` and say what the file is about. Behind a blank
line come examples, with blank lines between them: a heading, and rows `STEP => WANTED`. What a step means stands in
`tests/players/PLAYER.py`, which answers it.
"""

from __future__ import annotations

from collections.abc import Iterator
from typing import NamedTuple

# How much of two texts is shown where they first differ.
AROUND = 60


class Row(NamedTuple):
    """A row, and its line from 1."""

    line: int
    step: str
    wanted: str


class Example(NamedTuple):
    """Rows that are played one after another, and the heading above them with its line."""

    path: str
    line: int
    heading: str
    rows: list[Row]


class Malformed(Exception):
    """A file that has another form than rows."""


class Wrong(Exception):
    """What came can't be an answer, and why."""


def row_of(path: str, line: int, text: str) -> Row:
    """The row in a line of a file."""
    step, arrow, wanted = text.partition(" => ")
    if not arrow and text.endswith(" =>"):
        step, arrow = text.removesuffix(" =>"), " =>"
    if not arrow:
        raise Malformed(f"{path}:{line}: a row has no ` => `: {text[:AROUND]}")
    return Row(line, step, wanted)


def blocks_of(text: str) -> Iterator[list[tuple[int, str]]]:
    """The lines of a text with their numbers, in blocks that blank lines part."""
    block: list[tuple[int, str]] = []
    for number, line in enumerate(text.split("\n"), 1):
        if line:
            block.append((number, line))
        elif block:
            yield block
            block = []
    if block:
        yield block


def examples_in(path: str, text: str) -> list[Example]:
    """The examples of a file with this text."""
    head, *blocks = [*blocks_of(text)] or [[(1, "")]]
    if not all(line.startswith("# ") for _, line in head):
        raise Malformed(f"{path}:1: the head's lines begin with `# `")
    if not blocks:
        raise Malformed(f"{path}:1: there is no example")
    found = []
    for (number, heading), *lines in blocks:
        if not lines:
            raise Malformed(f"{path}:{number}: an example has no rows")
        rows = [row_of(path, line, text) for line, text in lines]
        found.append(Example(path, number, heading, rows))
    return found


def examples_of(path: str) -> list[Example]:
    """The examples of a file."""
    with open(path, encoding="utf-8", newline="\n") as it:
        return examples_in(path, it.read())


def difference(wanted: str, came: str) -> str:
    """How what came differs from what is wanted: the whole texts, or, where they are long, from where they differ."""
    if len(wanted) <= 2 * AROUND and len(came) <= 2 * AROUND:
        return f"came `{came}`, wanted `{wanted}`"
    at = next(
        (at for at, (one, other) in enumerate(zip(wanted, came)) if one != other),
        min(len(wanted), len(came)),
    )
    first = max(at - AROUND // 2, 0)
    shown = [
        f"`{'..' if first else ''}{text[first:at + AROUND]}`" for text in (came, wanted)
    ]
    return (
        f"at character {at + 1} came {shown[0]}, wanted {shown[1]} "
        f"({len(came)} characters came, {len(wanted)} are wanted)"
    )
