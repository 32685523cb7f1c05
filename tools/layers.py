#!/usr/bin/env python3
"""Draws docs/layers.svg, the layers of crates.txt and what is proved of each, or compares it with what it draws.

    tools/layers.py            writes the picture
    tools/layers.py --check    says where it is stale; the status is then 1

Each crate stands in one box, and on nothing but crates of its own box and of the rows below: a line of crates.txt that says
otherwise ends this program with status 1.
"""

from __future__ import annotations

import dataclasses
import os
import re
import sys
import textwrap
from html import escape

import repository
from repository import TOP

PICTURE = "docs/layers.svg"
WIDTH, MARGIN, GAP, INSET = 900, 10, 8, 10
# Sizes of letters, and what a letter takes of its size at most: of words, of the crates' names.
TITLE, TEXT, NAME = 14, 13, 12
OF_WORDS, OF_NAMES = 0.56, 0.62
LINE = 18


@dataclasses.dataclass(frozen=True)
class Box:
    """A part of the repository: from which to which twelfth it reaches, over how many rows, its crates, and what of it is
    proved, tested or taken as it is."""

    title: str
    crates: tuple[str, ...]
    says: str
    span: tuple[int, int] = (0, 12)
    rows: int = 1
    kind: str = "proved"


TESTS = Box(
    "Tests",
    (),
    "Each layer by its public calls. What goes over sockets and standard output, and the packages clients/python and "
    "clients/go over ssa-pipe, are tested and not proved.",
    kind="tested",
)
KIT = Box(
    "Rattle's kit",
    (),
    "Its prover and compiler, std, and these ported crates: their clauses are taken as they are.",
    kind="taken",
)
# The rows, the highest first.
ROWS = (
    (TESTS,),
    (
        Box(
            "Programs",
            (
                "ssa_server",
                "server_program",
                "event_log",
                "ssa_replay",
                "ssa_loop",
                "scripts",
                "ssa_mirror",
                "mirror_program",
                "programs",
            ),
            "What is written for a script, for a line of it or for a mirror is what its run says.",
        ),
    ),
    (
        Box(
            "A server and a client in one run",
            ("world", "world_laws", "liveness_laws", "settling_laws"),
            "The headline: each report of the client is a state of the server's one history, with exactly its objects, and "
            "the revision never falls. A report of the current revision can come.",
        ),
    ),
    (
        Box(
            "What both ends are to each other",
            ("wire_laws", "line_laws"),
            "What one end prints, the other reads as it was meant. A watch sends each change that it asks for once and in order.",
        ),
    ),
    (
        Box(
            "Streams",
            ("polling", "serving", "observing"),
            "Over streams whose bytes are known, what comes and goes is what the hub took and wrote.",
            (0, 8),
        ),
        Box(
            "Mirror",
            ("mirroring",),
            "What comes over a connection is what its client takes.",
            (8, 12),
        ),
    ),
    (
        Box(
            "Hub",
            ("httpedge", "requests"),
            "Every byte on every connection is the specified one, in whatever pieces requests come.",
            (0, 8),
        ),
        Box(
            "Client",
            ("reflector", "summary"),
            "With any server that answers what it is asked: when it reports a revision, its objects are the server's at that revision.",
            (8, 12),
            rows=2,
        ),
    ),
    (
        Box(
            "Calls",
            ("verbs", "api_validation", "api_request", "api_types", "discovery"),
            "Each answer and each change are those of the specified machine; a refused call changes nothing.",
            (0, 8),
        ),
    ),
    (
        Box(
            "Applies",
            ("ownership", "objects", "typed", "fieldset", "schema", "pathmap"),
            "Without force no field that another manager owns changes.",
            (0, 4),
        ),
        Box(
            "Lists and watches",
            ("watchline", "lists", "answers", "params", "selector"),
            "The pages of a list, joined, are the list at its revision.",
            (4, 8),
        ),
        Box(
            "Replies, cache",
            ("decoder", "wireclient", "indexer"),
            "Bytes have one reading; an index follows its objects.",
            (8, 12),
        ),
    ),
    (
        Box(
            "Texts",
            (
                "fieldpath",
                "json_patch",
                "json_texts",
                "json_values",
                "system_metadata",
                "names",
            ),
            "The text of a path's element stands for one element.",
            (0, 4),
        ),
        Box(
            "Store",
            ("revstore", "revtable", "history"),
            "What a compaction forgets is never missed.",
            (4, 8),
        ),
        Box("Wire", ("wire",), "Where a head ends, what chunks say.", (8, 12)),
    ),
    (KIT,),
)
BELOW = "A crate stands on crates of its own box and of the rows below."
# The colours of each kind, in light and in dark: how it is filled, and its edge.
LIGHT = {
    "page": ("#ffffff", "none"),
    "words": ("#1f2328", "none"),
    "faint": ("#57606a", "none"),
    "proved": ("#eaf6ee", "#2f7d4f"),
    "tested": ("none", "#8c959f"),
    "taken": ("#eceef1", "#8c959f"),
    "chip": ("#ffffff", "#afb8c1"),
}
DARK = {
    "page": ("#0d1117", "none"),
    "words": ("#e6edf3", "none"),
    "faint": ("#9da7b3", "none"),
    "proved": ("#10271a", "#4fb477"),
    "tested": ("none", "#7d8590"),
    "taken": ("#21262d", "#7d8590"),
    "chip": ("#0d1117", "#586069"),
}
WORDS_STYLE = f"""text {{ font-family: "DejaVu Sans", Verdana, Arial, sans-serif; font-size: {TEXT}px; }}
.title {{ font-weight: bold; font-size: {TITLE}px; }}
.name {{ font-family: "DejaVu Sans Mono", Menlo, Consolas, monospace; font-size: {NAME}px; }}
.tested {{ stroke-dasharray: 5 4; }}"""


def kits() -> tuple[str, ...]:
    """What the lines of crates.txt name of the kit, its crates of SQLite as one."""
    found: set[str] = set()
    with open(f"{TOP}/crates.txt", encoding="utf-8") as lines:
        for line in lines:
            words = line.partition("#")[0].partition(":")[2].split()
            found.update(re.sub("^sqlite_.*", "sqlite", word) for word in words)
    return tuple(sorted(found - repository.crates().keys()))


def is_test(crate: str) -> bool:
    """Whether a crate has tests alone."""
    return crate.endswith("_tests") or crate == "test_rows"


def filled() -> list[list[Box]]:
    """The rows with the crates of tests and of the kit."""
    tests = tuple(filter(is_test, repository.crates()))
    named = {TESTS.title: tests, KIT.title: kits()}
    return [
        [dataclasses.replace(it, crates=named.get(it.title, it.crates)) for it in row]
        for row in ROWS
    ]


def faults(rows: list[list[Box]]) -> list[str]:
    """Where the rows aren't those of crates.txt."""
    near = repository.crates()
    places = [
        (name, at, box.title)
        for at, row in enumerate(rows)
        for box in row
        for name in (box.crates if box.kind != "taken" else ())
    ]
    stands = {name: (at, title) for name, at, title in places}
    told = [f"{name} stands in no box" for name in near if name not in stands]
    told += [f"{name} is no crate" for name in stands if name not in near]
    told += [
        f"{name} stands in two boxes"
        for name, *place in places
        if stands[name] != tuple(place)
    ]
    for name, below in near.items():
        for other in below:
            if name in stands and other in stands and stands[name] != stands[other]:
                if stands[name][0] >= stands[other][0]:
                    told.append(f"{name} stands on {other}, which isn't below it")
    return told


def wrapped(text: str, width: float) -> list[str]:
    """A sentence in lines of this width."""
    return textwrap.wrap(text, int(width / (TEXT * OF_WORDS)))


class Sheet:
    """What is drawn, from the top down."""

    def __init__(self) -> None:
        self.parts: list[str] = []

    def text(self, x: float, y: float, words: str, kind: str = "") -> None:
        """A line of words."""
        named = f"{kind} words".strip() if kind != "faint" else kind
        self.parts.append(
            f'<text x="{x:g}" y="{y:g}" class="{named}">{escape(words)}</text>'
        )

    def rect(
        self, x: float, y: float, wide: float, high: float, kind: str, round_by: int
    ) -> None:
        """A rectangle."""
        self.parts.append(
            f'<rect x="{x:g}" y="{y:g}" width="{wide:g}" height="{high:g}" rx="{round_by}" class="{kind}"/>'
        )

    def inside(self, box: Box, x: float, y: float, wide: float) -> float:
        """The words and names of a box; where they end."""
        end = x + wide - INSET
        self.text(x + INSET, y + INSET + TITLE, box.title, "title")
        right = x + INSET + len(box.title) * 8.3 + 6 + GAP
        top = float(y + INSET)
        for name in box.crates:
            takes = len(name) * NAME * OF_NAMES + 10
            if right + takes > end:
                right, top = x + INSET, top + LINE + 4
            self.rect(right, top, takes, LINE, "chip", 4)
            self.text(right + 5, top + 13, name, "name")
            right += takes + 5
        top += LINE + 2
        for line in wrapped(box.says, wide - 2 * INSET):
            top += LINE
            self.text(x + INSET, top - 2, line)
        return top + INSET - 2


def edges(box: Box) -> tuple[float, float]:
    """Where a box begins, and how wide it is."""
    part = (WIDTH - 2 * MARGIN + GAP) / 12
    return MARGIN + box.span[0] * part, (box.span[1] - box.span[0]) * part - GAP


def drawn(rows: list[list[Box]]) -> str:
    """The picture."""
    sheet, frames = Sheet(), Sheet()
    y = float(MARGIN)
    open_boxes: list[tuple[Box, float, float, int]] = []
    for at, row in enumerate(rows):
        ends = []
        for box in row:
            x, wide = edges(box)
            open_boxes.append(
                (box, y, sheet.inside(box, x, y, wide), at + box.rows - 1)
            )
        ends = [end for _, _, end, last in open_boxes if last == at]
        bottom = max(ends)
        for box, top, _, last in open_boxes:
            if last == at:
                x, wide = edges(box)
                frames.rect(x, top, wide, bottom - top, box.kind, 6)
        open_boxes = [it for it in open_boxes if it[3] != at]
        y = bottom + GAP
    y += 4
    right = float(MARGIN)
    for kind, words in (
        ("proved", "proved"),
        ("tested", "tested"),
        ("taken", "taken as it is"),
    ):
        frames.rect(right, y, 24, 14, kind, 3)
        sheet.text(right + 30, y + 12, words)
        right += 50 + len(words) * TEXT * OF_WORDS
    sheet.text(right + 6, y + 12, BELOW, "faint")
    high = y + 14 + MARGIN
    head = (
        f'<svg xmlns="http://www.w3.org/2000/svg" width="{WIDTH}" height="{high:g}" viewBox="0 0 {WIDTH} {high:g}" '
        'role="img">'
    )
    title = "<title>The layers of Nazhuvem, and what is proved of each</title>"
    note = "<!-- Drawn by tools/layers.py from crates.txt. -->"
    page = f'<rect width="{WIDTH}" height="{high:g}" class="page"/>'
    dark = f"@media (prefers-color-scheme: dark) {{\n{colours(DARK)}\n}}"
    style = f"<style>\n{WORDS_STYLE}\n{colours(LIGHT)}\n{dark}\n</style>"
    return "\n".join(
        [head, title, note, style, page, *frames.parts, *sheet.parts, "</svg>", ""]
    )


def colours(of: dict[str, tuple[str, str]]) -> str:
    """The rules of style of some colours."""
    rows = (
        f".{kind} {{ fill: {fill}; stroke: {edge}; }}"
        for kind, (fill, edge) in of.items()
    )
    return "\n".join(rows)


def is_text(path: str, text: str) -> bool:
    """Whether a file is there and has this text."""
    if not os.path.isfile(path):
        return False
    with open(path, encoding="utf-8") as it:
        return it.read() == text


def main(words: list[str]) -> int:
    """Writes the picture, or compares it. Returns the exit status."""
    if words not in ([], ["--check"]):
        sys.exit(__doc__)
    rows = filled()
    told = faults(rows)
    if not told:
        wanted, path = drawn(rows), f"{TOP}/{PICTURE}"
        if not words:
            with open(path, "w", encoding="utf-8") as it:
                it.write(wanted)
        elif not is_text(path, wanted):
            told.append(f"{PICTURE} is stale: run tools/layers.py")
    print("\n".join(told) or f"{PICTURE} shows the crates of crates.txt")
    return int(bool(told))


if __name__ == "__main__":
    sys.exit(main(sys.argv[1:]))
