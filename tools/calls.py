#!/usr/bin/env python3
"""Sees that each public call of the libraries, and each of their refusals, is shown somewhere: the lines of `tests/calls.txt`.

    tools/calls.py            says which has no line, which line names what isn't there, and which place doesn't show it
    tools/calls.py --write    writes the list: lines that are right stay, and others are found where they can be, by the words
                              that stand behind them or else by what they name
    tools/calls.py --through  prints the calls that are shown by the libraries' own calls alone

A line is `CRATE::function: PLACE`, `CRATE::Type::function: PLACE`, `CRATE::Fault::Variant: PLACE`, or `` `STATUS MESSAGE`: PLACE``.
PLACE is a file of tests in Rattle that makes the call, or has the refusal's name or its words; a file of rows that is played, a
stored run (`crates/*/runs/*/stdout`) or a test of the programs (`tools/*_test.py`), whose answers need the call, or have the
refusal's name or its words; or, of a call that is there for the libraries themselves, a source file of one that makes it: it is
shown where that one's own calls are. Behind `PLACE: ` may stand other words that are looked for there instead, and behind `not
shown: ` why nothing can show it.

The calls are the public functions of `docs/generated/contracts` that have a contract, but for laws, which answer nothing and
change nothing, and for what a trait only declares. The refusals are the variants of the public faults that a public function
can answer, of those named `Refusal`, and of the enums that these carry, but for those that carry another fault (they are shown
where that is) and for `Memory` and `Store`, which `failing_memory.py` brings about; and the replies of
`docs/generated/REFUSALS.md` whose message has words of its own.
"""

from __future__ import annotations

import functools
import glob
import os
import re
import sys
from collections.abc import Iterator, Sequence
from typing import NamedTuple

import pages

LIST = "tests/calls.txt"
# Words of fewer characters don't tell a refusal from other texts.
LEAST = 6
# What only memory brings about, or the table's bounds.
OF_MEMORY = ("Memory", "Store")
HEAD = """\
# Where each public call of the libraries is made, and where each refusal is shown; `tools/calls.py` says what may stand here,
# compares it with the sources, and adds what it can find (`--write`).
"""


class Shown(NamedTuple):
    """What has to be shown: its name, its crate, a pattern that its place has, and what else a test names, best first."""

    name: str
    crate: str
    pattern: str
    beside: tuple[str, ...]
    is_call: bool


def head_of(function: pages.Function) -> str:
    """A function's head without its clauses."""
    return re.split(r"^\s*(?:ensures|requires|where)\b", function.contract, flags=re.M)[
        0
    ]


def is_law(function: pages.Function) -> bool:
    """Whether a function answers nothing and changes nothing."""
    head = head_of(function)
    return "->" not in head and "&mut" not in head


def is_method(function: pages.Function) -> bool:
    """Whether a function is called behind a value and a dot."""
    return bool(re.search(r"\(\s*(?:&(?:'\w+ )?)?(?:mut )?self\b", head_of(function)))


def call_of(crate: str, function: pages.Function) -> Shown:
    """What has to be shown of a function."""
    kinds, owner = r"(?:::<[^>]*>)?", re.escape(function.owner)
    if is_method(function):
        pattern = rf"(?:\.|\b{owner}{kinds}::){function.name}{kinds}\("
    elif owner:
        pattern = rf"\b{owner}{kinds}::{function.name}\b"
    else:
        pattern = rf"(?<!fn )(?<![.\w]){function.name}{kinds}\("
    beside = (rf"\b{owner}\b",) if owner else ()
    name = f"{crate}::{pages.called(function)}"
    return Shown(name, crate, pattern, (*beside, rf"\b{crate}::"), True)


def calls_of(crate: str) -> Iterator[Shown]:
    """The calls of a crate."""
    for it in pages.exported(crate):
        has_body = not it.contract.rstrip().endswith(";")
        if "ensures" in it.contract and has_body and not is_law(it):
            yield call_of(crate, it)


class Enum(NamedTuple):
    """A public enum: the crate and the file that it stands in, its name, and the lines of its variants."""

    crate: str
    path: str
    name: str
    body: str


@functools.lru_cache(maxsize=None)
def enums() -> list[Enum]:
    """The public enums, in the order of the crates."""
    form = re.compile(r"^pub enum (\w+)(?:<[^>]*>)? \{\n(.*?)^\}", re.M | re.S)
    return [
        Enum(crate, path, name, body)
        for crate in pages.crates()
        for path in pages.files(crate, "src/**/*.rt")
        for name, body in form.findall(pages.text_of(path))
    ]


def enum_of(name: str, crate: str) -> Enum | None:
    """The enum of this name that a crate has or stands on."""
    found = [it for it in enums() if it.name == name and crate in users_of(it.crate)]
    own = [it for it in found if it.crate == crate]
    return next(iter([*own, *found]), None)


def variants_of(body: str) -> Iterator[tuple[str, str, str]]:
    """The variants of an enum's lines: name, what it carries, and its words where they stand above it."""
    words = ""
    for line in body.split("\n"):
        told = re.search(r'#\[error\("((?:[^"\\]|\\.)*)"', line)
        words = told[1] if told else words
        found = re.match(r"    (\w+)(.*)", line)
        if found:
            yield found[1], found[2], words
            words = ""


def answered() -> Iterator[Enum]:
    """The faults that public functions answer, and those named `Refusal`."""
    fault = re.compile(r"-> .*Result<.*,\s*(?:\w+::)*(\w+)(?:<[^>]*>)?,?\s*>", re.S)
    for crate in pages.crates():
        for it in pages.exported(crate):
            found = fault.search(head_of(it))
            enum = enum_of(found[1], crate) if found else None
            if enum:
                yield enum
    yield from (it for it in enums() if it.name == "Refusal")


def carried(variant: str, crate: str) -> list[Enum]:
    """The enums that a variant carries."""
    found = [enum_of(it, crate) for it in re.findall(r"[A-Z]\w+", variant)]
    return [it for it in found if it]


def faults() -> list[Enum]:
    """The faults that are answered, and the enums that these carry, in the order of the crates."""
    left, found = set(answered()), set[Enum]()
    while left:
        it = left.pop()
        found.add(it)
        for _, rest, _ in variants_of(it.body):
            left |= set(carried(rest, it.crate)) - found
    return [it for it in enums() if it in found]


def words_of(it: Enum, variant: str, words: str) -> str:
    """The longest piece of a variant's words that is the same in each, if there are words."""
    arm = rf"\b(?:{it.name}|Self)::{variant}\b[^\n]*=>\s*(?:\{{\s*)?"
    said = rf'{arm}(?:f\.write_str\(|write!\(f, )?(?:"([^"]*)"|([A-Z_]+)\b)'
    found = None if words else re.search(said, pages.text_of(it.path))
    if found:
        words = found[1] or pages.value_of(found[2], it.path) or ""
    return max(re.split(r"\{[^}]*\}|\\.", words), key=len).strip()


def refusals_of(it: Enum) -> Iterator[Shown]:
    """The refusals of a fault that don't carry another."""
    for variant, rest, words in variants_of(it.body):
        if variant in OF_MEMORY or carried(rest, it.crate):
            continue
        said = words_of(it, variant, words)
        as_words = " ".join(re.findall(r"[A-Z][a-z0-9]*", variant))
        pattern = rf'\b{it.name}::{variant}\b|(?: => |Err\().*\b{variant}\b|"{variant}"'
        pattern += rf"|(?i:\b{as_words})" if " " in as_words else ""
        pattern += rf"|{re.escape(said)}" if len(said) >= LEAST else ""
        name, beside = f"{it.crate}::{it.name}::{variant}", (rf"\b{it.name}\b", "")
        yield Shown(name, it.crate, pattern, beside, False)


def replies() -> Iterator[Shown]:
    """The replies that refuse a request."""
    for line in pages.refusals():
        row = re.match(r"\| (\d+) \| \w+ \| `(.*)` \| (\w+)/", line)
        pieces = [it.strip() for it in re.split(r"\{[^}]*\}", row[2])] if row else []
        pieces = [re.escape(it) for it in pieces if len(it) >= LEAST]
        if row and pieces:
            name = f"`{row[1]} {row[2]}`"
            yield Shown(name, row[3], ".*".join(pieces), ("",), False)


def all_shown() -> list[Shown]:
    """All that has to be shown: calls, and then refusals."""
    calls = [it for crate in pages.crates() for it in calls_of(crate)]
    refusals = [it for fault in faults() for it in refusals_of(fault)]
    return [*{it.name: it for it in [*calls, *refusals, *replies()]}.values()]


@functools.lru_cache(maxsize=None)
def users_of(crate: str) -> list[str]:
    """The crates that stand on a crate, and itself, last."""
    lines = re.findall(
        r"^(\w+):([^\n#]*)", pages.text_of(f"{pages.TOP}/crates.txt"), re.M
    )
    return [*(name for name, names in lines if crate in names.split()), crate]


def kind_of(place: str) -> str:
    """Whether a place is a file of `tests`, of `rows` that are played, of stored `runs`, of tests of `programs`, or of
    `sources`; `not shown`, or else nothing."""
    parts = place.split("/")
    if place == "not shown":
        return place
    if not os.path.isfile(f"{pages.TOP}/{place}"):
        return ""
    if parts[0] == "tools" and place.endswith("_test.py"):
        return "programs"
    if parts[0] == "crates" and parts[2] == "runs" and parts[-1] == "stdout":
        return "runs"
    if parts[0] == "tests" and len(parts) == 3 and place.endswith(".rows"):
        player = f"{pages.TOP}/tests/players/{parts[1]}.py"
        return "rows" if os.path.isfile(player) else ""
    if parts[0] == "crates" and parts[2] == "src" and place.endswith(".rt"):
        return "tests" if pages.TESTS.search(parts[1]) else "sources"
    return ""


def shows(where: str, it: Shown) -> bool:
    """Whether a place shows it, with the words that stand behind it."""
    place, _, words = where.partition(": ")
    kind = kind_of(place)
    if kind == "not shown":
        return bool(words)
    if not kind or kind == "sources" and not it.is_call:
        return False
    if kind == "sources" and place.split("/")[1] not in users_of(it.crate):
        return False
    text = pages.text_of(f"{pages.TOP}/{place}")
    if words or it.is_call and kind in ("rows", "runs", "programs"):
        return words in text
    if kind == "tests" and not any(re.search(word, text) for word in it.beside):
        return False
    return bool(re.search(it.pattern, text))


@functools.lru_cache(maxsize=None)
def sources_of(crate: str) -> list[str]:
    """The source files of a crate."""
    return [os.path.relpath(it, pages.TOP) for it in pages.files(crate, "src/**/*.rt")]


def of_tests() -> Iterator[str]:
    """The files that are played or run over programs, and those of tests in Rattle; rows first."""
    folders = ("tests/*/*.rows", "crates/*/src/**/*.rt", "crates/*/runs/*/stdout")
    for folder in (*folders, "tools/*_test.py"):
        for path in sorted(glob.glob(f"{pages.TOP}/{folder}", recursive=True)):
            place = os.path.relpath(path, pages.TOP)
            if kind_of(place) not in ("", "sources"):
                yield place


def places(it: Shown) -> Iterator[list[str]]:
    """The files that may show it, best first: tests, for a refusal rows, for a call the libraries' sources."""
    users = users_of(it.crate)
    tests = [name for name in users if pages.TESTS.search(name)]
    yield [path for name in tests for path in sources_of(name)]
    if it.is_call:
        others = [name for name in users if name not in tests]
        yield [path for name in others for path in sources_of(name)]
    else:
        yield [*of_tests()]


def with_words(words: str) -> str:
    """A file of tests or of rows that has these words, with them, if there is one."""
    for place in of_tests():
        if words in pages.text_of(f"{pages.TOP}/{place}"):
            return f"{place}: {words}"
    return ""


def found_for(it: Shown) -> str:
    """A place that shows it, if one can be found: one that names its type rather than one that names its crate alone."""
    for some in places(it):
        texts = {place: pages.text_of(f"{pages.TOP}/{place}") for place in some}
        good = [
            place
            for place, text in texts.items()
            if shows(place, it) and re.search(it.pattern, text)
        ]
        for word in (*it.beside, ""):
            for place in good:
                if re.search(word, texts[place]):
                    return place
    return ""


def listed() -> dict[str, str]:
    """The lines of the list: places by names."""
    path = f"{pages.TOP}/{LIST}"
    if not os.path.isfile(path):
        return {}
    with open(path, encoding="utf-8") as it:
        lines = [re.match(r"(`[^`]*`|[^#\s]\S*): (.*)", line) for line in it]
    return {line[1]: line[2] for line in lines if line}


def faulty(lines: dict[str, str]) -> list[str]:
    """What is to be said of a list."""
    wanted = {it.name: it for it in all_shown()}
    told = [
        f"{name}: there is no such call or refusal"
        for name in lines
        if name not in wanted
    ]
    for name, it in wanted.items():
        if name not in lines:
            told.append(f"{name}: it has no line, and no test calls it or shows it")
        elif not kind_of(lines[name].partition(": ")[0]):
            told.append(f"{name}: {lines[name]} is no file of tests, rows or sources")
        elif not shows(lines[name], it):
            told.append(f"{name}: {lines[name]} doesn't show it")
    return told


def written(lines: dict[str, str]) -> dict[str, str]:
    """The list with all that can be found. A place in sources gives way to one in tests."""
    found = {}
    for it in all_shown():
        place = lines.get(it.name, "")
        words = place.partition(": ")[2]
        if words and not shows(place, it):
            place = with_words(words)
        elif not shows(place, it) or kind_of(place) == "sources":
            place = found_for(it) or place
        if place and shows(place, it):
            found[it.name] = place
    return found


def counted(lines: dict[str, str]) -> str:
    """How many lines there are, by the kind of their place."""
    kinds = [kind_of(place.partition(": ")[0]) for place in lines.values()]
    return (
        f"{len(lines)} calls and refusals: {kinds.count('tests')} in tests, {kinds.count('rows')} in rows, "
        f"{kinds.count('runs')} in stored runs, {kinds.count('programs')} in tests of programs, "
        f"{kinds.count('sources')} by the libraries' own calls, {kinds.count('not shown')} not shown"
    )


def main(words: Sequence[str]) -> int:
    """Compares the list with the sources, writes it, or prints a part of it."""
    lines = listed()
    if "--write" in words:
        lines = written(lines)
        with open(f"{pages.TOP}/{LIST}", "w", encoding="utf-8") as it:
            it.write(HEAD + "".join(f"{name}: {lines[name]}\n" for name in lines))
    if "--through" in words:
        through = [name for name, place in lines.items() if kind_of(place) == "sources"]
        print("\n".join(through))
        return 0
    told = faulty(lines)
    for line in told:
        print(f"{LIST}: {line}")
    print(counted(lines))
    return int(bool(told))


if __name__ == "__main__":
    sys.exit(main(sys.argv[1:]))
