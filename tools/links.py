#!/usr/bin/env python3
"""Sees that each link of the repository's pages leads to something, and that what two of them show of a file is in it.

    tools/links.py

A link is `[words](target)`, or a `src` of HTML, outside of blocks of code. Its target is a file or a folder of the repository,
from the page's folder on, and behind a `#` the anchor of a heading there, as GitHub makes it; links with a scheme aren't looked
at. A block of README or TEN_MINUTES that names a language is the lines of a file, but for their common indent: the last file
that is linked before it. The status is 1 where something is amiss.
"""

from __future__ import annotations

import functools
import os
import re
import sys
import textwrap
from collections.abc import Iterator

import repository
from repository import TOP

QUOTING = ("README.md", "docs/TEN_MINUTES.md")
BLOCK = re.compile(r"^( *)(```+)(.*)\n((?:.*\n)*?)\1\2 *$", re.M)
CODE = re.compile(r"(`+)(?:.|\n)*?\1")
LINK = re.compile(r"\[(?:[^\[\]]|\[[^\]]*\])*\]\(([^()\s]+)\)|\bsrc=\"([^\"]+)\"")
HEADING = re.compile(r"^#+ +(.*?) *#* *$", re.M)


@functools.cache
def text_of(path: str) -> str:
    """The text of a file."""
    with open(f"{TOP}/{path}", encoding="utf-8") as it:
        return it.read()


def is_page(path: str) -> bool:
    """Whether a file is a page."""
    return path.endswith(".md")


def without_code(text: str) -> str:
    """A text whose blocks of code are empty; it has as many lines."""
    return BLOCK.sub(lambda it: "\n" * it[0].count("\n"), text)


@functools.cache
def anchors(path: str) -> frozenset[str]:
    """The anchors of a page's headings."""
    found: dict[str, int] = {}
    names = set()
    for heading in HEADING.findall(without_code(text_of(path))):
        words = re.sub(r"!?\[([^\]]*)\]\([^)]*\)", r"\1", heading).lower()
        name = re.sub(r"[^\w\- ]", "", words).replace(" ", "-")
        count = found[name] = found.get(name, -1) + 1
        names.add(f"{name}-{count}" if count else name)
    return frozenset(names)


def links(text: str) -> Iterator[tuple[int, str]]:
    """The targets of a page's links, each with the number of its line."""
    bare = CODE.sub(lambda it: re.sub(r"[^\n`]", "x", it[0]), without_code(text))
    for found in LINK.finditer(bare):
        yield bare.count("\n", 0, found.start()) + 1, found[1] or found[2]


def place_of(page: str, target: str) -> str:
    """The path in the repository that a target of a page names."""
    return os.path.normpath(os.path.join(os.path.dirname(page), target))


def fault_of(page: str, target: str, known: set[str]) -> str:
    """What is amiss with a link; nothing where it is well, or leads elsewhere."""
    if re.match(r"\w+:", target):
        return ""
    file, _, anchor = target.partition("#")
    path = place_of(page, file) if file else page
    if path not in known:
        return "there is no such file"
    if anchor and not is_page(path):
        return "an anchor of what is no page"
    return "" if not anchor or anchor in anchors(path) else "there is no such heading"


def quotes(page: str) -> Iterator[tuple[int, str, str]]:
    """The blocks of a page that name a language: the number of the line, the file that is linked before it, its text."""
    text = text_of(page)
    for block in BLOCK.finditer(text):
        if block[3]:
            before = [target for _, target in links(text[: block.start()])]
            file = place_of(page, before[-1].partition("#")[0]) if before else ""
            yield text.count("\n", 0, block.start()) + 1, file, block[4]


def is_in(lines: str, path: str) -> bool:
    """Whether these lines, with an indent, stand in a file."""
    width = len(lines.splitlines())
    has = text_of(path).splitlines(keepends=True)
    return any(
        textwrap.dedent("".join(has[at : at + width])) == textwrap.dedent(lines)
        for at in range(len(has) - width + 1)
    )


def told_of(files: list[str]) -> tuple[list[str], int]:
    """What is amiss with the pages among these files, and how many links and quotes they have."""
    known = {".", *files}
    for path in files:
        while path := os.path.dirname(path):
            known.add(path)
    told, count = [], 0
    for page in filter(is_page, files):
        for line, target in links(text_of(page)):
            count += 1
            if why := fault_of(page, target, known):
                told.append(f"{page}:{line}: {target}: {why}")
    for page in (it for it in QUOTING if it in files):
        for line, file, text in quotes(page):
            count += 1
            if file not in files or not is_in(text, file):
                told.append(f"{page}:{line}: these lines aren't in {file or 'a file'}")
    return told, count


def main() -> int:
    """Looks at all pages. Returns the exit status."""
    files = repository.files()
    told, count = told_of(files)
    pages = len(list(filter(is_page, files)))
    print(*told, f"{count} links and quotes of {pages} pages", sep="\n")
    return int(bool(told))


if __name__ == "__main__":
    if len(sys.argv) > 1:
        sys.exit(__doc__)
    sys.exit(main())
