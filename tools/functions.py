"""The functions of a crate's sources, found in the layout of `rt fmt`."""

from __future__ import annotations

import re
from typing import NamedTuple

HEAD = re.compile(r"( *)(?:pub(?:\([a-z]+\))? )?(?:const )?(?:unsafe )?fn (\w+)")


class Function(NamedTuple):
    """A function of a source: the end of its name as the prover prints it, its lines from 1, that in which its body begins,
    its cycle, if any, and whether it is free or a method of its type's own impl, where a copy may have another name.
    """

    path: str
    name: str
    first: int
    body: int
    last: int
    cycle: str
    is_own: bool

    def key(self) -> tuple[str, str]:
        """What two edits of one check may not both change."""
        return ("", self.cycle) if self.cycle else (self.path, self.name)

    def has(self, line: int) -> bool:
        """Whether a line is one of its lines."""
        return self.first <= line <= self.last

    def own_name(self) -> str:
        """Its name without that of its module or type."""
        return self.name.split("::")[-1]


def read(path: str) -> str:
    """The text of a file."""
    with open(path, encoding="utf-8") as it:
        return it.read()


def joined(text: str) -> str:
    """A type or a trait as the prover writes it in the name of an impl: its words, each with a capital."""
    words = re.findall(r"(?<!')\b[A-Za-z_]\w*(?!\w|::)", text)
    return "".join(word[0].upper() + word[1:] for word in words)


def owner_of(line: str) -> tuple[str, bool] | None:
    """The name of the impl or trait that a line begins, and whether it is a type's own impl; or None."""
    found = re.match(
        r"(?:pub )?(impl|trait)(?:<[^{]*?>)? (?:([^{]+?) for )?([^{]+?)(?: where .*)?(?: \{|$)",
        line,
    )
    if not found:
        return None
    if found[2]:
        return joined(found[3]) + joined(found[2]), False
    is_own = found[1] == "impl" and line.endswith(" {")
    return re.split(r"\W", found[3].strip())[0], is_own


def module_of(path: str) -> str:
    """The module of a source; none is the crate's own."""
    module = "::".join(re.sub(r"^src/|\.rt$", "", path).split("/"))
    return "" if module in ("lib", "main") else module


def functions_in(path: str, lines: list[str]) -> list[Function]:
    """Each function of a source that has a body."""
    module = module_of(path)
    found, owner, is_own, cycle = [], "", True, ""
    for first, line in enumerate(lines, 1):
        if line == "}":
            owner, is_own = "", True
        owner, is_own = owner_of(line) or (owner, is_own)
        marked = re.search(r"#\[cycle\((\w+)\)\]", line)
        cycle = f"+{marked[1]}" if marked else cycle
        head = HEAD.match(line)
        if not head:
            continue
        if not line.endswith(";"):
            name = f"{owner or module}::{head[2]}".removeprefix("::")
            is_outer = len(head[1]) == (4 if owner else 0)
            body, last = extent(lines, first, head[1])
            found.append(
                Function(path, name, first, body, last, cycle, is_own and is_outer)
            )
        cycle = ""
    return found


def extent(lines: list[str], first: int, margin: str) -> tuple[int, int]:
    """The lines in which the body of a function begins and ends, whose first line is this one."""
    if lines[first - 1].endswith("}"):
        return first, first
    body = 0
    for at in range(first, len(lines) + 1):
        line = lines[at - 1]
        is_outer = line.startswith(margin) and line[len(margin) :][:1] not in ("", " ")
        if is_outer and not body and line.endswith("{"):
            body = at
        if line == margin + "}":
            return body or first, at
    return first, first
