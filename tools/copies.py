"""Copies of a crate's functions under other names, so that one check tries several wrong bodies beside the untouched ones.

Of each function that edits turn there is a copy for each edit, which has the edited body, and one that no edit turns. The
function itself stays as it is. A copy comes after it, in the same impl, has its clauses, and takes a copy of its folder of
proofs along, in which its own modules have the copy's name. Not copied are members of cycles and functions that call themselves,
methods of traits, and what edits change besides one body.
"""

from __future__ import annotations

import os
import re
from collections.abc import Iterable, Iterator
from typing import NamedTuple

from functions import HEAD, Function, functions_in, module_of, read


class Copied(NamedTuple):
    """A function, the copy that no edit turns, and the copy of each edit."""

    function: Function
    same: Function
    turned: dict[str, Function]


class Body(NamedTuple):
    """The body that an edit gives a function: all lines of the function."""

    function: Function
    lines: list[str]


class Group(NamedTuple):
    """A function, its folder of proofs, if any, and the bodies that edits give it."""

    function: Function
    proofs: str
    bodies: dict[str, list[str]]


class Copies(NamedTuple):
    """The files of a crate that differ where functions are copied, by path, and the copies."""

    texts: dict[str, str]
    of: list[Copied]

    def sources(self) -> dict[str, str]:
        """Those files that aren't proofs."""
        return {at: it for at, it in self.texts.items() if at.startswith("src/")}


def body_of(texts: dict[str, str], folder: str) -> Body | None:
    """What an edit makes of a function where it turns the body of one that can be copied, and nothing else."""
    if len(texts) != 1:
        return None
    ((path, text),) = texts.items()
    was, lines = read(f"{folder}/{path}").split("\n"), text.split("\n")
    changed = [at for at, it in enumerate(was, 1) if lines[at - 1 : at] != [it]]
    if not path.startswith("src/") or len(was) != len(lines) or not changed:
        return None
    inside = [
        it
        for it in functions_in(path, was)
        if it.has(changed[0]) and it.has(changed[-1])
    ]
    if not inside or not inside[-1].is_own or inside[-1].cycle:
        return None
    function = inside[-1]
    if not function.body < changed[0] <= changed[-1] < function.last:
        return None
    if calls_itself(function, was) or calls_itself(function, lines):
        return None
    return Body(function, lines[function.first - 1 : function.last])


def calls_itself(function: Function, lines: list[str]) -> bool:
    """Whether a function seems to call itself: a copy of it would call the original."""
    *above, name = function.name.split("::")
    owners = rf"(?:self\.|Self::|{above[-1] if above else 'crate'}::)"
    own = (
        owners
        if lines[function.first - 1].startswith(" ")
        else rf"(?<![\w.:]){owners}?"
    )
    text = "\n".join(lines[function.body - 1 : function.last])
    return bool(re.search(rf"{own}{name}\b *(?:\(|::<)", text))


def proofs_of(function: Function, folder: str) -> str | None:
    """The folder of a function's proofs in its crate, "" if it has none, or None if it can't be told or is a cycle's."""
    above, _, name = function.name.rpartition("::")
    # (a method's is that of its type's module, whichever source has the impl)
    is_method = above != module_of(function.path)
    end = "/".join(["proofs", *above.split("::")]) if above else "proofs"
    found = []
    for each, folders, _ in os.walk(f"{folder}/proofs"):
        at = os.path.relpath(each, folder)
        if at.endswith(f"/{above}") if is_method else at == end:
            found += [f"{at}/{it}" for it in folders if it in (name, f"+{name}")]
    if len(found) > 1 or any("/+" in it for it in found):
        return None
    return found[0] if found else ""


def groups_of(edited: dict[str, dict[str, str]], folder: str) -> list[Group]:
    """The functions that can be copied, with the bodies that edits give them; an edit is the texts that it changes."""
    found: dict[Function, Group] = {}
    for edit, texts in edited.items():
        body = body_of(texts, folder)
        proofs = body and proofs_of(body.function, folder)
        if body and proofs is not None:
            group = found.setdefault(body.function, Group(body.function, proofs, {}))
            group.bodies[edit] = body.lines
    return list(found.values())


def words_in(folder: str) -> set[str]:
    """All words of a crate's files and their paths, in small letters: files of modules may not differ in case alone."""
    found: set[str] = set()
    for part in ("src", "specs", "proofs"):
        for at, folders, names in os.walk(f"{folder}/{part}"):
            texts = [*folders, *names, *(read(f"{at}/{it}") for it in names)]
            found.update(
                word.lower() for text in texts for word in re.findall(r"\w+", text)
            )
    return found


def new_names(name: str, taken: set[str]) -> Iterator[str]:
    """Names for copies of a function, of which nothing else has any."""
    number = 1
    while True:
        number += 1
        if f"{name}_{number}".lower() not in taken:
            taken.add(f"{name}_{number}".lower())
            yield f"{name}_{number}"


def above_of(function: Function, lines: list[str]) -> list[str]:
    """The comments and attributes of a function."""
    first = function.first
    while lines[first - 2].strip().startswith(("///", "#[")) and first > 1:
        first -= 1
    return lines[first - 1 : function.first - 1]


def renamed(body: list[str], name: str) -> list[str]:
    """The lines of a function under another name."""
    head = HEAD.match(body[0])
    if not head:
        raise ValueError(body[0])
    return [body[0][: head.start(2)] + name + body[0][head.end(2) :], *body[1:]]


def copied_proofs(folder: str, crate: str, proofs: str, name: str) -> dict[str, str]:
    """The files of a folder of proofs for a copy of its function, which name the copy's own modules."""
    above, _, was = proofs.rpartition("/")
    within = ".".join(above.split("/")[1:])
    own = re.compile(
        rf"(\bRattle\.{crate}\.(?:proofs|specs\.contracts)\.{re.escape(within)}{'.' if within else ''})"
        rf"{was}(?![\w-])"
    )
    found = {}
    for at, _, names in os.walk(f"{folder}/{proofs}"):
        for it in names:
            path = os.path.relpath(f"{at}/{it}", f"{folder}/{proofs}")
            found[f"{above}/{name}/{path}"] = own.sub(
                rf"\g<1>{name}", read(f"{at}/{it}")
            )
    return found


def copies_of(groups: Iterable[Group], folder: str, crate: str) -> Copies:
    """Copies functions of a crate."""
    taken = words_in(folder)
    texts: dict[str, str] = {}
    named: list[tuple[Function, str, dict[str, str]]] = []
    lines: dict[str, list[str]] = {}
    for function, proofs, bodies in sorted(groups, key=lambda it: -it.function.last):
        path = function.path
        was = read(f"{folder}/{path}").split("\n")
        names = new_names(function.own_name(), taken)
        same, by_edit = next(names), {edit: next(names) for edit in bodies}
        own = was[function.first - 1 : function.last]
        added = []
        for name, body in [(same, own), *((by_edit[it], bodies[it]) for it in bodies)]:
            added += ["", *above_of(function, was), *renamed(body, name)]
            if proofs:
                texts.update(copied_proofs(folder, crate, proofs, name))
        # (from the last function of a file to its first, so that lines keep their numbers)
        lines.setdefault(path, was)[function.last : function.last] = added
        named.append((function, same, by_edit))
    at = {
        (path, it.own_name()): it
        for path, text in lines.items()
        for it in functions_in(path, text)
    }
    texts.update((path, "\n".join(text)) for path, text in lines.items())
    of = [
        Copied(
            function,
            at[function.path, same],
            {edit: at[function.path, name] for edit, name in by_edit.items()},
        )
        for function, same, by_edit in named
    ]
    return Copies(texts, of)
