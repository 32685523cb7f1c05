#!/usr/bin/env python3
"""Tries wrong bodies: edits of a crate's sources that the prover has to refuse.

    tools/edits.py TREE CRATE KEPT EDIT..

tries edits of a crate of TREE, over its built libraries, and prints a line of JSON for each: the edit's path, how it
ended, and what is to be said; and last one that says how all were tried. `tools/more-edits` and the gate use it. KEPT is a
folder for what the checks keep between each other, or `-`: then each begins from scratch.

An edit turns a copy of its function under another name (tools/copies.py), and one check tries many: of these functions,
their copies and what they call alone (`rattle check --only`). An edit is refused where its copy isn't proved, while in this
very check the untouched function is, and one more copy of it that no edit turns. What can't be copied, or isn't refused so,
is tried in place, in rounds: edits of different functions in one check, each refused where the prover says that its own
function isn't proved. One that changes something else than a function, or of which that can't be said, is tried by a check
of the whole crate, as `rt must-fail` does.
"""

from __future__ import annotations

import copy
import fcntl
import json
import os
import re
import shutil
import signal
import subprocess
import sys
import tempfile
from collections.abc import Iterable, Iterator
from types import ModuleType
from typing import Any, NamedTuple

import repository
from copies import Copied, Group, copies_of, groups_of
from functions import Function, functions_in, read

REFUSED, WEAKLY, LET_THROUGH, BAD = (
    "refused",
    "refused by names alone",
    "let through",
    "bad",
)
# Said of an edit before it is tried by a check of its own.
OPEN = "open"
# Said of no edit, once all were tried: how.
TOLD = "told"
# In place of a folder for what checks keep, where none keeps any for another.
NOTHING = "-"
# What this program ends with where the system killed a check, most likely for memory: the edits may be tried again.
KILLED = 75
MOST_IN_A_ROUND = 16
# What a proof file says that names what an edit took away.
TOOK = re.compile(
    r"(?:\./)?proofs/.*(has no field|is not in scope|has no `|was not admitted)"
)
VERDICT = re.compile(r"fn \w+::(\S+): (proved|not proved|no proof|could not tell)")


class Tried(NamedTuple):
    """How an edit ended, and what is to be said of it."""

    edit: str
    kind: str
    text: str


Turned = dict[str, set[Function] | None]


def label(edit: str) -> str:
    """An edit as it is told: CRATE/FOLDER/NAME."""
    return "/".join(edit.split("/")[-3:])


def turned_by(edit: str, folder: str) -> set[Function] | None:
    """The functions of a crate that an edit changes; None where it changes something else, or can't be applied."""
    found: set[Function] = set()
    path, lines = "", []
    try:
        rows = read(edit).split("\n")
    except (OSError, ValueError):
        return None
    for row in rows:
        kind, _, rest = row.partition(": ")
        if kind == "file":
            path = rest.strip()
            if not path.startswith("src/") or not os.path.isfile(f"{folder}/{path}"):
                return None
            lines = read(f"{folder}/{path}").split("\n")
        elif kind == "old":
            at = next((n for n, line in enumerate(lines, 1) if rest in line), 0)
            inside = [it for it in functions_in(path, lines) if it.has(at)]
            found.update(inside[-1:] or users_of(constant_at(lines, at), folder))
            if not found:
                return None
    return found or None


def constant_at(lines: list[str], at: int) -> str:
    """The constant whose declaration has this line, or none."""
    for line in reversed(lines[max(at - 3, 0) : at]):
        found = re.match(r"(?:pub(?:\([a-z]+\))? )?const (\w+):", line)
        if found or line.endswith((";", "}")) and line != lines[at - 1]:
            return found[1] if found else ""
    return ""


def users_of(constant: str, folder: str) -> set[Function]:
    """The functions of a crate that name a constant."""
    found = set()
    for above, _, names in os.walk(f"{folder}/src") if constant else ():
        for name in names:
            path = os.path.relpath(f"{above}/{name}", folder)
            lines = read(f"{folder}/{path}").split("\n")
            for it in functions_in(path, lines):
                if re.search(
                    rf"\b{constant}\b", "\n".join(lines[it.first - 1 : it.last])
                ):
                    found.add(it)
    return found


def rounds_of(edits: Iterable[str], folder: str) -> list[list[str]]:
    """The edits in rounds: those of one round change different functions."""
    rounds: list[tuple[set[tuple[str, str]], list[str]]] = []
    for edit in edits:
        turned = turned_by(edit, folder)
        keys = {it.key() for it in turned or ()}
        fits = (
            it
            for it in rounds
            if keys and it[0] and not it[0] & keys and len(it[1]) < MOST_IN_A_ROUND
        )
        room = next(fits, None)
        if room:
            room[0].update(keys)
            room[1].append(edit)
        else:
            rounds.append((keys, [edit]))
    return [it for _, it in rounds]


def checks_of(groups: Iterable[Group]) -> list[list[Group]]:
    """The functions by check, of which each has no more edits than a round."""
    checks: list[list[Group]] = []
    for group in groups:
        count = sum(len(it.bodies) for it in checks[-1]) if checks else MOST_IN_A_ROUND
        if count + len(group.bodies) > MOST_IN_A_ROUND:
            checks.append([])
        checks[-1].append(group)
    return checks


def is_of(line: str, functions: set[Function]) -> bool:
    """Whether a line of the prover complains of one of these functions."""
    place = re.match(r"(?:note: )?(?:\./)?(src/\S+?):(\d+):\d+: ", line)
    if place and ("not proved" in line or ": error" in line):
        return any(it.path == place[1] and it.has(int(place[2])) for it in functions)
    proof = re.match(r"(?:\./)?proofs/(\S+)/[\w-]+\.antt:\d+:\d+: error", line)
    if not proof:
        return False
    folders = {it.cycle or it.name.replace("::", "/") for it in functions}
    return any(f"/{proof[1]}".endswith(f"/{folder}") for folder in folders)


def verdicts(lines: Iterable[str]) -> list[tuple[str, str]]:
    """The functions of which a check says whether they are proved, each with what it says."""
    return [(found[1], found[2]) for found in map(VERDICT.match, lines) if found]


def said_of(function: Function, lines: Iterable[str]) -> list[str]:
    """What a check says of a function: whether it is proved."""
    return [
        said
        for name, said in verdicts(lines)
        if f"::{function.name}::" in f"::{name}::"
    ]


def is_refused(function: Function, lines: Iterable[str]) -> bool:
    """Whether a check says that a function isn't proved."""
    return any(it in ("not proved", "no proof") for it in said_of(function, lines))


def refusal(edit: str, told: list[str], beside: str = "") -> list[Tried]:
    """That an edit is refused, by what the prover tells of its function, if that says it."""
    first = next((it for it in told if not TOOK.match(it)), None)
    if first is not None:
        text = f"refused, as it must be{beside}: {first[:160]}"
        return [Tried(edit, REFUSED, text)]
    if told:
        text = f"refused{beside}, but only because a proof file names what the edit took away: {told[0][:160]}"
        return [Tried(edit, WEAKLY, text)]
    return []


def refused_copies(of: Copied, lines: list[str]) -> list[Tried]:
    """The edits of a function that a check refuses in their copies, if it proves the function and the copy that no edit turns."""
    for control in (of.function, of.same):
        if {*said_of(control, lines)} != {"proved"}:
            return []
    name = of.function.own_name()
    beside = f", beside {name} and its copy {of.same.own_name()}, which are proved"
    found = []
    for edit, turned in of.turned.items():
        if is_refused(turned, lines):
            told = [of_original(it, of, turned) for it in lines if is_of(it, {turned})]
            found += refusal(edit, told, beside)
    return found


def of_original(line: str, of: Copied, turned: Function) -> str:
    """What the prover tells of a copy, as it would of the function."""

    def place(found: re.Match[str]) -> str:
        at = int(found[2])
        shift = of.function.first - turned.first if turned.has(at) else 0
        return f"{found[1]}{at + shift}"

    line = re.sub(rf"({re.escape(turned.path)}:)(\d+)", place, line)
    return re.sub(rf"\b{turned.own_name()}\b", of.function.own_name(), line)


class Trials:
    """Trials of edits of one crate, over its built libraries, and over what checks kept, where a folder for that is given."""

    def __init__(self, rt: ModuleType, crate: Any, kept: str | None) -> None:
        self.rt, self.crate, self.kept = rt, crate, kept
        # (a function that one edit turns is sooner tried in place, where no control is asked for)
        self.fewest = 2 if kept else 1
        self.by_copies = self.in_rounds = 0
        # The end of what the last check said that didn't judge its functions.
        self.no_verdict = ""
        if kept:
            os.makedirs(kept, exist_ok=True)

    def applied(self, edit: str) -> tuple[dict[str, str] | None, str | None]:
        """The texts of the files that an edit changes, or why it can't be applied."""
        found: tuple[dict[str, str] | None, str | None]
        try:
            found = self.rt.edited(read(edit), self.crate.folder)
            return found
        except (OSError, ValueError) as error:
            return None, f"it cannot be read ({error})"

    def texts_with(self, edits: Iterable[str]) -> dict[str, str] | None:
        """The texts of the files that these edits of different functions change; None where one can't be applied."""
        texts: dict[str, list[str]] = {}
        for edit in edits:
            of = self.applied(edit)[0]
            if of is None:
                return None
            for path, text in of.items():
                was = read(f"{self.crate.folder}/{path}").split("\n")
                lines = texts.setdefault(path, list(was))
                for at, line in enumerate(text.split("\n")):
                    if line != was[at]:
                        lines[at] = line
        return {path: "\n".join(lines) for path, lines in texts.items()}

    def lines_of(
        self, crate: Any, texts: dict[str, str], functions: Iterable[Function]
    ) -> list[str]:
        """What a check says of these functions and of what they call, with these texts in place of the crate's own; nothing
        where it doesn't judge them all.
        """
        only = [
            word
            for name in sorted({it.name for it in functions})
            for word in ("--only", name)
        ]
        ran = self.rt.checked(crate, texts, ["--jobs", "1", *only], self.kept)
        lines: list[str] = ran.stdout.rstrip("\n").split("\n")
        is_judged = ran.returncode in (0, 1) and lines[-1].startswith("only=")
        if (
            not is_judged
            or self.rt.rtlib.STALE.search(ran.stdout)
            or any(self.rt.unread(it, texts) for it in lines)
        ):
            self.no_verdict = lines[-1][:160]
            return []
        return lines

    def together(self, turned: Turned) -> list[Tried]:
        """Tries edits of different functions in one check; says how those ended of which that can be said."""
        texts = self.texts_with(turned)
        if texts is None or not all(turned.values()):
            return []
        every = set().union(*(it for it in turned.values() if it))
        lines = self.lines_of(self.crate, texts, every)
        found = []
        for edit, functions in turned.items():
            functions = functions or set()
            if any(is_refused(it, lines) for it in functions):
                told = [it for it in lines if is_of(it, functions)]
                if not told and len(turned) == 1:
                    told = [""]
                found += refusal(edit, told)
        return found

    def beside(self, groups: list[Group]) -> list[Tried]:
        """Tries edits in one check in which each turns a copy of its function; says which of them were refused there, while
        the function itself and one more copy of it were proved.
        """
        made = copies_of(groups, self.crate.folder, self.crate.name)
        every = [
            it for of in made.of for it in (of.function, of.same, *of.turned.values())
        ]
        with tempfile.TemporaryDirectory(prefix=f"rt-edit-{os.getpid()}-") as room:
            for part in self.rt.rtlib.PARTS:
                if os.path.isdir(f"{self.crate.folder}/{part}"):
                    shutil.copytree(f"{self.crate.folder}/{part}", f"{room}/{part}")
            for path, text in made.texts.items():
                os.makedirs(os.path.dirname(f"{room}/{path}"), exist_ok=True)
                with open(f"{room}/{path}", "w", encoding="utf-8") as it:
                    it.write(text)
            crate = copy.copy(self.crate)
            crate.folder = room
            lines = self.lines_of(crate, made.sources(), every)
        return [it for of in made.of for it in refused_copies(of, lines)]

    def alone(self, edit: str) -> Tried:
        """Tries an edit by a check of the whole crate."""
        kind, text = self.rt.must_fail(self.crate, edit, ["--jobs", "1"], self.kept)
        text = text.partition(".edit: ")[2] or text
        # (the kit 13b answers whether it was refused, and 13f how it ended)
        if kind in (
            getattr(self.rt, "REFUSED", True),
            getattr(self.rt, "AT_LIMIT", True),
        ):
            return Tried(edit, WEAKLY if "only because" in text else REFUSED, text)
        return Tried(edit, LET_THROUGH if "NOT REFUSED" in text else BAD, text)

    def one(self, edit: str, turned: set[Function] | None) -> Tried:
        """Tries one edit by itself."""
        why = self.applied(edit)[1]
        if why:
            return Tried(edit, BAD, f"BAD EDIT: {why}")
        found = self.together({edit: turned}) if turned else []
        return found[0] if found else self.alone(edit)

    def with_copies(self, edits: Iterable[str]) -> Iterator[Tried]:
        """Tries edits by copies, where that can be; those that aren't refused there are open."""
        edited = {edit: self.applied(edit)[0] for edit in edits}
        groups = groups_of(
            {edit: texts for edit, texts in edited.items() if texts}, self.crate.folder
        )
        groups = [it for it in groups if len(it.bodies) >= self.fewest]
        for some in checks_of(groups):
            found = {it.edit: it for it in self.beside(some)}
            for edit in (edit for it in some for edit in it.bodies):
                yield found.get(edit, Tried(edit, OPEN, ""))

    def all_of(self, edits: Iterable[str]) -> Iterator[Tried]:
        """Tries edits: by copies, and what is then left in rounds."""
        left = list(edits)
        for tried in self.with_copies(left[:]):
            yield tried
            if tried.kind != OPEN:
                left.remove(tried.edit)
                self.by_copies += 1
        self.in_rounds += len(left)
        for together in rounds_of(left, self.crate.folder):
            turned = {edit: turned_by(edit, self.crate.folder) for edit in together}
            found = (
                {it.edit: it for it in self.together(turned)}
                if len(together) > 1
                else {}
            )
            yield from found.values()
            for edit in together:
                if edit not in found:
                    yield Tried(edit, OPEN, "")
                    yield self.one(edit, turned[edit])

    def told(self) -> str:
        """How the edits were tried."""
        why = f"; a check gave no verdict: {self.no_verdict}" if self.no_verdict else ""
        return f"{self.crate.name}: wrong bodies tried by copies: {self.by_copies}, in rounds: {self.in_rounds}{why}"


class Killed(Exception):
    """The system killed a check."""


def watched(rt: ModuleType) -> ModuleType:
    """Has a check that the system kills tell so."""
    checked = rt.checked

    def check(*given: Any) -> subprocess.CompletedProcess[str]:
        ran: subprocess.CompletedProcess[str] = checked(*given)
        if ran.returncode == -signal.SIGKILL:
            raise Killed
        return ran

    setattr(rt, "checked", check)
    return rt


def build_missing(crate: Any, tree: str) -> None:
    """Builds the libraries below a crate that aren't there: a kit may have taken the proof of one from an earlier run."""
    with open(f"{tree}/.git/edits.lock", "w", encoding="ascii") as held:
        fcntl.flock(held, fcntl.LOCK_EX)
        missing = [it for it in crate.below() if not os.path.isdir(it.rlib)]
        if any(it.build_rlib(["--jobs", "1"], anew=False) for it in missing):
            repository.stop(f"a library below {crate.name} is not proved")


def main(words: list[str]) -> int:
    """Tries the edits that the words name."""
    tree, name, kept, *edits = words
    rt = watched(repository.kit())
    crate = rt.Crate(f"{tree}/crates/{name}", tree, {})
    build_missing(crate, tree)
    trials = Trials(rt, crate, None if kept == NOTHING else kept)
    try:
        for tried in trials.all_of(edits):
            print(json.dumps(tried), flush=True)
    except Killed:
        return KILLED
    print(json.dumps(Tried("", TOLD, trials.told())), flush=True)
    return 0


if __name__ == "__main__":
    sys.exit(main(sys.argv[1:]))
