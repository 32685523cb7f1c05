#!/usr/bin/env python3
"""Sees how wrong bodies of a made-up crate are tried: what is copied, under which names,
what a check of the copies has to say, and what is left for rounds. It needs no kit: its
own prover refuses each body that says `wrong`.

    tools/test_edits.py
"""
from __future__ import annotations

import os
import re
import subprocess
import tempfile
import unittest
from types import SimpleNamespace
from typing import Any

import edits
from copies import Copies, copies_of, groups_of
from functions import functions_in, read
from test_together import written

PATH = "src/shape.rt"
SHAPE = """//! Shapes.

const SIDES: usize = 4;

impl Shape {
    /// How many sides it has.
    #[inline]
    pub fn sides(&self) -> usize
        ensures { result ≡ self.now.sides }
    {
        self.sides
    }

    fn grown(
        &self,
        by: usize,
    ) -> Shape {
        Shape { sides: self.sides() + by }
    }
}

impl Drop for Shape {
    fn drop(&mut self) {
        self.forget();
    }
}

/// A square.
fn square() -> Shape
    ensures { result.sides ≡ 4 }
{
    Shape { sides: SIDES }
}

fn down(n: usize) -> usize {
    if n == 0 { 0 } else { down(n - 1) }
}

fn under(n: usize) -> usize {
    n - 1
}

#[cycle(turn)]
fn turn(n: usize) -> usize {
    turn_again(n)
}

fn last() -> usize {
    2
}
"""
SQUARE = """use Rattle.draw.proofs.Lemmas.{square}
use Rattle.draw.proofs.shape.square.Goals as goal
use Rattle.draw.proofs.shape.square-like.Goals as other
returns c = square Rattle.draw.specs.contracts.shape.square.Ensures
"""
FILES = {
    "src/lib.rt": "mod shape;\n",
    PATH: SHAPE,
    "specs/Lib.antt": "square_2 = 4\n",
    "proofs/shape/square/Answers.antt": SQUARE,
    "proofs/shape/Shape/sides/Answers.antt": "use Rattle.draw.proofs.shape.Shape.sides.Goals\n",
    "proofs/shape/+under/Answers.antt": "",
}
# Edits that copies can try, each of one body.
FIVE = ("Shape { sides: SIDES }", "Shape { sides: wrong 5 }")
SIX = ("Shape { sides: SIDES }", "Shape { sides: wrong 6 }")
MORE = ("self.sides() + by", "self.sides() + wrong")
ZERO = ("        self.sides", "        wrong")
HARMLESS = ("    2", "    1 + 1")


def edit(*texts: str, path: str = PATH) -> str:
    """The text of an edit, of old and new texts in turn."""
    rows = [f"{('new', 'old')[at % 2 == 0]}: {it}\n" for at, it in enumerate(texts)]
    return "".join([f"file: {path}\n", *rows])


class Kit:
    """Stands for the kit: a function is proved where its body doesn't say `wrong`."""

    def __init__(self) -> None:
        self.rtlib = SimpleNamespace(
            PARTS=("src", "specs", "proofs"), STALE=re.compile("Run the lower steps")
        )
        # The functions that it never proves, and what it says of one that isn't proved.
        self.stuck: set[str] = set()
        self.note = "note: {path}:{at}:5: it is not proved that {name} returns so"
        # What each check was asked for; one of the whole crate for nothing.
        self.asked: list[list[str]] = []

    def edited(self, text: str, at: str) -> tuple[dict[str, str] | None, str | None]:
        """The texts of the files that an edit changes, or why it can't be applied."""
        texts: dict[str, str] = {}
        path, old = "", ""
        for line in text.rstrip("\n").split("\n"):
            kind, _, rest = line.partition(": ")
            if kind == "file":
                path = rest
                texts.setdefault(path, read(f"{at}/{path}"))
            elif kind == "old":
                old = rest
            elif texts[path].count(old) != 1:
                return None, f"an 'old:' text is not in {path} once"
            else:
                texts[path] = texts[path].replace(old, rest)
        return texts, None

    def unread(self, line: str, _: dict[str, str]) -> bool:
        """Whether a line says that a text can't be read."""
        return "expected the end" in line

    def checked(
        self, crate: Any, texts: dict[str, str], flags: list[str], _: str | None
    ) -> subprocess.CompletedProcess[str]:
        """Checks the functions that the flags name."""
        asked = [it for word, it in zip(flags, flags[1:]) if word == "--only"]
        self.asked.append(asked)
        lines = texts.get(PATH, read(f"{crate.folder}/{PATH}")).split("\n")
        said, proved = [], 0
        for it in functions_in(PATH, lines):
            if it.name not in asked:
                continue
            name = f"draw::shape::{it.name.removeprefix('shape::')}"
            body = "\n".join(lines[it.body - 1 : it.last])
            if "wrong" in body or it.name in self.stuck:
                note = self.note.format(path=PATH, at=it.first, name=it.own_name())
                said += [f"fn {name}: not proved", note]
            else:
                said += [f"fn {name}: proved"]
                proved += 1
        said.append(f"only={len(asked)} proved={proved}\n")
        status = int(proved < len(asked))
        return subprocess.CompletedProcess([], status, "\n".join(said))

    def must_fail(self, crate: Any, path: str, *_: Any) -> tuple[bool, str]:
        """Checks the whole crate."""
        self.asked.append([])
        texts = self.edited(read(path), crate.folder)[0] or {}
        is_refused = "wrong" in "".join(texts.values())
        said = "refused, as it must be" if is_refused else "NOT REFUSED"
        return is_refused, f"must-fail draw/it.edit: {said}"


class InACrate(unittest.TestCase):
    """A crate, and a kit."""

    def setUp(self) -> None:
        room = tempfile.TemporaryDirectory()
        self.addCleanup(room.cleanup)
        self.folder = f"{room.name}/draw"
        for path, text in FILES.items():
            written(f"{self.folder}/{path}", text)
        self.kit = Kit()
        self.kept: str | None = None

    def copied(self, *texts: str) -> Copies:
        """The copies that edits make, named by their numbers."""
        edited = {}
        for number, text in enumerate(texts):
            edited[f"{number}"] = self.kit.edited(text, self.folder)[0] or {}
        return copies_of(groups_of(edited, self.folder), self.folder, "draw")

    def trials(self) -> edits.Trials:
        """Trials of edits of the crate."""
        kit: Any = self.kit
        crate = SimpleNamespace(folder=self.folder, name="draw")
        return edits.Trials(kit, crate, self.kept)

    def tried(self, *texts: str) -> list[tuple[str, str]]:
        """How edits end, in their order; `told` then says how they were tried."""
        paths = [
            f"{self.folder}/must-fail/{number}.edit" for number in range(len(texts))
        ]
        for path, text in zip(paths, texts):
            written(path, text)
        trials = self.trials()
        ends = {it.edit: it for it in trials.all_of(paths) if it.kind != edits.OPEN}
        self.told = trials.told()
        return [(ends[it].kind, ends[it].text) for it in paths]


class WhatIsCopied(InACrate):
    """Copies, their names, and their proofs."""

    def test_a_function(self) -> None:
        """Copies come after it with its comments and clauses; an edit turns its own."""
        made = self.copied(edit(*FIVE))
        text = made.texts[PATH]
        copies = [
            f"/// A square.\nfn {name}() -> Shape\n    ensures {{ result.sides ≡ 4 }}\n"
            f"{{\n    Shape {{ sides: {sides} }}\n}}\n"
            for name, sides in (
                ("square", "SIDES"),
                # (`square_2` is a word of the specs)
                ("square_3", "SIDES"),
                ("square_4", "wrong 5"),
            )
        ]
        self.assertIn("\n".join(["", *copies, "fn down"]), text)
        for it in copies[1:]:
            text = text.replace(f"{it}\n", "")
        self.assertEqual(text, SHAPE)
        (of,) = made.of
        self.assertEqual(of.function.name, "shape::square")
        self.assertEqual(of.same.name, "shape::square_3")
        self.assertEqual(of.turned["0"].name, "shape::square_4")

    def test_its_proofs(self) -> None:
        """They name a copy where they named the function's own modules."""
        made = self.copied(edit(*FIVE))
        own = "proofs/shape/square_{}/Answers.antt"
        paths = [own.format(3), own.format(4), PATH]
        self.assertEqual(sorted(made.texts), paths)
        wanted = SQUARE.replace(
            "proofs.shape.square.Goals", "proofs.shape.square_4.Goals"
        )
        wanted = wanted.replace("shape.square.Ensures", "shape.square_4.Ensures")
        self.assertEqual(made.texts[own.format(4)], wanted)
        self.assertEqual([*made.sources()], [PATH])

    def test_a_method(self) -> None:
        """Copies are in its impl; each edit has one, and all of a file have their lines."""
        less = ("self.sides() + by", "self.sides() - by")
        made = self.copied(edit(*MORE), edit(*FIVE), edit(*less), edit(*ZERO))
        lines = made.texts[PATH].split("\n")
        names = [it.name for it in functions_in(PATH, lines)]
        methods = [
            "sides",
            "sides_2",
            "sides_3",
            "grown",
            "grown_2",
            "grown_3",
            "grown_4",
        ]
        self.assertEqual(names[:7], [f"Shape::{it}" for it in methods])
        self.assertEqual(names[7], "ShapeDrop::drop")
        bodies = {
            edit: "\n".join(lines[it.first - 1 : it.last])
            for of in made.of
            for edit, it in of.turned.items()
        }
        self.assertIn("fn grown_3(\n        &self,\n", bodies["0"])
        self.assertIn("self.sides() + wrong", bodies["0"])
        self.assertIn("wrong 5", bodies["1"])
        self.assertIn("self.sides() - by", bodies["2"])
        self.assertIn("\n        wrong\n", bodies["3"])
        self.assertEqual(lines.count("    #[inline]"), 3)
        self.assertEqual(
            made.texts["proofs/shape/Shape/sides_3/Answers.antt"],
            "use Rattle.draw.proofs.shape.Shape.sides_3.Goals\n",
        )

    def test_what_is_not_copied(self) -> None:
        """Constants, clauses, signatures, specs, several functions, methods of traits, and what recurs."""
        for it in (
            edit("const SIDES: usize = 4;", "const SIDES: usize = 3;"),
            edit("    ensures { result.sides ≡ 4 }", "    ensures { result ≡ result }"),
            edit("        by: usize,", "        by: u8,"),
            edit("fn square() -> Shape", "fn square() -> Self"),
            edit("square_2 = 4", "square_2 = 3", path="specs/Lib.antt"),
            edit(*FIVE, *MORE),
            edit(*FIVE) + edit("mod shape;", "mod  shape;", path="src/lib.rt"),
            edit("self.forget();", "wrong"),
            edit("down(n - 1)", "wrong"),
            edit("    n - 1", "    wrong"),
            edit("turn_again(n)", "wrong"),
            edit("    2", "    last()"),
        ):
            self.assertEqual(self.copied(it), Copies({}, []), it)


class HowEditsEnd(InACrate):
    """What is said of edits, and by which checks."""

    def test_one_check(self) -> None:
        """Edits are refused in one check, beside their functions and copies that are proved."""
        ends = self.tried(edit(*FIVE), edit(*SIX), edit(*MORE))
        self.assertEqual([kind for kind, _ in ends], [edits.REFUSED] * 3)
        at = SHAPE.split("\n").index("fn square() -> Shape") + 1
        self.assertEqual(
            ends[1][1],
            "refused, as it must be, beside square and its copy square_3, which are proved: "
            f"note: {PATH}:{at}:5: it is not proved that square returns so",
        )
        self.assertEqual(len(self.kit.asked), 1)
        self.assertIn("shape::square", self.kit.asked[0])
        self.assertIn("shape::square_3", self.kit.asked[0])
        self.assertIn("by copies: 3, in rounds: 0", self.told)

    def test_a_control_that_is_not_proved(self) -> None:
        """Where the function or its copy isn't proved, the copies show nothing."""
        for control in ("shape::square", "shape::square_3"):
            self.kit.stuck = {control}
            ends = self.tried(edit(*FIVE), edit(*MORE))
            self.assertEqual([kind for kind, _ in ends], [edits.REFUSED] * 2)
            self.assertNotIn("beside", ends[0][1])
            self.assertIn("beside", ends[1][1])
            self.assertIn("by copies: 1, in rounds: 1", self.told)

    def test_refused_by_names(self) -> None:
        """It is told where a copy isn't proved only since a proof names what isn't there."""
        self.kit.note = "./proofs/shape/{name}/Answers.antt:1:1: error: it has no `x`"
        kind, text = self.tried(edit(*FIVE))[0]
        self.assertEqual(kind, edits.WEAKLY)
        self.assertIn("beside square and its copy square_3, which are proved", text)
        self.assertIn("proofs/shape/square/Answers.antt:1:1: error", text)

    def test_a_harmless_edit(self) -> None:
        """It is let through, once a check of its own says so, too."""
        ends = self.tried(edit(*HARMLESS), edit(*FIVE))
        self.assertEqual([it[0] for it in ends], [edits.LET_THROUGH, edits.REFUSED])
        self.assertEqual(self.kit.asked[1:], [["shape::last"], []])
        self.assertIn("by copies: 1, in rounds: 1", self.told)

    def test_edits_that_cannot_be_applied_or_read(self) -> None:
        """They are bad, and others are tried all the same."""
        ends = self.tried(edit("no such text", "wrong"), edit(*FIVE))
        self.assertEqual([it[0] for it in ends], [edits.BAD, edits.REFUSED])
        self.assertIn("BAD EDIT: an 'old:' text is not in", ends[0][1])
        os.remove(f"{self.folder}/must-fail/0.edit")
        *_, end = self.trials().all_of([f"{self.folder}/must-fail/0.edit"])
        self.assertEqual(end.kind, edits.BAD)
        self.assertIn("it cannot be read", end.text)

    def test_what_rounds_try(self) -> None:
        """What can't be copied is tried in place, edits of different functions in one check."""
        ends = self.tried(edit("self.forget();", "wrong"), edit("down(n - 1)", "wrong"))
        self.assertEqual([kind for kind, _ in ends], [edits.REFUSED] * 2)
        self.assertEqual(self.kit.asked, [["ShapeDrop::drop", "shape::down"]])
        self.assertIn("by copies: 0, in rounds: 2", self.told)

    def test_over_what_checks_kept(self) -> None:
        """Only a function that several edits turn is copied there."""
        self.kept = f"{self.folder}/kept"
        self.tried(edit(*FIVE), edit(*SIX), edit(*MORE))
        self.assertEqual(self.kit.asked[1:], [["Shape::grown"]])
        self.assertIn("by copies: 2, in rounds: 1", self.told)

    def test_copies_that_cannot_be_read(self) -> None:
        """A check of copies that reads not all says nothing of any."""
        self.kit.note = "{path}:{at}:1: error: expected the end of the text"
        self.tried(edit(*FIVE), edit(*MORE))
        self.assertIn("by copies: 0, in rounds: 2; a check gave no verdict", self.told)


if __name__ == "__main__":
    unittest.main()
