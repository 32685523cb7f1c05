#!/usr/bin/env python3
"""Tests the frame in which rows are played: what is said first where something is wrong, the count, and the status.

The rows are made up, and their player answers what it is told to.
"""

from __future__ import annotations

import contextlib
import io
import os
import sys
import tempfile
import types
import unittest
from collections.abc import Iterator
from unittest import mock

import play
from programs import Programs
from rows import Example, Wrong

LONG = "".join(f"{n}," for n in range(100))
# What the player answers in place of what stands in a step.
ANSWERS = {"long": LONG, "nothing": ""}


def said(_programs: Programs, example: Example) -> Iterator[str]:
    """The player: a row `say TEXT` is answered TEXT; other words end it, or raise an error."""
    for row in example.rows:
        word, _, text = row.step.partition(" ")
        match word:
            case "say":
                yield ANSWERS.get(text, text)
            case "wrong":
                raise Wrong("no server listens")
            case "broken":
                raise ValueError("no number")
            case "end":
                return


class Played(unittest.TestCase):
    """Files in a folder whose player is `said`."""

    def setUp(self) -> None:
        """Makes the folder and the player."""
        room = tempfile.TemporaryDirectory(prefix="play-")
        self.addCleanup(room.cleanup)
        self.folder = f"{room.name}/made_up"
        os.mkdir(self.folder)
        player = types.ModuleType("players.made_up")
        player.__dict__["play"] = said
        sys.modules["players.made_up"] = player
        self.addCleanup(lambda: sys.modules.pop("players.made_up", None))

    def file(self, text: str, name: str = "some.rows") -> str:
        """The path of a file with this text."""
        path = f"{self.folder}/{name}"
        with open(path, "w", encoding="utf-8") as it:
            it.write(text)
        return path

    def run_over(self, *words: str) -> tuple[int, list[str]]:
        """The status of a call with these words, and the lines that it prints."""
        out = io.StringIO()
        with contextlib.redirect_stdout(out):
            status = play.main(words)
        return status, out.getvalue().splitlines()

    def fails(self, text: str, why: str, count: str, line: int = 4) -> list[str]:
        """A file fails: the first line names the place and says why, the last one counts. All lines are answered."""
        path = self.file(text)
        status, lines = self.run_over(path)
        self.assertEqual(lines[0], f"FAILED: {os.path.relpath(path)}:{line}: {why}")
        self.assertEqual((status, lines[-1]), (1, count))
        return lines

    def row_fails(self, row: str, why: str) -> None:
        """The only row of a file fails."""
        self.fails(f"# Some.\n\nheading\n{row}\n", why, "0 passed, 1 failed")


class WhatPasses(Played):
    """Rows that are answered as they should be."""

    def test_rows_of_several_files(self) -> None:
        """All are counted, and nothing else is said; blank lines more or less don't matter."""
        first = self.file("# Some.\n\none\nsay a => a\nsay b => b\n\ntwo\nsay c => c\n")
        more = self.file("# More.\n# Yet.\n\n\none\nsay a => a", "more.rows")
        self.assertEqual(self.run_over(first, more), (0, ["4 passed, 0 failed"]))

    def test_what_is_wanted(self) -> None:
        """It may be empty, and have arrows."""
        path = self.file(
            "# Some.\n\none\nsay nothing =>\nsay nothing => \nsay x => x\n"
        )
        self.assertEqual(self.run_over(path), (0, ["3 passed, 0 failed"]))
        self.row_fails("say a => a => b", "came `a`, wanted `a => b`")


class WhatIsMalformed(Played):
    """Files of another form than rows."""

    def malformed(self, text: str, line: int, why: str) -> None:
        """A file counts as one failure."""
        self.fails(text, why, "0 passed, 1 failed", line)

    def test_heads(self) -> None:
        """A head is needed, and an example behind it."""
        head = "the head's lines begin with `# `"
        self.malformed("one\nsay a => a\n", 1, head)
        self.malformed("# Some.\nsay a => a\n", 1, head)
        self.malformed("# Some.\n#more\n\none\nsay a => a\n", 1, head)
        self.malformed("", 1, head)
        self.malformed("# Some.\n", 1, "there is no example")

    def test_examples(self) -> None:
        """A heading and rows."""
        self.malformed(
            "# Some.\n\none\n\ntwo\nsay a => a\n", 3, "an example has no rows"
        )
        why = "a row has no ` => `: say a=>a"
        self.malformed("# Some.\n\none\nsay b => b\nsay a=>a\n", 5, why)

    def test_no_text(self) -> None:
        """A file that isn't there, and one that is no UTF-8."""
        status, lines = self.run_over(f"{self.folder}/absent.rows")
        self.assertIn("No such file or directory", lines[0])
        self.assertIn("absent.rows", lines[0])
        self.assertEqual((status, lines[-1]), (1, "0 passed, 1 failed"))
        with open(f"{self.folder}/bytes.rows", "wb") as it:
            it.write(b"# \xff\n")
        status, lines = self.run_over(f"{self.folder}/bytes.rows")
        self.assertIn("can't decode byte 0xff", lines[0])
        self.assertEqual((status, lines[-1]), (1, "0 passed, 1 failed"))

    def test_all_files_but_some(self) -> None:
        """What is left out, and what isn't served yet, isn't played unless it is named."""
        some = "# Some.\n\none\nsay a => a\n"
        self.file(some)
        path = self.file(some, "more.rows")
        with mock.patch.object(play, "TESTS", os.path.dirname(self.folder)):
            self.assertEqual(self.run_over(), (0, ["2 passed, 0 failed"]))
            alone = (0, ["1 passed, 0 failed"])
            self.assertEqual(self.run_over("--but", "made_up/more"), alone)
            with mock.patch.object(play, "NOT_SERVED", ("made_up",)):
                self.assertEqual(self.run_over(), (1, ["0 passed, 0 failed"]))
                self.assertEqual(self.run_over(path), alone)

    def test_nothing_to_play(self) -> None:
        """No file at all is no success."""
        with mock.patch.object(play, "TESTS", self.folder):
            self.assertEqual(self.run_over(), (1, ["0 passed, 0 failed"]))


class WhatDiffers(Played):
    """Answers that aren't wanted, and players that fail."""

    def test_short_answers(self) -> None:
        """Both are shown whole."""
        self.row_fails("say a => b", "came `a`, wanted `b`")
        self.row_fails("say a  => a", "came `a `, wanted `a`")
        self.row_fails("say nothing => a", "came ``, wanted `a`")

    def test_long_answers(self) -> None:
        """They are shown from before the place where they differ."""
        at = LONG.index("50,")
        wanted = f"{LONG[:at]}x{LONG[at + 1:]}"
        shown = [f"`..{it[at - 30:at + 60]}`" for it in (LONG, wanted)]
        counts = "(290 characters came, 290 are wanted)"
        why = f"at character {at + 1} came {shown[0]}, wanted {shown[1]} {counts}"
        self.row_fails(f"say long => {wanted}", why)

    def test_ends_of_long_answers(self) -> None:
        """One may be the first part of the other."""
        counts = "(290 characters came, 291 are wanted)"
        why = (
            f"at character 291 came `..{LONG[260:]}`, wanted `..{LONG[260:]}x` {counts}"
        )
        self.row_fails(f"say long => {LONG}x", why)
        counts = "(290 characters came, 289 are wanted)"
        why = f"at character 290 came `..{LONG[259:]}`, wanted `..{LONG[259:289]}` {counts}"
        self.row_fails(f"say long => {LONG[:289]}", why)

    def test_rows_behind(self) -> None:
        """They count as failed, and other examples are played."""
        text = "# Some.\n\none\nsay a => a\nsay a => b\nsay c => c\nsay d => d\n\ntwo\nsay e => e\n"
        why = "came `a`, wanted `b` (2 rows behind it aren't played)"
        lines = self.fails(text, why, "2 passed, 3 failed", 5)
        self.assertEqual(lines[1:-1], ["  row: say a", "  of: one"])

    def test_players_that_fail(self) -> None:
        """By a reason, by an error, by an answer too few."""
        self.row_fails("wrong => a", "no server listens")
        self.row_fails("broken => a", "ValueError: no number")
        self.row_fails("end => a", "no answer came")

    def test_no_player(self) -> None:
        """A folder without a module is told."""
        del sys.modules["players.made_up"]
        why = "ModuleNotFoundError: No module named 'players.made_up'"
        self.row_fails("say a => a", why)


if __name__ == "__main__":
    if set(sys.argv[1:]) & {"-h", "--help"}:
        sys.exit(__doc__)
    unittest.main(verbosity=2)
