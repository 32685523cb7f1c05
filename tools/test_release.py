#!/usr/bin/env python3
"""Plants differences in a release of made-up programs and sees that each one is told. It needs no kit and nothing built.

    tools/test_release.py
"""
from __future__ import annotations

import contextlib
import io
import os
import tarfile
import tempfile
import typing
import unittest
from unittest import mock

import release
import released
from released import Manifest

KIT = "a kit"
PROGRAMS = {"ssa-replay": b"plays scripts", "ssa-server": b"serves"}


class Planted(unittest.TestCase):
    """A release of two programs of one crate each, and what is said of it once something was changed."""

    def setUp(self) -> None:
        self.top = self.entered(tempfile.TemporaryDirectory())
        for module in (release, released):
            self.entered(mock.patch.object(module, "TOP", self.top))
            self.entered(mock.patch.object(module, "PLACE", f"{self.top}/release"))
        self.entered(
            mock.patch.object(
                release, "pages", lambda: {"README.md": (b"a page", 0o644)}
            )
        )
        self.entered(mock.patch.object(release, "version", lambda: "1.2.3"))
        self.built = dict(PROGRAMS)
        self.entered(mock.patch.object(release, "built", lambda: self.built))
        self.write("tools/launcher", "starts a program")
        self.write(
            "crates.txt",
            "# two programs over a library\nlow: kit_crate\nssa_replay: low\nssa_server: low\nother:\n",
        )
        for crate, file in (
            ("low", "lib"),
            ("ssa_replay", "main"),
            ("ssa_server", "main"),
            ("other", "lib"),
        ):
            self.write(f"crates/{crate}/src/{file}.rt", crate)
        self.release_these(PROGRAMS)

    def release_these(self, programs: dict[str, bytes]) -> None:
        """Releases these programs."""
        sums = {name: released.sum_of(data) for name, data in programs.items()}
        its = Manifest(
            "1.2.3",
            KIT,
            released.sources(KIT),
            "Linux on x86-64-v2 with glibc 2.34",
            sums,
            None,
        )
        self.release, data = release.release_of(programs, its)
        self.write_bytes(self.archive(), data)

    def entered(self, context: typing.ContextManager[typing.Any]) -> typing.Any:
        """What a context gives, until the test ends."""
        value = context.__enter__()
        self.addCleanup(context.__exit__, None, None, None)
        return value

    def archive(self) -> str:
        """The archive's path from the top on."""
        assert self.release.archive
        return f"release/{self.release.archive[0]}"

    def write(self, path: str, text: str) -> None:
        """Writes a file of the made-up repository."""
        self.write_bytes(path, text.encode())

    def write_bytes(self, path: str, data: bytes) -> None:
        """Writes a file of the made-up repository."""
        released.write_whole(f"{self.top}/{path}", data, 0o644)

    def faults(self, kit: str = KIT) -> list[str]:
        """What is said of the release."""
        with contextlib.redirect_stdout(io.StringIO()):
            return release.archive_faults(self.release) + release.built_faults(
                self.release, kit
            )

    def test_a_release_of_what_was_built_is_right(self) -> None:
        self.assertEqual(self.faults(), [])

    def test_the_same_files_give_the_same_bytes(self) -> None:
        again, data = release.release_of(PROGRAMS, self.release._replace(archive=None))
        self.assertEqual(again, self.release)
        with open(f"{self.top}/{self.archive()}", "rb") as it:
            self.assertEqual(it.read(), data)

    def test_a_manifest_reads_back(self) -> None:
        self.assertEqual(released.manifest_of(self.release.text()), self.release)

    def test_another_program_that_was_built_is_told(self) -> None:
        self.built["ssa-server"] += b"!"
        self.assertEqual(
            self.faults(),
            ["ssa-server built here is another program than the released one"],
        )

    def test_a_program_that_was_not_built_is_told(self) -> None:
        del self.built["ssa-replay"]
        self.assertEqual(self.faults(), ["ssa-replay is not built here"])

    def test_a_program_that_was_not_released_is_told(self) -> None:
        self.built["ssa-more"] = b"more"
        self.assertEqual(
            self.faults(), ["ssa-more is built here, and not in release/MANIFEST"]
        )

    def test_another_version_is_told(self) -> None:
        with mock.patch.object(release, "version", lambda: "1.2.4"):
            self.assertEqual(self.faults(), ["the programs say version 1.2.4"])

    def test_other_sources_are_not_compared(self) -> None:
        self.built["ssa-server"] += b"!"
        self.write("crates/low/proofs/Lib.antt", "a lemma")
        self.assertEqual(self.faults(), [])

    def test_another_kit_is_not_compared(self) -> None:
        self.built["ssa-server"] += b"!"
        self.assertEqual(self.faults("another kit"), [])

    def test_what_the_programs_are_not_made_of_counts_for_nothing(self) -> None:
        self.write("crates/other/src/lib.rt", "changed")
        self.write("crates/low/must-fail/an.edit", "an edit")
        self.assertEqual(released.sources(KIT), self.release.sources)

    def test_a_changed_line_of_a_crate_counts(self) -> None:
        self.write("crates.txt", "low:\nssa_replay: low\nssa_server: low\nother:\n")
        self.assertNotEqual(released.sources(KIT), self.release.sources)

    def test_a_changed_archive_is_told(self) -> None:
        with open(f"{self.top}/{self.archive()}", "rb") as it:
            data = bytearray(it.read())
        data[len(data) // 2] ^= 1
        self.write_bytes(self.archive(), bytes(data))
        self.assertIn("another sum", self.faults()[0])

    def test_an_archive_that_cannot_be_read_is_told(self) -> None:
        with open(f"{self.top}/{self.archive()}", "rb") as it:
            data = it.read()
        self.write_bytes(self.archive(), data[: len(data) // 2])
        said = io.StringIO()
        with mock.patch.object(
            released, "manifest", lambda: self.release
        ), contextlib.redirect_stderr(said), self.assertRaises(SystemExit) as stopped:
            released.main(["ssa-server"])
        self.assertEqual(stopped.exception.code, released.NOTHING)
        self.assertIn("can't be unpacked", said.getvalue())

    def test_an_archive_of_another_program_is_told(self) -> None:
        _, data = release.release_of(
            {**PROGRAMS, "ssa-server": b"other"}, self.release._replace(archive=None)
        )
        self.write_bytes(self.archive(), data)
        self.assertIn(
            "ssa-server in the archive is another program than the released one",
            self.faults(),
        )

    def test_an_archive_that_lacks_a_program_is_told(self) -> None:
        _, data = release.release_of(
            {"ssa-server": b"serves"}, self.release._replace(archive=None)
        )
        self.write_bytes(self.archive(), data)
        self.assertIn("ssa-replay is not in the archive", self.faults())

    def test_an_archive_that_is_not_there_is_told(self) -> None:
        os.unlink(f"{self.top}/{self.archive()}")
        self.assertEqual(self.faults(), [f"there is no {self.archive()}"])

    def test_a_program_of_two_names(self) -> None:
        """It stands once in the archive, and is unpacked by both."""
        self.built["ssa-pipe"] = PROGRAMS["ssa-replay"]
        self.release_these(self.built)
        self.assertEqual(self.faults(), [])
        with tarfile.open(f"{self.top}/{self.archive()}") as it:
            names = [name for name in it.getnames() if "/programs/" in name]
            it.extractall(f"{self.top}/whole")
        at = "nazhuvem-1.2.3/programs"
        self.assertEqual(
            names, [f"{at}/ssa-server", f"{at}/ssa-pipe", f"{at}/ssa-replay"]
        )
        both = [f"{self.top}/whole/{at}/{name}" for name in ("ssa-pipe", "ssa-replay")]
        self.assertTrue(os.path.samefile(*both))
        for name in ("ssa-replay", "ssa-pipe"):
            folder = released.unpacked(self.release, [name])
            with open(f"{folder}/programs/{name}", "rb") as program:
                self.assertEqual(program.read(), b"plays scripts")
            self.assertTrue(os.access(f"{folder}/programs/{name}", os.X_OK))
            self.assertTrue(os.path.exists(f"{folder}/{name}"))

    def test_two_names_of_several_programs(self) -> None:
        """What was built by each name is compared with what was released by it."""
        self.built["ssa-pipe"] = b"answers lines"
        self.release_these(self.built)
        self.assertEqual(self.faults(), [])
        self.built["ssa-pipe"] = PROGRAMS["ssa-replay"]
        self.assertEqual(
            self.faults(),
            ["ssa-pipe built here is another program than the released one"],
        )

    def test_a_link_that_stands_not_behind_its_file_is_told(self) -> None:
        files = {name: (b"", 0o644) for name in ("programs/a", "page", "programs/b")}
        data = release.archive_of("it", files, {"programs/b": "programs/a"})
        self.write_bytes("it.tar.xz", data)
        with self.assertRaisesRegex(tarfile.TarError, "it/programs/b stands not"):
            list(released.members(f"{self.top}/it.tar.xz"))

    def test_where_a_program_of_two_names_is_built(self) -> None:
        crates = released.programs(released.lines_of_crates())
        wanted = {"ssa-replay": "ssa_replay", "ssa-pipe": "ssa_replay"}
        self.assertEqual(crates, {**wanted, "ssa-server": "ssa_server"})
        out = f"{self.top}/crates/ssa_replay/out"
        self.assertEqual(released.built_file("ssa-pipe"), f"{out}/ssa_pipe")
        self.assertEqual(released.built_file("ssa-replay"), f"{out}/ssa_replay")

    def test_a_program_is_unpacked_as_the_manifest_has_it(self) -> None:
        folder = released.unpacked(self.release, ["ssa-server"])
        with open(f"{folder}/programs/ssa-server", "rb") as it:
            self.assertEqual(it.read(), b"serves")
        self.assertTrue(os.path.exists(f"{folder}/ssa-server"))

    def test_another_program_is_not_unpacked(self) -> None:
        other = self.release._replace(
            programs={**self.release.programs, "ssa-server": "0" * 64}
        )
        with contextlib.redirect_stderr(io.StringIO()), self.assertRaises(
            SystemExit
        ) as stopped:
            released.unpacked(other, ["ssa-server"])
        self.assertEqual(stopped.exception.code, released.NOTHING)
        folders = [at for at, _, files in os.walk(f"{self.top}/release/out") if files]
        self.assertEqual([at for at in folders if at.endswith("/programs")], [])


if __name__ == "__main__":
    unittest.main()
