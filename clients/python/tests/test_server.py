"""A server on a port, and where programs are found."""

from __future__ import annotations

import json
import os
import shutil
import socket
import stat
import tempfile
import unittest
import urllib.request
from pathlib import Path
from unittest import mock

from nazhuvem import Hub, ProgramNotFound, Server, ServerFailed, find, programs
from nazhuvem.programs import _of_repository
from tests.common import TYPES


class ServerTest(unittest.TestCase):
    """A server is started and ended."""

    def test_starts_and_ends(self) -> None:
        with Server(TYPES) as server:
            url = server.url + "/apis/demo.example/v1/widgets"
            opener = urllib.request.build_opener(urllib.request.ProxyHandler({}))
            with opener.open(url, timeout=30) as reply:
                self.assertEqual(json.load(reply)["items"], [])
        with self.assertRaises(OSError):
            opener.open(url, timeout=30)

    def test_what_it_says_is_told(self) -> None:
        with self.assertRaisesRegex(ServerFailed, "types file"):
            Server({"types": 1})

    def test_what_it_logs_is_taken(self) -> None:
        for words in ((), ("--log",)):
            with Server(TYPES, *words) as server:
                self.ask(server, 3000)
            self.assertEqual(server.log.count("GET /none 404"), 3000)
            self.assertEqual(server.log_since(server.said - 1).count("\n"), 1)

    def ask(self, server: Server, count: int) -> None:
        """So many requests to a path that isn't there."""
        for _ in range(count):
            with socket.create_connection(("127.0.0.1", server.port), 30) as it:
                it.sendall(b"GET /none HTTP/1.1\r\nHost: a\r\n\r\n")
                while it.recv(4096):
                    pass

    def test_options(self) -> None:
        with Server(TYPES, log=False, keep=3) as server:
            self.ask(server, 1)
        self.assertEqual(server.log, "")
        with self.assertRaisesRegex(ServerFailed, "--keep"):
            Server(TYPES, keep=1 << 80)
        with self.assertRaisesRegex(ServerFailed, "--disturb: a seed"):
            Server(TYPES, disturb="7:all")

    def test_clients_find_the_types(self) -> None:
        with Server(TYPES) as server:
            opener = urllib.request.build_opener(urllib.request.ProxyHandler({}))
            with opener.open(server.url + "/apis", timeout=30) as reply:
                self.assertEqual(json.load(reply)["groups"][0]["name"], "demo.example")
        with Hub(TYPES) as hub:
            self.assertEqual(hub.request("GET", "/version").status, 200)
        with Hub(TYPES, discovery=False) as hub:
            self.assertEqual(hub.request("GET", "/version", check=False).status, 404)


class ProgramTest(unittest.TestCase):
    """The folders in which programs are looked for."""

    def test_a_named_folder_without_it(self) -> None:
        with tempfile.TemporaryDirectory() as folder:
            with mock.patch.dict(os.environ, {"NAZHUVEM_BIN": folder}):
                with self.assertRaisesRegex(
                    ProgramNotFound, f"NAZHUVEM_BIN is {folder}"
                ):
                    Hub(TYPES)

    def test_a_release_has_it_at_its_top(self) -> None:
        with tempfile.TemporaryDirectory() as folder:
            program = Path(folder) / "ssa-pipe"
            for path in (program, Path(folder) / "MANIFEST"):
                path.write_text("#!/bin/sh\n")
            program.chmod(program.stat().st_mode | stat.S_IXUSR)
            self.assertEqual(programs._of_repository(Path(folder), "ssa-pipe"), program)

    def test_the_named_folder_is_first(self) -> None:
        with tempfile.TemporaryDirectory() as folder:
            program = Path(folder) / "ssa-pipe"
            program.write_text("#!/bin/sh\n")
            program.chmod(program.stat().st_mode | stat.S_IXUSR)
            with mock.patch.dict(os.environ, {"NAZHUVEM_BIN": folder}):
                self.assertEqual(find("ssa-pipe"), str(program))

    def test_the_built_pipe_is_called_by_its_name(self) -> None:
        with tempfile.TemporaryDirectory() as folder:
            top = Path(folder)
            built = top / "crates" / "ssa_replay" / "out" / "ssa_replay"
            built.parent.mkdir(parents=True)
            built.write_text("#!/bin/sh\n")
            built.chmod(0o755)
            self.assertEqual(_of_repository(top, "ssa-replay"), built)
            # Where there is no link, or that of another build, a script makes it.
            pipe = built.with_name("ssa_pipe")
            self.assertEqual(_of_repository(top, "ssa-pipe"), top / "ssa-pipe")
            shutil.copy2(built, pipe)
            self.assertEqual(_of_repository(top, "ssa-pipe"), top / "ssa-pipe")
            pipe.unlink()
            os.link(built, pipe)
            self.assertEqual(_of_repository(top, "ssa-pipe"), pipe)

    def test_what_is_nowhere(self) -> None:
        with mock.patch.dict(os.environ):
            os.environ.pop("NAZHUVEM_BIN", None)
            with self.assertRaisesRegex(ProgramNotFound, "install the wheel"):
                find("no-such-program")


if __name__ == "__main__":
    unittest.main()
