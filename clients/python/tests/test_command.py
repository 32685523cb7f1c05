"""The command `nazhuvem`, and the wheel that brings it."""

from __future__ import annotations

import importlib
import json
import os
import re
import signal
import socket
import subprocess
import sys
import tempfile
import unittest
import urllib.request
import zipfile
from pathlib import Path
from typing import Any

from tests.common import NAMES, TYPES, WIDGETS

PACKAGE = Path(__file__).resolve().parents[1]
DEFINITION = TYPES.parents[1] / "tools" / "definitions" / "certificate.json"
# What one command may take.
SECONDS = 300
# Asks the server of the kubeconfig for its groups, and ends with a status.
CLIENT = """
import json, os, re, sys, urllib.request
url = re.search("server: (.*)", open(os.environ["KUBECONFIG"]).read())[1]
opener = urllib.request.build_opener(urllib.request.ProxyHandler({}))
print(json.load(opener.open(url + "/apis"))["groups"][0]["name"])
sys.exit(7)
"""
TEST = f"""
TYPES = {str(TYPES)!r}
def scenario(hub):
    hub.apply("alice", "{WIDGETS}/w", {{**{NAMES}, "spec": {{"replicas": 2}}}})
    hub.run(lambda: hub.request("GET", "{WIDGETS}/w"))
def fails(hub):
    scenario(hub)
    assert hub.get("{WIDGETS}/w"), "it is gone"
"""


class CommandTest(unittest.TestCase):
    """Each test has a folder."""

    def setUp(self) -> None:
        folder = tempfile.TemporaryDirectory()
        self.addCleanup(folder.cleanup)
        self.folder = Path(folder.name)

    def run_it(self, *words: object, **variables: str) -> tuple[int, str, str]:
        """The status of the command, what it prints and says."""
        done = subprocess.run(
            [sys.executable, "-m", "nazhuvem", *map(str, words)],
            cwd=self.folder,
            env={**os.environ, "PYTHONPATH": str(PACKAGE), "TMPDIR": str(self.folder)}
            | variables,
            stdin=subprocess.DEVNULL,
            stdout=subprocess.PIPE,
            stderr=subprocess.PIPE,
            text=True,
            timeout=SECONDS,
        )
        self.assertNotIn("Traceback", done.stderr)
        return done.returncode, done.stdout, done.stderr

    def test_serves_for_a_command(self) -> None:
        words = (DEFINITION, "--", sys.executable, "-c", CLIENT)
        status, printed, said = self.run_it("serve", *words)
        self.assertEqual((status, printed), (7, "cert-manager.io\n"), said)
        self.assertIn("serving certificates.cert-manager.io at http://127.0.0.1:", said)
        left = [it.name for it in self.folder.iterdir()]
        self.assertEqual(left, [])

    def test_serves_until_a_signal(self) -> None:
        words = [sys.executable, "-m", "nazhuvem", "serve", str(TYPES)]
        config = self.folder / "kubeconfig"
        with subprocess.Popen(
            [*words, "--kubeconfig", str(config)],
            env={**os.environ, "PYTHONPATH": str(PACKAGE)},
            stdout=subprocess.PIPE,
            text=True,
        ) as process:
            assert process.stdout is not None
            line = process.stdout.readline()
            found = re.fullmatch(
                r"serving widgets\.demo\.example at (http:.*): export KUBECONFIG=(.*)\n",
                line,
            )
            assert found, line
            self.assertIn(f"server: {found[1]}\n", Path(found[2]).read_text())
            opener = urllib.request.build_opener(urllib.request.ProxyHandler({}))
            with opener.open(found[1] + WIDGETS, timeout=30) as reply:
                self.assertEqual(json.load(reply)["items"], [])
            process.send_signal(signal.SIGTERM)
            try:
                self.assertEqual(process.wait(30), 0)
            finally:
                process.kill()
        with self.assertRaises(OSError):
            opener.open(found[1], timeout=30)

    def test_a_kubeconfig_of_others_is_kept(self) -> None:
        config = self.folder / "config"
        config.write_text("theirs")
        words = ("serve", TYPES, "--kubeconfig", config, "--", "true")
        status, _, said = self.run_it(*words)
        self.assertEqual((status, config.read_text()), (1, "theirs"))
        self.assertIn(f"nazhuvem: {config} is there already", said)

    def test_what_is_wrong(self) -> None:
        taken = socket.create_server(("127.0.0.1", 0))
        self.addCleanup(taken.close)
        port = taken.getsockname()[1]
        for words, wanted in (
            (
                ("serve", "nope.json"),
                "nazhuvem: nope.json: No such file or directory\n",
            ),
            (
                ("serve", TYPES, "--", "no-such-command"),
                "no-such-command: No such file",
            ),
            (("serve", TYPES, "--port", port), f"nazhuvem: port {port}: "),
            (("explore", "nope.py"), "nazhuvem: nope.py: no file of Python\n"),
            (("replay", "nope.jsonl"), "nazhuvem: which types? --types PATH"),
        ):
            status, _, said = self.run_it(*words)
            self.assertEqual(status, 1)
            self.assertIn(wanted, said)
        self.assertEqual(self.run_it()[0], 2)

    def test_explores_and_replays(self) -> None:
        (self.folder / "test_it.py").write_text(TEST)
        status, printed, _ = self.run_it("explore", "test_it.py")
        self.assertEqual(status, 0)
        self.assertRegex(printed, r"^4 schedules pass, in \d+\.\d s\n$")
        seed = ("--budget", "20", "--seed", "5")
        status, printed, _ = self.run_it("explore", "test_it.py", *seed)
        self.assertRegex(printed, r"^\d+ schedules pass, in \d+\.\d s, by seed 5\n$")
        fails = ("explore", "test_it.py", "--scenario", "fails")
        status, printed, _ = self.run_it(*fails, "--kinds", "deletions")
        self.assertEqual(status, 1)
        self.assertIn("> delete /apis", printed)
        found = re.search(r"(?m)^again: NAZHUVEM_SCHEDULE=(.*)\nscript: (.*)$", printed)
        assert found
        status, again, _ = self.run_it(*fails, "--schedule", found[1])
        self.assertEqual((status, again.partition("script:")[0] in printed), (1, True))
        words = ("replay", found[2], "--types", TYPES)
        status, printed, _ = self.run_it(*words)
        self.assertEqual((status, "HTTP/1.1 201 Created" in printed), (0, True))
        self.assertIn("no function nope(hub)", self.run_it(*fails[:3], "nope")[2])

    def test_crd(self) -> None:
        status, printed, said = self.run_it("crd", DEFINITION)
        self.assertEqual(
            (status, json.loads(printed)["types"][0]["kind"]), (0, "Certificate")
        )
        self.assertIn("enum 4", said)


class WheelTest(CommandTest):
    """The same of a wheel of this package, without a repository around it."""

    site: tempfile.TemporaryDirectory[str]

    @classmethod
    def setUpClass(cls) -> None:
        cls.site = tempfile.TemporaryDirectory()
        cls.addClassCleanup(cls.site.cleanup)
        sys.path.insert(0, str(TYPES.parents[1] / "tools"))
        cls.addClassCleanup(sys.path.pop, 0)
        wheel: Any = importlib.import_module("wheel")
        released: Any = importlib.import_module("released")
        release = released.manifest()
        if not release or not release.archive:
            raise unittest.SkipTest("there is no release here")
        path = f"{released.PLACE}/{release.archive[0]}"
        files = {name: (data, mode) for name, data, mode in released.members(path)}
        for folder in ("clients/python", "tools/types_files"):
            for file in (TYPES.parents[1] / folder).rglob("*"):
                if file.suffix in (".py", ".toml", ".typed", ".md"):
                    name = str(file.relative_to(TYPES.parents[1]))
                    files[name] = file.read_bytes(), 0o644
        whole = cls.site.name + "/it.whl"
        Path(whole).write_bytes(wheel.wheel_of(files, release))
        with zipfile.ZipFile(whole) as it:
            it.extractall(cls.site.name)
            for entry in it.infolist():
                os.chmod(f"{cls.site.name}/{entry.filename}", entry.external_attr >> 16)

    def run_it(self, *words: object, **variables: str) -> tuple[int, str, str]:
        own = {"PYTHONPATH": self.site.name, "NAZHUVEM_BIN": ""}
        return super().run_it(*words, **{**variables, **own})

    def test_entry_points(self) -> None:
        ((info),) = Path(self.site.name).glob("*.dist-info")
        points = (info / "entry_points.txt").read_text()
        self.assertIn("[console_scripts]\nnazhuvem = nazhuvem.command:main\n", points)
        self.assertIn("[pytest11]\nnazhuvem = nazhuvem.pytest_plugin\n", points)


if __name__ == "__main__":
    unittest.main()
