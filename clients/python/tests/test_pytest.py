"""The plugin of pytest, where pytest is installed."""

from __future__ import annotations

import os
import re
import subprocess
import tempfile
import unittest
from pathlib import Path

from tests.common import NAMES, TYPES, WIDGETS, pytest_python

PACKAGE = Path(__file__).resolve().parents[1]
HEAD = f"""
import pytest
from nazhuvem import Server, play, schedules

TYPES = "{TYPES}"
WIDGETS = "{WIDGETS}"
NAMES = {NAMES}
"""
FIXTURES = """
import json, urllib.request

@pytest.mark.nazhuvem_types("types/widgets.json")
def test_hub(nazhuvem_hub):
    nazhuvem_hub.apply("alice", WIDGETS + "/w", {**NAMES, "spec": {"image": "a"}})
    assert nazhuvem_hub.get(WIDGETS + "/w")["spec"] == {"image": "b"}

def test_server(nazhuvem_server):
    opener = urllib.request.build_opener(urllib.request.ProxyHandler({}))
    with opener.open(nazhuvem_server.url + WIDGETS) as reply:
        assert json.load(reply)["items"] == 1

def test_own_server(nazhuvem_types):
    with Server(nazhuvem_types) as server:
        opener = urllib.request.build_opener(urllib.request.ProxyHandler({}))
        opener.open(server.url + WIDGETS + "?limit=77").close()
    assert 0

def test_passes(nazhuvem_types):
    with Server(nazhuvem_types):
        pass
"""
SCHEDULES = """
def scenario(hub):
    hub.apply("alice", WIDGETS + "/w", {**NAMES, "spec": {"replicas": 2}})
    hub.run(lambda: [hub.get(WIDGETS + "/w") for _ in range(4)])
    assert hub.get(WIDGETS + "/w")

KINDS = ["deletions", "changes"]

@pytest.mark.parametrize("schedule", schedules(scenario, TYPES, KINDS))
def test_it(schedule):
    play(scenario, TYPES, schedule)
"""
FAILS = SCHEDULES.replace("range(4)", "range(1 / 0)")


@unittest.skipUnless(pytest_python(), "pytest isn't installed")
class PluginTest(unittest.TestCase):
    """Each test has a folder with a test file, and with types."""

    def setUp(self) -> None:
        folder = tempfile.TemporaryDirectory()
        self.addCleanup(folder.cleanup)
        self.folder = folder.name
        os.symlink(TYPES.parent, f"{self.folder}/types")

    def pytest(self, text: str, *words: str, **variables: str) -> str:
        """What pytest prints of a test file."""
        Path(self.folder, "test_it.py").write_text(HEAD + text)
        Path(self.folder, "tmp").mkdir(exist_ok=True)
        temporary = {"TMPDIR": f"{self.folder}/tmp", "PYTHONPATH": str(PACKAGE)}
        # Plugins of others aren't loaded: they take longer than the tests.
        temporary["PYTEST_DISABLE_PLUGIN_AUTOLOAD"] = "1"
        command = [pytest_python(), "-m", "pytest", "-p", "nazhuvem.pytest_plugin"]
        done = subprocess.run(
            [*command, "-q", *words, "test_it.py"],
            cwd=self.folder,
            env={**os.environ, "TMPDIR": self.folder, **temporary, **variables},
            stdout=subprocess.PIPE,
            stderr=subprocess.STDOUT,
            text=True,
        )
        return done.stdout

    def test_fixtures_and_what_they_show(self) -> None:
        said = self.pytest(FIXTURES, "--nazhuvem-types", "types/widgets.json")
        self.assertIn("3 failed, 1 passed", said)
        self.assertRegex(
            said, "- events of nazhuvem_hub -+\n +1   PATCH .* version 2\n"
        )
        self.assertRegex(said, r"- log of http://127.0.0.1:\d+ -+\n.*GET /apis")
        self.assertEqual(said.count("limit=77 200"), 1, said)

    def test_the_readme(self) -> None:
        os.symlink(TYPES.parent, f"{self.folder}/examples")
        page = (PACKAGE / "README.md").read_text(encoding="utf-8")
        (block,) = [it for it in page.split("```") if "import pytest" in it]
        scenario = (
            SCHEDULES.partition("KINDS")[0].replace("(4)", "(1)").rsplit("\n", 3)[0]
        )
        said = self.pytest(scenario + block.removeprefix("python"))
        self.assertRegex(said, r"(?m)^\d passed in")

    def test_types_of_the_ini_file(self) -> None:
        ini = "[pytest]\nnazhuvem_types = types/widgets.json\n"
        Path(self.folder, "pytest.ini").write_text(ini)
        self.assertIn("1 passed", self.pytest(FIXTURES, "-k", "passes"))

    def test_no_types(self) -> None:
        said = self.pytest(FIXTURES, "-k", "passes")
        self.assertIn("which types? Mark the test by", said)
        marked = FIXTURES.replace('("types/widgets.json")', "()")
        said = self.pytest(marked, "-k", "test_hub")
        self.assertIn("which types? Mark the test by", said)

    def test_a_test_each_schedule(self) -> None:
        said = self.pytest(SCHEDULES, "-rA")
        found = re.findall(r"(?m)^(PASSED|FAILED) test_it.py::test_it\[(.*?)\]", said)
        outcomes = {word: outcome for outcome, word in found}
        self.assertEqual(outcomes["undisturbed"], "PASSED")
        self.assertEqual(outcomes["2-delete-default-widgets-w"], "FAILED")
        self.assertIn("4 failed, 5 passed", said)
        again = self.pytest(SCHEDULES, "--lf")
        self.assertIn("4 failed", again)
        self.assertNotIn("passed", again)
        self.assertIn("1 failed", self.pytest(SCHEDULES, "-k", "3-delete"))
        word = "3-delete-default-widgets-w"
        said = self.pytest(SCHEDULES, NAZHUVEM_SCHEDULE=word)
        self.assertRegex(said, "(?m)^1 failed in")
        self.assertIn(f"again: NAZHUVEM_SCHEDULE={word}", said)

    def test_scripts_are_kept_with_pytests_files(self) -> None:
        said = self.pytest(SCHEDULES)
        self.assertRegex(
            said, r"script: .*/pytest-of-\w+/pytest-0/nazhuvem\d/nazhuvem-"
        )

    def test_a_scenario_that_fails_undisturbed(self) -> None:
        said = self.pytest(FAILS)
        self.assertRegex(said, "(?m)^1 failed in")
        self.assertIn("ZeroDivisionError", said)
        self.assertIn("no disturbance", said)

    def test_fail_and_skip_in_a_scenario(self) -> None:
        for call, wanted in (("fail", "1 failed"), ("skip", "1 skipped")):
            text = SCHEDULES.replace(
                '    assert hub.get(WIDGETS + "/w")',
                f'    hub.get(WIDGETS + "/w") or pytest.{call}("it is gone")',
            )
            said = self.pytest(text, "-k", "3-delete", "-rs")
            self.assertRegex(said, rf"(?m)^{wanted}")
            self.assertEqual("> delete /apis" in said, call == "fail", said)

    def test_xdist_splits_them(self) -> None:
        probe = [pytest_python(), "-c", "import xdist"]
        if subprocess.run(probe, stderr=subprocess.DEVNULL).returncode:
            self.skipTest("pytest-xdist isn't installed")
        self.assertIn(
            "4 failed, 5 passed",
            self.pytest(SCHEDULES, "-p", "xdist.plugin", "-n", "2"),
        )

    def test_shards(self) -> None:
        words: list[str] = []
        for shard in ("1/3", "2/3", "3/3"):
            said = self.pytest(SCHEDULES, "-rA", NAZHUVEM_SHARD=shard)
            found = r"(?m)^(?:PASSED|FAILED) test_it.py::test_it\[(.*?)\]"
            words += re.findall(found, said)
        self.assertEqual(len(words), 9)
        self.assertEqual(len(set(words)), 9)


if __name__ == "__main__":
    unittest.main()
