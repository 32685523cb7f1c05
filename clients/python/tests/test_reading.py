"""Failures that one can read, and play again."""

from __future__ import annotations

import json
import os
import re
import shlex
import subprocess
import tempfile
import unittest
from pathlib import Path
from typing import Any, Callable
from unittest import mock

from nazhuvem import (
    Hub,
    NotSettledError,
    ScenarioError,
    ScheduleFailedError,
    cuts,
    deletions,
    explore,
    find,
    holds,
)
from nazhuvem.definitions import Types
from nazhuvem.disturbances import Disturbance, Kind, Place
from tests.common import NAMES, TYPES, WIDGETS, pytest_python, widget

BACKUPS = "/apis/own.example/v2/namespaces/default/backups"
BACKUP = {"apiVersion": "own.example/v2", "kind": "Backup"}
OWN: dict[str, Any] = {
    "types": [
        {
            "group": "own.example",
            "version": "v2",
            "kind": "Backup",
            "plural": "backups",
            "schema": {
                "type": "object",
                "properties": {
                    "spec": {
                        "type": "object",
                        "properties": {"size": {"type": "string"}},
                    }
                },
            },
        }
    ]
}


class Reading(unittest.TestCase):
    """What the text of a failure shows."""

    def failed(
        self, scenario: Callable[[Hub], object], *kinds: Kind, types: Types = TYPES
    ) -> ScheduleFailedError:
        """How a scenario fails."""
        with self.assertRaises(ScheduleFailedError) as failed:
            explore(scenario, types, kinds)
        script = failed.exception.script
        self.addCleanup(os.unlink, script)
        kept = Path(script[: -len(".jsonl")] + ".types.json")
        self.addCleanup(kept.unlink, missing_ok=True)
        return failed.exception

    def test_what_a_pump_brings_and_a_write_makes(self) -> None:
        def scenario(hub: Hub) -> None:
            hub.apply("alice", WIDGETS + "/w", widget(replicas=2))
            watch = hub.watch(WIDGETS)
            hub.run(watch.pump)
            hub.request("DELETE", WIDGETS + "/w")
            watch.pump()
            assert watch.pump(), "ends"

        text = str(self.failed(scenario))
        for line in (
            "    1   PATCH .*w.fieldManager=alice 201, version 2",
            "    3 . pump: ADDED w, version 2",
            "    4   DELETE .*/w 200",
            "    5   pump: DELETED w, version 3",
            "    6   pump: nothing",
        ):
            self.assertRegex(text, f"(?m)^{line}$")

    def test_what_is_held_back(self) -> None:
        def scenario(hub: Hub) -> None:
            hub.apply("alice", WIDGETS + "/w", widget())
            watch = hub.watch(WIDGETS)
            hub.run(lambda: [watch.pump() for _ in "12"])
            assert not any(hub.is_held for _ in "1")

        text = str(self.failed(scenario, lambda place: holds(place)[1:]))
        self.assertRegex(text, r"(?m)^      > hold 3\n    3 \* pump: held back$")

    def test_two_managers(self) -> None:
        def step(hub: Hub) -> None:
            for manager, replicas in (("a", 1), ("b", 2)):
                body = widget(replicas=replicas, image="c")
                hub.apply(manager, WIDGETS + "/w", body, force=True)

        def scenario(hub: Hub) -> None:
            hub.run(lambda: hub.settle(lambda: step(hub)))

        text = str(self.failed(scenario))
        who = "a and b change .spec.replicas"
        self.assertRegex(text, rf"(?m)^ +99 rounds, to event 199: {who}$")
        self.assertIn(f"nothing has settled after 100 steps: {who}\n", text)
        self.assertLess(text.count("\n"), 12)
        with Hub(TYPES) as hub, self.assertRaisesRegex(NotSettledError, who):
            hub.settle(lambda: step(hub))

    def test_one_makes_and_another_deletes(self) -> None:
        def scenario(hub: Hub) -> None:
            for _ in range(40):
                hub.request("POST", WIDGETS, widget("w"), query={"fieldManager": "a"})
                hub.request("DELETE", WIDGETS + "/w")
            assert False, "ends"

        text = str(self.failed(scenario))
        self.assertIn("40 rounds, to event 80: a and a client change w\n", text)

    def test_many_events(self) -> None:
        def scenario(hub: Hub) -> None:
            for n in range(200):
                hub.apply("alice", f"{WIDGETS}/w{n}", widget())
            hub.run(lambda: hub.request("GET", WIDGETS))
            assert hub.get(WIDGETS + "/w0"), "it is gone"

        failed = self.failed(scenario, deletions)
        self.assertEqual(len(failed.events), 203)
        text = str(failed)
        self.assertIn("      > delete", text)
        self.assertRegex(text, r"(?m)^      \.\. \d+ more$")
        self.assertLess(text.count("\n"), 36)

    def test_many_rounds(self) -> None:
        def scenario(hub: Hub) -> None:
            for n in range(60):
                for _ in "12345":
                    hub.apply("alice", f"{WIDGETS}/w{n}", widget(replicas=n))
            hub.run(lambda: hub.request("GET", WIDGETS))
            assert hub.get(WIDGETS + "/w0"), "it is gone"

        text = str(self.failed(scenario, deletions))
        self.assertIn("      > delete", text)
        self.assertIn("4 rounds, to event 300\n", text)
        self.assertLess(text.count("\n"), 40)

    def test_the_script_is_played(self) -> None:
        def scenario(hub: Hub) -> None:
            hub.apply("alice", BACKUPS + "/b", {**BACKUP, "spec": {"size": "1"}})
            assert False, "ends"

        with tempfile.NamedTemporaryFile("w", suffix=".json") as file:
            json.dump(OWN, file)
            file.flush()
            both: tuple[Types, ...] = (OWN, file.name)
            for types in both:
                text = str(self.failed(scenario, types=types))
                found = re.search(r"(?m)^replay: ssa-replay (.*)$", text)
                assert found
                words = [find("ssa-replay"), *shlex.split(found[1])]
                done = subprocess.run(words, stdout=subprocess.PIPE, text=True)
                self.assertEqual(done.returncode, 0)
                self.assertIn("201 Created", done.stdout)


class PlayedAgain(unittest.TestCase):
    """One schedule by its word."""

    def setUp(self) -> None:
        self.count = 0

    def scenario(self, hub: Hub) -> None:
        """A controller that two deletions of three don't disturb."""
        self.count += 1
        for name in ("a", "b"):
            hub.request("POST", WIDGETS, widget(name))
        hub.run(lambda: hub.watch(WIDGETS).pump())
        assert hub.get(WIDGETS + "/b"), "it is gone"

    def test_a_word(self) -> None:
        with self.assertRaises(ScheduleFailedError) as failed:
            explore(self.scenario, TYPES)
        os.unlink(failed.exception.script)
        word = failed.exception.schedule.word
        self.assertEqual(word, "3-delete-default-widgets-b")
        self.assertIn(f"\nagain: NAZHUVEM_SCHEDULE={word}\n", str(failed.exception))
        self.count = 0
        with mock.patch.dict(os.environ, NAZHUVEM_SCHEDULE=word):
            with self.assertRaises(ScheduleFailedError) as again:
                explore(self.scenario, TYPES)
        os.unlink(again.exception.script)
        self.assertEqual(again.exception.events, failed.exception.events)
        self.assertEqual(self.count, 2)
        with mock.patch.dict(os.environ, NAZHUVEM_SCHEDULE="4-cut"):
            self.assertEqual(explore(self.scenario, TYPES, (cuts,)), 1)
        with mock.patch.dict(os.environ, NAZHUVEM_SCHEDULE="9-cut"):
            with self.assertRaisesRegex(ScenarioError, "no schedule .* is 9-cut"):
                explore(self.scenario, TYPES)

    def test_words_are_different(self) -> None:
        class Own:
            """A disturbance that says no more than its kind."""

            def happen(self, hub: Hub) -> None:
                """Does nothing."""

            def __str__(self) -> str:
                return "own"

        def own(_: Place) -> list[Disturbance]:
            return [Own(), Own()]

        def scenario(hub: Hub) -> None:
            hub.run(lambda: hub.request("GET", WIDGETS))

        with mock.patch.dict(os.environ, NAZHUVEM_SCHEDULE="1-own.2"):
            self.assertEqual(explore(scenario, TYPES, (own,)), 1)


FAILING = f"""
from nazhuvem import explore

def reconcile(hub):
    for _ in range(30):
        hub.request("GET", "{WIDGETS}/w")
    told = hub.apply("c", "{WIDGETS}/w/status", {{**{NAMES}, "status": {{"ready": 1}}}})
    assert told.status == 200, "the status isn't written"

def scenario(hub):
    hub.apply("alice", "{WIDGETS}/w", {{**{NAMES}, "spec": {{"replicas": 1}}}})
    hub.run(lambda: hub.settle(lambda: reconcile(hub)))

def test_explore():
    explore(scenario, "{TYPES}")
"""


@unittest.skipUnless(pytest_python(), "pytest isn't installed")
class ByPytest(unittest.TestCase):
    """What pytest prints of a failure."""

    def test_the_schedule_stands_at_the_end(self) -> None:
        with tempfile.TemporaryDirectory() as folder:
            Path(folder, "test_it.py").write_text(FAILING)
            words = [pytest_python(), "-m", "pytest", "-p", "no:cacheprovider"]
            package = str(Path(__file__).resolve().parents[1])
            variables = {**os.environ, "PYTHONPATH": package, "TMPDIR": folder}
            done = subprocess.run(
                words, cwd=folder, env=variables, stdout=subprocess.PIPE, text=True
            )
        lines = done.stdout.splitlines()
        self.assertLess(len(lines), 90, done.stdout)
        self.assertTrue(any("> delete" in it for it in lines[-40:]), done.stdout)
        self.assertIn(f'> delete {WIDGETS.rpartition("/")[0]}', done.stdout)
        for name in ("exploring.py", "hub.py", "contextlib.py"):
            self.assertNotIn(f"{name}:", done.stdout)


if __name__ == "__main__":
    unittest.main()
