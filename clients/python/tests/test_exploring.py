"""Scenarios under each disturbance at each place."""

from __future__ import annotations

import os
import unittest
from pathlib import Path
from typing import Any, Callable
from unittest import mock

from nazhuvem import (
    Disturbance,
    Hub,
    Place,
    ScenarioError,
    Schedule,
    ScheduleFailed,
    actions,
    changes,
    changes_by,
    cuts,
    deletions,
    expiries,
    explore,
    holds,
    play,
    restarts,
)
from nazhuvem.disturbances import Kind
from tests.common import NAMES, TYPES, WIDGETS, widget

Work = Callable[[Hub], object]


def scenario(work: Work) -> Work:
    """One widget of two replicas, and this work as the controller's."""

    def run(hub: Hub) -> None:
        hub.apply("alice", WIDGETS + "/w", widget(replicas=2))
        hub.run(lambda: work(hub))

    return run


def tell(hub: Hub) -> None:
    """Reads the widget and writes its status: they have a race."""
    read = hub.request("GET", WIDGETS + "/w")
    if read.status == 200:
        ready = read.value["spec"]["replicas"]
        query = {"fieldManager": "controller"}
        body: dict[str, Any] = {**NAMES, "status": {"ready": ready}}
        told = hub.request("PATCH", WIDGETS + "/w/status", body, query=query)
        assert told.status == 200, told.value["message"]


class Noted:
    """A disturbance that is noted when it happens."""

    def __init__(self, disturbance: Disturbance, seen: list[str]) -> None:
        self.disturbance = disturbance
        self.seen = seen

    def happen(self, hub: Hub) -> None:
        """Notes it."""
        self.seen.append(str(self))
        self.disturbance.happen(hub)

    def __str__(self) -> str:
        return str(self.disturbance)


class ExploreTest(unittest.TestCase):
    """What is found, and what isn't."""

    def found(self, work: Work, *kinds: Kind) -> ScheduleFailed:
        """How the scenario of this work fails."""
        with self.assertRaises(ScheduleFailed) as failed:
            explore(scenario(work), TYPES, kinds)
        self.addCleanup(os.unlink, failed.exception.script)
        return failed.exception

    def test_deletion(self) -> None:
        found = self.found(tell, deletions)
        self.assertEqual(str(found.schedule), f"before event 3: delete {WIDGETS}/w")
        self.assertIn("404", str(found))
        self.assertIn('"DELETE ', Path(found.script).read_text())

    def test_a_schedule_is_played_again(self) -> None:
        schedule = self.found(tell, deletions).schedule
        with self.assertRaises(ScheduleFailed) as failed:
            play(scenario(tell), TYPES, schedule)
        os.unlink(failed.exception.script)
        play(scenario(tell), TYPES, Schedule())

    def test_change(self) -> None:
        def work(hub: Hub) -> None:
            tell(hub)
            value = hub.request("GET", WIDGETS + "/w").value
            assert value["status"]["ready"] == value["spec"]["replicas"]

        self.found(work, changes_by({"spec": {"replicas": 1}}))

    def test_cut(self) -> None:
        def work(hub: Hub) -> None:
            watch = hub.watch(WIDGETS)
            assert watch.pump(), "a cut isn't expected"

        self.assertEqual(str(self.found(work, cuts).schedule), "before event 3: cut")

    def test_held(self) -> None:
        def work(hub: Hub) -> None:
            assert hub.watch(WIDGETS).pump(), "the line comes at once"

        self.found(work, holds)

    def test_expired(self) -> None:
        def work(hub: Hub) -> None:
            watch = hub.watch(WIDGETS, query={"resourceVersion": 1})
            watch.pump()
            if watch.ended:
                hub.watch(WIDGETS, query={"resourceVersion": 1})

        self.assertIn("RefusalError: 410", str(self.found(work, expiries)))

    def test_begun_anew(self) -> None:
        def work(hub: Hub) -> None:
            for name in ("a", "b"):
                reply = hub.request("POST", WIDGETS, widget(name))
                assert reply.status == 201, "it was here already"

        self.assertIn("begin anew", str(self.found(work, restarts)))

    def test_action(self) -> None:
        def work(hub: Hub) -> None:
            hub.meanwhile(
                "alice scales",
                lambda: hub.apply("alice", WIDGETS + "/w", widget(replicas=7)),
            )
            hub.request("GET", WIDGETS + "/none")
            value = hub.request("GET", WIDGETS + "/w").value
            assert value["spec"]["replicas"] == 2

        self.assertIn(": alice scales", str(self.found(work, actions).schedule))

    def test_nothing_is_found(self) -> None:
        def work(hub: Hub) -> None:
            hub.request("GET", WIDGETS + "/w")

        self.assertGreater(explore(scenario(work), TYPES), 2)

    def test_kinds_by_their_names(self) -> None:
        def work(hub: Hub) -> None:
            hub.request("GET", WIDGETS + "/w")

        self.assertEqual(explore(scenario(work), TYPES, ["deletions", changes]), 3)
        self.assertEqual(explore(scenario(work), TYPES, "deletions"), 2)
        with self.assertRaisesRegex(ScenarioError, "'deletion': actions, deletions,"):
            explore(scenario(work), TYPES, ["deletion"])

    def test_shards(self) -> None:
        def work(hub: Hub) -> None:
            hub.settle(lambda: hub.request("GET", WIDGETS + "/w"))

        seen: list[str] = []

        def noted(place: Place) -> list[Disturbance]:
            found = deletions(place) + changes(place)
            return [Noted(it, seen) for it in found]

        whole = explore(scenario(work), TYPES, (noted,))
        every, seen[:] = list(seen), []
        counts = []
        for shard in ("1/2", "2/2"):
            with mock.patch.dict(os.environ, NAZHUVEM_SHARD=shard):
                counts.append(explore(scenario(work), TYPES, (noted,)))
        self.assertEqual(sorted(seen), sorted(every))
        self.assertEqual(sum(counts), whole + 1)
        for shard in ("3/2", "0/2", "x"):
            with mock.patch.dict(os.environ, NAZHUVEM_SHARD=shard):
                with self.assertRaisesRegex(ScenarioError, "NAZHUVEM_SHARD is"):
                    explore(scenario(work), TYPES)

    def test_what_does_not_settle(self) -> None:
        def work(hub: Hub) -> None:
            hub.settle(
                lambda: hub.request("POST", WIDGETS, widget(f"a{hub.revision()}"))
            )

        self.assertIn("settled", str(self.found(work)))


if __name__ == "__main__":
    unittest.main()
