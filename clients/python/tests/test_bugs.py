"""Bugs that controllers have, and how they are found: by a disturbance, or by two."""

from __future__ import annotations

import os
import unittest
from typing import Any, Callable, Optional
from unittest import mock

from nazhuvem import (
    EVERY,
    Hub,
    RefusalError,
    ScenarioError,
    ScheduleFailedError,
    Watch,
    actions,
    changes,
    deletions,
    expiries,
    explore,
    recreations,
    unseen_changes,
    unseen_creations,
    unseen_deletions,
)
from nazhuvem.disturbances import Kinds
from tests.common import NAMES, TYPES, WIDGETS, widget

COUNT = WIDGETS.replace("default", "counts") + "/count"


class Counter:
    """Counts the widgets of a namespace in another, by a list and a watch."""

    #: Whether a list after a 410 takes away what is gone.
    forgets = True
    #: Whether what a list has counts before a line comes.
    tells_lists = True

    def __init__(self, hub: Hub) -> None:
        self.hub = hub
        self.names: dict[str, str] = {}
        self.watch: Optional[Watch] = None
        self.version = ""

    def step(self) -> None:
        """Hears what is new, and tells how many there are."""
        if self.watch is None:
            self.follow()
        lines = self.watch.pump() if self.watch else []
        for line in lines:
            self.hear(line["type"], line["object"])
        if self.watch and self.watch.ended:
            self.watch = None
        if lines or self.tells_lists:
            self.tell()

    def follow(self) -> None:
        """Goes on from its version, or lists again."""
        try:
            if not self.version:
                self.list()
            query = {"resourceVersion": self.version}
            self.watch = self.hub.watch(WIDGETS, query=query)
        except RefusalError:
            self.version = ""

    def list(self) -> None:
        """Takes what is there."""
        listed = self.hub.request("GET", WIDGETS).value
        if self.forgets:
            self.names.clear()
        for one in listed["items"]:
            self.hear("ADDED", one)
        self.version = listed["metadata"]["resourceVersion"]

    def hear(self, what: str, one: Any) -> None:
        """Takes a line."""
        if what == "ERROR":
            self.version = ""
            return
        name = one["metadata"]["name"]
        self.version = one["metadata"]["resourceVersion"]
        if what == "DELETED":
            self.names.pop(name, None)
        else:
            self.names[name] = self.version

    def tell(self) -> None:
        """Writes how many there are."""
        body = widget(replicas=len(self.names))
        self.hub.apply("counter", COUNT, body, force=True, check=True)


class OnlyAdds(Counter):
    """Keeps after a 410 what was deleted meanwhile."""

    forgets = False


class OnlyLines(Counter):
    """Doesn't tell what a list shows before a line comes."""

    tells_lists = False

    def list(self) -> None:
        super().list()
        if not self.hub.get(COUNT):
            self.tell()


def counting(counter: type[Counter], hub: Hub) -> None:
    """Two widgets are counted."""
    for name in ("a", "b"):
        hub.apply("alice", f"{WIDGETS}/{name}", widget(replicas=1))
    hub.run(lambda: hub.settle(counter(hub).step))
    found = len(hub.request("GET", WIDGETS).value["items"])
    count = hub.get(COUNT)
    assert count and count["spec"]["replicas"] == found, "count"


def replace(hub: Hub, tries: int, says_version: bool = True) -> None:
    """Tells a widget's replicas in its image by a PUT, which is tried so often."""
    for _ in range(tries):
        read = hub.request("GET", WIDGETS + "/w").value
        if "spec" not in read:
            return
        read["spec"]["image"] = str(read["spec"]["replicas"])
        read["metadata"].pop("managedFields")
        if not says_version:
            read["metadata"].pop("resourceVersion")
        written = hub.request("PUT", WIDGETS + "/w", read)
        if written.status in (200, 404):
            return
    raise AssertionError("it was never written")


def replacing(**how: Any) -> Callable[[Hub], None]:
    """A widget is replaced, while alice may scale it."""

    def scenario(hub: Hub) -> None:
        def scales() -> None:
            hub.apply("alice", WIDGETS + "/w", widget(replicas=5), force=True)
            scaled.append(5)

        scaled: list[int] = []
        hub.apply("alice", WIDGETS + "/w", widget(replicas=2))
        hub.meanwhile("alice scales", scales)
        hub.run(lambda: replace(hub, **how))
        found = hub.get(WIDGETS + "/w")
        is_kept = not scaled or not found or found["spec"]["replicas"] == 5
        assert is_kept, "alice's 5 is lost"

    return scenario


class BugsTest(unittest.TestCase):
    """Each bug is found by its kind, and the right controller passes."""

    def found(
        self, scenario: Callable[[Hub], object], kinds: Kinds, **options: Any
    ) -> ScheduleFailedError:
        """How a scenario fails."""
        with self.assertRaises(ScheduleFailedError) as failed:
            explore(scenario, TYPES, kinds, **options)
        os.unlink(failed.exception.script)
        return failed.exception

    def test_a_cache_that_only_adds(self) -> None:
        def scenario(hub: Hub) -> None:
            counting(OnlyAdds, hub)

        self.assertGreater(explore(scenario, TYPES, (expiries, deletions)), 2)
        found = self.found(scenario, (unseen_deletions,))
        self.assertIn("/a, behind a 410", str(found.schedule))
        self.found(scenario, EVERY)

    def test_a_list_that_is_not_told(self) -> None:
        def scenario(hub: Hub) -> None:
            counting(OnlyLines, hub)

        found = self.found(scenario, "unseen_creations")
        self.assertIn("make /apis", str(found.schedule))

    def test_the_right_one_passes(self) -> None:
        def scenario(hub: Hub) -> None:
            counting(Counter, hub)

        kinds = [*EVERY, unseen_creations]
        self.assertGreater(explore(scenario, TYPES, kinds, budget=2), 1)

    def test_a_lost_update(self) -> None:
        found = self.found(replacing(tries=1, says_version=False), (actions,))
        self.assertIn("alice's 5 is lost", str(found))

    def test_a_status_of_an_object_made_again(self) -> None:
        def scenario(hub: Hub) -> None:
            def work() -> None:
                listed = hub.request("GET", WIDGETS).value["items"]
                for it in listed:
                    path = f"{WIDGETS}/{it['metadata']['name']}/status"
                    body = {**NAMES, "status": {"ready": 1}, "metadata": {}}
                    version = it["metadata"]["resourceVersion"]
                    body["metadata"] = {"resourceVersion": version}
                    hub.apply("c", path, body, force=True, check=True)

            hub.apply("alice", WIDGETS + "/w", widget(replicas=2))
            hub.run(work)

        found = self.found(scenario, (recreations,))
        self.assertIn("delete and make again", str(found.schedule))
        self.assertIn("RefusalError: 409", str(found))

    def test_a_retry_that_is_tried_once(self) -> None:
        right, wrong = replacing(tries=9), replacing(tries=2)
        self.assertGreater(explore(wrong, TYPES), 5)
        found = self.found(wrong, (changes,), budget=300, seed=7)
        self.assertEqual(len(found.schedule.steps), 2)
        self.assertIn("\nseed: 7\nagain: NAZHUVEM_SCHEDULE=", str(found))
        self.assertEqual(str(found).count("      > annotate"), 2)
        with mock.patch.dict(os.environ, NAZHUVEM_SCHEDULE=found.schedule.word):
            self.assertEqual(self.found(wrong, (changes,)).events, found.events)
            self.assertEqual(explore(right, TYPES, (changes,)), 1)
        self.assertGreater(explore(right, TYPES, budget=2), 1)

    def test_the_same_seed_the_same_schedules(self) -> None:
        played = [self.pairs_by(seed=3), self.pairs_by(seed=3), self.pairs_by(seed=4)]
        self.assertEqual(played[0], played[1])
        self.assertNotEqual(played[0], played[2])
        self.assertEqual(sorted(played[0]), sorted(played[2]))
        with mock.patch.dict(os.environ, NAZHUVEM_SEED="4"):
            self.assertEqual(self.pairs_by(), played[2])
        with mock.patch.dict(os.environ, NAZHUVEM_SEED="x"):
            with self.assertRaisesRegex(ScenarioError, "NAZHUVEM_SEED is x"):
                self.pairs_by()
        parts: list[str] = []
        for shard in ("1/2", "2/2"):
            with mock.patch.dict(os.environ, NAZHUVEM_SHARD=shard):
                parts += self.pairs_by(seed=3)
        self.assertLessEqual(set(parts), set(played[0]))
        self.assertEqual(set(parts), set(played[0]))

    def pairs_by(self, **options: Any) -> list[str]:
        """The schedules of a scenario that has few of them, in order."""
        played: list[str] = []

        def scenario(hub: Hub) -> None:
            hub.apply("alice", WIDGETS + "/w", widget(replicas=2))
            hub.run(lambda: [hub.get(WIDGETS + "/w") for _ in "12"])
            played.append(hub.script())

        explore(
            scenario, TYPES, (deletions, unseen_changes, changes), budget=600, **options
        )
        return played


if __name__ == "__main__":
    unittest.main()
