"""When all has settled: lines that are held back, and watches that end."""

from __future__ import annotations

import os
import unittest
from typing import Any, Callable, Optional

from nazhuvem import (
    Hub,
    Refusal,
    ScheduleFailed,
    Watch,
    cuts,
    expiries,
    explore,
    holds,
)
from nazhuvem.stream import HTTPConnection
from tests.common import NAMES, TYPES, WIDGETS, widget


class Follower:
    """Writes into the status of each widget how many replicas it wants. Where its
    watch has ended it lists again in the next step."""

    #: Whether it looks at what it lists again.
    looks = True

    def __init__(self, hub: Hub) -> None:
        self.hub = hub
        self.watch: Optional[Watch] = None
        self.is_first = True

    def step(self) -> None:
        """Tells what it hears of."""
        if self.watch is None:
            self.follow(self.list())
        for line in self.watch.pump() if self.watch else ():
            if line["type"] in ("ADDED", "MODIFIED"):
                self.tell(line["object"])
        if self.watch and self.watch.ended:
            self.watch = None

    def list(self) -> str:
        """Tells what is there, and gives its version."""
        listed = self.hub.request("GET", WIDGETS).value
        for one in listed["items"] if self.looks or self.is_first else ():
            self.tell(one)
        self.is_first = False
        return str(listed["metadata"]["resourceVersion"])

    def follow(self, version: str) -> None:
        """Watches from a version on, where that isn't too old already."""
        try:
            self.watch = self.hub.watch(WIDGETS, query={"resourceVersion": version})
        except Refusal:
            self.watch = None

    def tell(self, one: Any) -> None:
        """Writes the status, where it is another and the widget is there."""
        ready = one["spec"]["replicas"]
        if one.get("status", {}).get("ready") != ready:
            path = f"{WIDGETS}/{one['metadata']['name']}/status"
            body: dict[str, Any] = {**NAMES, "status": {"ready": ready}}
            told = self.hub.apply("controller", path, body, force=True)
            assert told.status in (200, 404), told.value["message"]


class Blind(Follower):
    """Watches from a list whose items it doesn't look at, after its watch ended."""

    looks = False


class Slow(Follower):
    """Takes a step to see that its watch has ended, one to list and one to watch."""

    version = ""

    def step(self) -> None:
        """One thing after another."""
        if self.watch and self.watch.ended:
            self.watch = None
        elif self.watch:
            super().step()
        elif self.version:
            self.follow(self.version)
            self.version = ""
        else:
            self.version = self.list()


def scenario(controller: Callable[[Hub], Follower]) -> Callable[[Hub], None]:
    """A widget is applied, and once all has settled it is scaled. In the end its
    status is right, unless it is gone."""

    def play(hub: Hub) -> None:
        kept: list[Follower] = []

        def work() -> None:
            follower = kept.pop() if kept else controller(hub)
            hub.settle(follower.step)
            kept.append(follower)

        for replicas in (2, 5):
            hub.apply("alice", WIDGETS + "/w", widget(replicas=replicas))
            hub.run(work)
        read = hub.get(WIDGETS + "/w")
        if read is not None:
            ready = read.get("status", {}).get("ready")
            assert ready == read["spec"]["replicas"], "status"

    return play


class SettleTest(unittest.TestCase):
    """Steps are done until nothing is left to come."""

    def test_held_in_a_later_run(self) -> None:
        def play(hub: Hub) -> None:
            watch = hub.watch(WIDGETS, query={"resourceVersion": 1})
            seen: list[str] = []

            def step() -> None:
                seen.extend(line["type"] for line in watch.pump())

            hub.run(lambda: hub.settle(step))
            hub.apply("alice", WIDGETS + "/w", widget())
            hub.run(lambda: hub.settle(step))
            assert seen == ["ADDED"], seen

        self.assertEqual(explore(play, TYPES, (holds,)), 7)

    def test_controllers_in_two_phases(self) -> None:
        for controller in (Follower, Slow):
            self.assertGreater(explore(scenario(controller), TYPES), 20)

    def test_who_looks_at_nothing_is_found(self) -> None:
        for kind in (cuts, expiries):
            with self.assertRaisesRegex(ScheduleFailed, "status") as failed:
                explore(scenario(Blind), TYPES, (kind,))
            os.unlink(failed.exception.script)

    def test_a_cut_between_two_runs(self) -> None:
        with Hub(TYPES) as hub:
            follower = Follower(hub)
            hub.settle(follower.step)
            hub.cut()
            hub.apply("alice", WIDGETS + "/w", widget(replicas=2))
            hub.settle(follower.step)
            read = hub.request("GET", WIDGETS + "/w").value
            self.assertEqual(read["status"], {"ready": 2})

    def test_a_watch_that_ends_by_its_time(self) -> None:
        """Its last bytes are no line; a list's lines, told again, are no news."""
        with Hub(TYPES) as hub:
            hub.apply("alice", WIDGETS + "/w", widget(replicas=2))
            for query, most in (("&resourceVersion=2", 5), ("", 6)):
                lines: list[int] = []

                def step() -> None:
                    connection = HTTPConnection(hub)
                    target = f"{WIDGETS}?watch=true&timeoutSeconds=1{query}"
                    connection.request("GET", target)
                    with connection.getresponse() as reply:
                        lines.append(len(list(reply)))

                hub.settle(step)
                self.assertEqual(set(lines), {0} if query else {1})
                self.assertLessEqual(len(lines), most)

    def test_bookmarks_are_no_news(self) -> None:
        with Hub(TYPES) as hub:
            query = {"allowWatchBookmarks": True, "timeoutSeconds": 3600}
            watch = hub.watch(WIDGETS, query=query)

            def step() -> None:
                hub.tick(60_000)
                watch.lines()

            hub.settle(step)

    def test_a_watch_that_ends_in_each_step(self) -> None:
        with Hub(TYPES) as hub:
            steps: list[Watch] = []

            def step() -> None:
                steps.append(hub.watch(WIDGETS))
                steps[-1].cut()

            hub.settle(step)
            self.assertEqual(len(steps), 4)

    def test_a_client_that_leaves_in_each_step(self) -> None:
        with Hub(TYPES) as hub:
            steps: list[int] = []

            def step() -> None:
                connection = HTTPConnection(hub)
                connection.request("GET", WIDGETS + "?watch=true")
                with connection.getresponse() as reply:
                    steps.append(reply.status)

            hub.settle(step)
            self.assertEqual((steps, hub.watches), ([200], 0))


if __name__ == "__main__":
    unittest.main()
