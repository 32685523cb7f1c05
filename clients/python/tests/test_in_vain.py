"""Nothing passes in vain: what tests nothing says so at once."""

from __future__ import annotations

import itertools
import unittest
from typing import Any, Callable

from nazhuvem import (
    Hub,
    NazhuvemError,
    PipeFailedError,
    RefusalError,
    ScenarioError,
    ScheduleFailedError,
    Server,
    TypesError,
    actions,
    deletions,
    explore,
    play,
)
from tests.common import TYPES, WIDGETS, widget


class Refusals(unittest.TestCase):
    """A test's own requests have to succeed."""

    def setUp(self) -> None:
        self.hub = Hub(TYPES)
        self.addCleanup(self.hub.close)

    def test_an_unknown_field(self) -> None:
        with self.assertRaisesRegex(RefusalError, "400 .spec.sice: unknown field"):
            self.hub.apply("alice", WIDGETS + "/w", widget(sice=1))

    def test_a_wrong_path(self) -> None:
        path = "/apis/demo.example/v1/namespaces/default/gadgets"
        calls: list[Callable[[], object]] = [
            lambda: self.hub.request("POST", path, widget("w")),
            lambda: self.hub.get(path + "/w"),
        ]
        for call in calls:
            with self.assertRaisesRegex(RefusalError, "404 no such path") as refused:
                call()
            self.assertIn(path, str(refused.exception))

    def test_the_reply_is_asked_for(self) -> None:
        reply = self.hub.apply("a", WIDGETS + "/w", widget(sice=1), check=False)
        self.assertEqual(reply.status, 400)
        reply = self.hub.request("GET", WIDGETS + "/w", check=False)
        self.assertEqual(reply.status, 404)
        self.assertIsNone(self.hub.get(WIDGETS + "/w"))

    def test_a_controller_gets_its_replies(self) -> None:
        def step() -> None:
            self.assertEqual(self.hub.request("GET", WIDGETS + "/w").status, 404)
            with self.assertRaises(RefusalError):
                self.hub.request("GET", WIDGETS + "/w", check=True)

        self.hub.run(step)
        self.hub.settle(step)
        with self.assertRaises(RefusalError):
            self.hub.request("GET", WIDGETS + "/w")

    def test_a_watch_is_no_request(self) -> None:
        with self.assertRaisesRegex(ValueError, "Hub.watch"):
            self.hub.request("GET", WIDGETS, query={"watch": True})

    def test_a_closed_hub(self) -> None:
        self.hub.close()
        with self.assertRaisesRegex(PipeFailedError, "the hub is closed"):
            self.hub.request("GET", WIDGETS)


class Scenarios(unittest.TestCase):
    """A scenario has to do something, and the same each time."""

    def test_a_typo_in_the_arrangement(self) -> None:
        def scenario(hub: Hub) -> None:
            hub.apply("alice", WIDGETS + "/w", widget(sice=1))
            hub.run(lambda: hub.request("GET", WIDGETS + "/w"))

        with self.assertRaisesRegex(ScheduleFailedError, "unknown field"):
            explore(scenario, TYPES)

    def test_work_that_asks_nothing(self) -> None:
        def scenario(hub: Hub) -> None:
            hub.apply("alice", WIDGETS + "/w", widget())
            hub.run(lambda: None)

        with self.assertRaisesRegex(ScenarioError, "asks nothing"):
            explore(scenario, TYPES)
        with self.assertRaisesRegex(ScenarioError, "asks nothing"):
            play(scenario, TYPES)

    def test_nothing_happens(self) -> None:
        with self.assertRaisesRegex(ScenarioError, "nothing happens"):
            explore(lambda hub: None, TYPES)

    def test_another_number_of_requests(self) -> None:
        counts = itertools.count(1)

        def scenario(hub: Hub) -> None:
            for _ in range(next(counts)):
                hub.request("GET", WIDGETS)

        with self.assertRaisesRegex(ScenarioError, "isn't the same each time"):
            explore(scenario, TYPES)

    def test_another_request_before_the_place(self) -> None:
        plays = itertools.count()

        def scenario(hub: Hub) -> None:
            hub.request("POST", WIDGETS, widget("a" if next(plays) < 2 else "b"))
            name = hub.request("GET", WIDGETS).value["items"][0]["metadata"]["name"]
            hub.run(lambda: [hub.request("GET", f"{WIDGETS}/{name}") for _ in "12"])

        with self.assertRaisesRegex(ScenarioError, "event 3 was GET .*/a, and now is"):
            explore(scenario, TYPES, (deletions,))

    def test_a_place_that_is_not_reached(self) -> None:
        plays = itertools.count()

        def scenario(hub: Hub) -> None:
            hub.request("POST", WIDGETS, widget("a"))
            for _ in range(2 if next(plays) < 2 else 1):
                hub.request("GET", WIDGETS)

        with self.assertRaisesRegex(ScenarioError, "it ended 1 events before"):
            explore(scenario, TYPES, (lambda place: deletions(place)[:1],))

    def test_an_action_with_a_typo(self) -> None:
        def scenario_of(body: dict[str, Any]) -> None:
            def scenario(hub: Hub) -> None:
                hub.apply("alice", WIDGETS + "/w", widget(image="a"))
                hub.meanwhile("bob", lambda: hub.apply("bob", WIDGETS + "/w", body))
                hub.run(lambda: hub.request("GET", WIDGETS + "/w"))

            explore(scenario, TYPES, (actions,))

        scenario_of(widget(image="b"))
        with self.assertRaisesRegex(ScheduleFailedError, "unknown field"):
            scenario_of(widget(sice=1))


class Types(unittest.TestCase):
    """A types file has to be there."""

    def test_that_is_not_there(self) -> None:
        calls: list[Callable[[], object]] = [
            lambda: Hub("nope.json"),
            lambda: Server("nope.json"),
            lambda: explore(lambda hub: None, "nope.json"),
        ]
        for call in calls:
            with self.assertRaisesRegex(TypesError, "nope.json: No such file"):
                call()

    def test_one_base_of_all_errors(self) -> None:
        with self.assertRaises(NazhuvemError):
            Hub({"types": 1})


if __name__ == "__main__":
    unittest.main()
