"""The package `kubernetes` over a hub, where it is installed."""

from __future__ import annotations

import os
import unittest
from functools import partial
from typing import Optional

from nazhuvem import (
    Hub,
    NothingComes,
    ScheduleFailedError,
    changes,
    cuts,
    expiries,
    explore,
    unseen_deletions,
)
from tests.common import TYPES, WIDGETS, widget

try:
    import urllib3
    from kubernetes import client, watch

    from nazhuvem.kubernetes_client import ApiClient
except ModuleNotFoundError as missing:
    raise unittest.SkipTest("the package kubernetes isn't installed") from missing

PLACE = ("demo.example", "v1", "default", "widgets")


class KubernetesTest(unittest.TestCase):
    """Its calls, and its watch, which moves the hub."""

    def setUp(self) -> None:
        self.hub = Hub(TYPES)
        self.addCleanup(self.hub.close)
        self.client = ApiClient(self.hub)
        self.api = client.CustomObjectsApi(self.client)

    def test_calls(self) -> None:
        self.api.create_namespaced_custom_object(*PLACE, widget("w", image="a"))
        self.client.apply(WIDGETS + "/w", "alice", widget(replicas=2))
        read = self.api.get_namespaced_custom_object(*PLACE, "w")
        self.assertEqual(read["spec"], {"image": "a", "replicas": 2})
        self.api.delete_namespaced_custom_object(*PLACE, "w")
        listed = self.api.list_namespaced_custom_object(*PLACE)
        self.assertEqual(listed["items"], [])

    def test_refusal(self) -> None:
        with self.assertRaises(client.ApiException) as refused:
            self.api.get_namespaced_custom_object(*PLACE, "w")
        self.assertEqual(refused.exception.status, 404)

    def test_watch_ends_with_its_time(self) -> None:
        self.api.create_namespaced_custom_object(*PLACE, widget("w"))
        stream = watch.Watch().stream(
            self.api.list_namespaced_custom_object, *PLACE, timeout_seconds=9
        )
        self.assertEqual([it["object"]["metadata"]["name"] for it in stream], ["w"])
        self.assertEqual(self.hub.milliseconds, 9000)

    def test_settles_with_watches_that_end(self) -> None:
        self.api.create_namespaced_custom_object(*PLACE, widget("w"))

        def step() -> None:
            listed = self.api.list_namespaced_custom_object
            for _ in watch.Watch().stream(listed, *PLACE, timeout_seconds=1):
                pass

        self.hub.settle(step)
        self.assertLess(self.hub.milliseconds, 10_000)

    def test_watch_without_a_time_says_so(self) -> None:
        with self.assertRaises(NothingComes):
            list(watch.Watch().stream(self.api.list_namespaced_custom_object, *PLACE))


class Teller:
    """Tells each widget's replicas in its status, as controllers of this package do: it
    lists, then watches for a second in each step."""

    #: Whether a list after a 410 takes away what is gone.
    forgets = True

    def __init__(self, hub: Hub) -> None:
        self.api = client.CustomObjectsApi(ApiClient(hub))
        self.version: Optional[str] = None
        self.known: set[str] = set()

    def step(self) -> None:
        """Hears what is new, and tells of what is there."""
        if self.version is None:
            self.list()
        try:
            self.hear()
        except client.ApiException as error:
            if error.status != 410:
                raise
            self.version = None
        except urllib3.exceptions.ProtocolError:
            pass
        for name in sorted(self.known):
            self.tell(name)

    def list(self) -> None:
        """Takes what is there."""
        listed = self.api.list_namespaced_custom_object(*PLACE)
        if self.forgets:
            self.known.clear()
        self.known |= {it["metadata"]["name"] for it in listed["items"]}
        self.version = listed["metadata"]["resourceVersion"]

    def hear(self) -> None:
        """Takes the lines of a second."""
        call = self.api.list_namespaced_custom_object
        options = {"resource_version": self.version, "timeout_seconds": 1}
        for line in watch.Watch().stream(call, *PLACE, **options):
            metadata = line["object"]["metadata"]
            self.version = metadata["resourceVersion"]
            if line["type"] == "DELETED":
                self.known.discard(metadata["name"])
            else:
                self.known.add(metadata["name"])

    def tell(self, name: str) -> None:
        """Writes the status, unless the widget is gone or changed since."""
        try:
            one = self.api.get_namespaced_custom_object(*PLACE, name)
            if one.get("status", {}).get("ready") != one["spec"]["replicas"]:
                one["status"] = {"ready": one["spec"]["replicas"]}
                self.api.replace_namespaced_custom_object_status(*PLACE, name, one)
        except client.ApiException as error:
            if error.status not in (404, 409):
                raise


class OnlyAdds(Teller):
    """Keeps after a 410 what was deleted meanwhile."""

    forgets = False


class ControllerTest(unittest.TestCase):
    """A controller over the package, with watches that end in each step."""

    def scenario(self, teller: type[Teller], hub: Hub) -> None:
        """Two widgets have their status in the end, and nobody else is known."""
        tellers: list[Teller] = []

        def work() -> None:
            tellers.append(teller(hub))
            hub.settle(tellers[-1].step)

        for name in ("a", "b"):
            hub.apply("alice", f"{WIDGETS}/{name}", widget(replicas=2))
        hub.run(work)
        widgets = hub.request("GET", WIDGETS).value["items"]
        assert all(it["status"] == {"ready": 2} for it in widgets), "status"
        names = {it["metadata"]["name"] for it in widgets}
        assert tellers[-1].known == names, f"known: {tellers[-1].known}"

    def test_the_right_one_passes(self) -> None:
        kinds = (cuts, expiries, changes, unseen_deletions)
        scenario = partial(self.scenario, Teller)
        self.assertGreater(explore(scenario, TYPES, kinds, budget=5), 1)

    def test_a_cache_that_only_adds_is_found(self) -> None:
        with self.assertRaisesRegex(ScheduleFailedError, "known: {") as failed:
            explore(partial(self.scenario, OnlyAdds), TYPES, (unseen_deletions,))
        os.unlink(failed.exception.script)


if __name__ == "__main__":
    unittest.main()
