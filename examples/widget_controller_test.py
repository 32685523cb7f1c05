#!/usr/bin/python3
"""Tests the controller with a server of its own; each test has a namespace of its own, which nobody has to create.

    examples/widget_controller_test.py
"""

import contextlib
import time
import unittest
from collections.abc import Callable
from typing import Any

from kubernetes import client
from kubernetes_helper import TOP, Objects, serving
from widget_controller import GROUP, PLURAL, VERSION, WIDGET, Controller


def eventually(holds: Callable[[], Any], seconds: float = 10) -> None:
    """Waits until something holds."""
    end = time.monotonic() + seconds
    while not holds():
        if time.monotonic() > end:
            raise AssertionError("not within the time")
        time.sleep(0.01)


class Widgets(unittest.TestCase):
    """What the controller does with the widgets of a namespace."""

    api: Objects

    @classmethod
    def setUpClass(cls) -> None:
        """Starts the server of all tests."""
        with contextlib.ExitStack() as stack:
            cls.api = Objects(
                stack.enter_context(serving(f"{TOP}/examples/widgets.json"))
            )
            cls.addClassCleanup(stack.pop_all().close)

    def setUp(self) -> None:
        """Starts the controller in the test's namespace."""
        namespace = self.id().rpartition(".")[2].replace("_", "-")
        self.place = (GROUP, VERSION, namespace, PLURAL)
        self.controller = self.started()

    def started(self) -> Controller:
        """A controller, which ends with the test without an error."""
        controller = Controller(self.api, self.place[2])
        controller.start()
        self.addCleanup(lambda: self.assertEqual(controller.errors, []))
        self.addCleanup(controller.stop)
        return controller

    def apply(
        self, spec: dict[str, Any], manager: str = "alice", force: bool = False
    ) -> None:
        """Applies the widget `w`."""
        body = {**WIDGET, "metadata": {"name": "w"}, "spec": spec}
        self.api.apply(*self.place, body, manager, force=force)

    def children(self) -> list[str]:
        """The names of its children."""
        found = self.api.list_namespaced_custom_object(
            *self.place, label_selector="parent=w"
        )
        return [it["metadata"]["name"] for it in found["items"]]

    def get(self, name: str = "w") -> Any:
        """A widget."""
        return self.api.get_namespaced_custom_object(*self.place, name)

    def test_children_follow_replicas(self) -> None:
        """More, and fewer."""
        self.apply({"replicas": 3, "image": "a"})
        eventually(lambda: self.children() == ["w-0", "w-1", "w-2"])
        eventually(lambda: self.get().get("status") == {"ready": 3})
        self.apply({"replicas": 1, "image": "a"})
        eventually(lambda: self.children() == ["w-0"])
        eventually(lambda: self.get().get("status") == {"ready": 1})

    def test_a_deleted_child_comes_back(self) -> None:
        """The watch tells of the deletion."""
        self.apply({"replicas": 1})
        eventually(lambda: self.children() == ["w-0"])
        version = self.get("w-0")["metadata"]["resourceVersion"]
        self.api.delete_namespaced_custom_object(*self.place, "w-0")
        eventually(lambda: self.children() == ["w-0"])
        self.assertNotEqual(self.get("w-0")["metadata"]["resourceVersion"], version)

    def test_children_go_with_their_widget(self) -> None:
        """There are no owner references that would do it."""
        self.apply({"replicas": 2})
        eventually(lambda: len(self.children()) == 2)
        self.api.delete_namespaced_custom_object(*self.place, "w")
        eventually(lambda: self.children() == [])

    def test_what_others_own_stays(self) -> None:
        """A field of a child that the controller doesn't apply, and a conflict about one that it does."""
        self.apply({"replicas": 1, "image": "a"})
        eventually(lambda: self.children() == ["w-0"])
        body = {**WIDGET, "metadata": {"name": "w-0"}, "spec": {"tags": ["kept"]}}
        self.api.apply(*self.place, body, "bob")
        with self.assertRaises(client.ApiException) as refused:
            self.api.apply(*self.place, {**body, "spec": {"image": "b"}}, "bob")
        self.assertEqual(refused.exception.status, 409)
        self.apply({"replicas": 1, "image": "c"})
        eventually(lambda: self.get("w-0")["spec"] == {"image": "c", "tags": ["kept"]})

    def test_a_stopped_controller_catches_up(self) -> None:
        """By its list."""
        self.apply({"replicas": 2})
        eventually(lambda: len(self.children()) == 2)
        self.controller.stop()
        self.apply({"replicas": 1})
        self.started()
        eventually(lambda: self.children() == ["w-0"])


if __name__ == "__main__":
    unittest.main()
