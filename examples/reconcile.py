#!/usr/bin/env python3
"""The test of a controller: a widget of n replicas gets n widgets of its own, which its
status counts.

    PYTHONPATH=clients/python examples/reconcile.py

`explore` disturbs the controller at each place among its events. Of the first
controller it finds the race between reading a widget and writing its status, of the
second that nobody tells it of a child's deletion; the third passes under each schedule
of one disturbance. Of two it finds that somebody else may delete the child that the
controller is about to delete; the fourth passes.
"""
from __future__ import annotations

import os
import sys
import time
from typing import Any, Callable, Optional

from nazhuvem import EVERY, Hub, Refusal, ScheduleFailed, changes_by, explore
from nazhuvem import cuts, deletions, expiries, holds, restarts

TYPES = os.path.join(os.path.dirname(os.path.realpath(__file__)), "widgets.json")
WIDGETS = "/apis/demo.example/v1/namespaces/default/widgets"
NAMES = {"apiVersion": "demo.example/v1", "kind": "Widget"}
KINDS = (
    deletions,
    changes_by({"spec": {"replicas": 1}}),
    cuts,
    holds,
    expiries,
    restarts,
)


class Controller:
    """Lists, then watches, and reconciles what it hears of."""

    selector = "!parent"

    def __init__(self, hub: Hub) -> None:
        self.hub = hub
        self.list()

    def ask(self, method: str, path: str, body: Any = None, **query: Any) -> Any:
        """The object, or the list, of a reply."""
        reply = self.hub.request(method, WIDGETS + path, body, query=query)
        if reply.status >= 400:
            raise Refusal(reply)
        return reply.value

    def apply(self, path: str, body: dict[str, Any]) -> None:
        """An apply by the controller."""
        self.ask(
            "PATCH", path, {**NAMES, **body}, fieldManager="controller", force=True
        )

    def list(self) -> None:
        """Lists all, and watches from there on."""
        found = self.ask("GET", "", labelSelector=self.selector)
        self.heard = {parent_of(widget) for widget in found["items"]}
        self.follow(found["metadata"]["resourceVersion"])

    def follow(self, version: str) -> None:
        """Watches from a version on."""
        self.version = version
        query = {"labelSelector": self.selector, "resourceVersion": version}
        self.watch = self.hub.watch(WIDGETS, query=query)

    def hear(self) -> None:
        """Takes the lines of the watch. One that was cut goes on from its version;
        where that is too old, all is listed again."""
        for line in self.watch.pump():
            if line["type"] == "ERROR":
                self.list()
                return
            self.heard.add(parent_of(line["object"]))
            self.version = line["object"]["metadata"]["resourceVersion"]
        if self.watch.ended:
            try:
                self.follow(self.version)
            except Refusal:
                self.list()

    def step(self) -> None:
        """Reconciles what it has heard of."""
        self.hear()
        while self.heard:
            self.reconcile(self.heard.pop())

    def reconcile(self, name: str) -> None:
        """Creates the children that are missing, and deletes those too many."""
        children = self.ask("GET", "", labelSelector=f"parent={name}")["items"]
        parent = self.read(name)
        wanted = parent["spec"].get("replicas", 0) if parent else 0
        for n in range(wanted):
            self.apply(f"/{name}-{n}", {"metadata": {"labels": {"parent": name}}})
        for child in children:
            if int(child["metadata"]["name"].rpartition("-")[2]) >= wanted:
                self.delete(child["metadata"]["name"])
        if parent:
            self.tell(name, wanted)

    def delete(self, name: str) -> None:
        """Deletes a child."""
        self.ask("DELETE", "/" + name)

    def read(self, name: str) -> Optional[Any]:
        """A widget, if it is there."""
        try:
            return self.ask("GET", "/" + name)
        except Refusal:
            return None

    def tell(self, name: str, ready: int) -> None:
        """Writes the status."""
        self.apply(f"/{name}/status", {"status": {"ready": ready}})


class WithoutTheRace(Controller):
    """Expects that a widget goes before its status is written."""

    def tell(self, name: str, ready: int) -> None:
        try:
            super().tell(name, ready)
        except Refusal as refusal:
            if refusal.status != 404:
                raise


class Watching(WithoutTheRace):
    """Watches the children, too."""

    selector = ""


class Mended(Watching):
    """Expects that a child goes before it is deleted."""

    def delete(self, name: str) -> None:
        try:
            super().delete(name)
        except Refusal as refusal:
            if refusal.status != 404:
                raise


def parent_of(widget: Any) -> str:
    """The name of a child's parent, or of the widget itself."""
    labels = widget["metadata"].get("labels", {})
    return str(labels.get("parent", widget["metadata"]["name"]))


def scenario(controller: type[Controller]) -> Callable[[Hub], None]:
    """One widget of two replicas. In the end it has its children and its status, or
    they are gone as it is."""

    def play(hub: Hub) -> None:
        hub.apply("alice", WIDGETS + "/w", {**NAMES, "spec": {"replicas": 2}})
        hub.run(lambda: hub.settle(controller(hub).step))
        widgets = {
            it["metadata"]["name"]: it
            for it in hub.request("GET", WIDGETS).value["items"]
        }
        parent = widgets.pop("w", None)
        wanted = parent["spec"]["replicas"] if parent else 0
        assert sorted(widgets) == [
            f"w-{n}" for n in range(wanted)
        ], f"children: {sorted(widgets)} of {wanted}"
        assert parent is None or parent["status"]["ready"] == wanted, "status"

    return play


def found_of(controller: type[Controller], budget: Optional[float] = None) -> str:
    """What is found of a controller, in so many seconds at most."""
    began = time.monotonic()
    try:
        explore(scenario(controller), TYPES, KINDS, budget=budget)
    except ScheduleFailed as found:
        print(f"{controller.__name__}, in {time.monotonic() - began:.2f} s:\n{found}\n")
        return str(found)
    sys.exit(f"{controller.__name__}: nothing was found")


def main() -> None:
    assert 'RefusalError: 404 widgets.demo.example "w" not found' in found_of(
        Controller
    )
    assert "children: ['w-1'] of 2" in found_of(WithoutTheRace)
    assert explore(scenario(Watching), TYPES, KINDS) > 50
    assert 'RefusalError: 404 widgets.demo.example "w-' in found_of(Watching, 300)
    began = time.monotonic()
    count = explore(scenario(Mended), TYPES, (*KINDS, *EVERY), budget=5)
    print(f"Mended: {count} schedules in {time.monotonic() - began:.2f} s")


if __name__ == "__main__":
    if len(sys.argv) > 1:
        sys.exit(__doc__)
    main()
