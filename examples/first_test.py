#!/usr/bin/env python3
"""A first test: a controller that tells in a widget's status how many replicas are wanted.
`explore` finds that the widget may go between its two requests.

    PYTHONPATH=clients/python examples/first_test.py
"""
from __future__ import annotations

import os
import unittest

from nazhuvem import Hub, ScheduleFailed, explore

TYPES = os.path.join(os.path.dirname(os.path.realpath(__file__)), "widgets.json")
WIDGET = "/apis/demo.example/v1/namespaces/default/widgets/w"
NAMES = {"apiVersion": "demo.example/v1", "kind": "Widget"}
FOUND = """\
    1   PATCH /apis/demo.example/v1/namespaces/default/widgets/w?fieldManager=alice 201, version 2
    2 * GET /apis/demo.example/v1/namespaces/default/widgets/w 200
      > delete /apis/demo.example/v1/namespaces/default/widgets/w
    3 * PATCH /apis/demo.example/v1/namespaces/default/widgets/w/status?fieldManager=controller 404
"""


def reconcile(hub: Hub) -> None:
    widget = hub.request("GET", WIDGET)
    if widget.status == 200:
        ready = {"ready": widget.value["spec"]["replicas"]}
        told = hub.apply("controller", WIDGET + "/status", {**NAMES, "status": ready})
        assert told.status == 200, "the status isn't written"


def scenario(hub: Hub) -> None:
    hub.apply("alice", WIDGET, {**NAMES, "spec": {"replicas": 2}})
    hub.run(lambda: reconcile(hub))


class FirstTest(unittest.TestCase):
    """What is found of the controller."""

    def test_finds_the_race(self) -> None:
        with self.assertRaises(ScheduleFailed) as found:
            explore(scenario, TYPES)
        self.assertIn(FOUND, str(found.exception))


if __name__ == "__main__":
    unittest.main()
