"""The README's code does what it says."""

from __future__ import annotations

import importlib.util
import os
import re
import tempfile
import unittest
from pathlib import Path
from typing import Any

import nazhuvem
from tests.common import TYPES, WIDGETS

README = Path(__file__).resolve().parents[1] / "README.md"


def controller() -> Any:
    """The controller of the example that has no fault."""
    path = TYPES.parent / "reconcile.py"
    found = importlib.util.spec_from_file_location("reconcile", path)
    assert found and found.loader
    module = importlib.util.module_from_spec(found)
    found.loader.exec_module(module)
    return getattr(module, "Mended")


def children_of(hub: nazhuvem.Hub, name: str) -> int:
    """How many children a widget has."""
    query = {"labelSelector": f"parent={name}"}
    return len(hub.request("GET", WIDGETS, query=query).value["items"])


def replicas_of(hub: nazhuvem.Hub, name: str) -> int:
    """How many it wants, or none where it is gone."""
    read = hub.get(f"{WIDGETS}/{name}")
    return int(read["spec"]["replicas"]) if read else 0


class ReadmeTest(unittest.TestCase):
    """Its blocks of Python are run in a folder with the examples."""

    def setUp(self) -> None:
        folder = tempfile.TemporaryDirectory()
        self.addCleanup(folder.cleanup)
        self.addCleanup(os.chdir, os.getcwd())
        os.chdir(folder.name)
        os.symlink(TYPES.parent, "examples")

    def test_code(self) -> None:
        text = README.read_text(encoding="utf-8")
        hub, explore, phases, _ = re.findall(r"```python\n(.*?)```", text, re.S)
        names: dict[str, Any] = {
            "explore": nazhuvem.explore,
            "Controller": controller(),
            "the_children_of": children_of,
            "the_replicas_of": replicas_of,
        }
        exec(hub, names)
        self.assertIn('{"pump":[2,1]}', Path("what_happened.jsonl").read_text())
        exec(explore, names)
        exec(phases, names)
        kinds = (nazhuvem.cuts, nazhuvem.holds, nazhuvem.restarts)
        self.assertGreater(nazhuvem.explore(names["scenario"], TYPES, kinds), 20)

    def test_names(self) -> None:
        text = README.read_text(encoding="utf-8")
        for kind in nazhuvem.EVERY:
            self.assertIn(f"`{getattr(kind, '__name__')}`", text)


if __name__ == "__main__":
    unittest.main()
