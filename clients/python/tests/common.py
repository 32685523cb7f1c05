"""What the tests share: a types file, and bodies of its objects."""

from __future__ import annotations

import os
import subprocess
import sys
from functools import lru_cache
from pathlib import Path
from typing import Any

TYPES = Path(__file__).resolve().parents[3] / "examples" / "widgets.json"
WIDGETS = "/apis/demo.example/v1/namespaces/default/widgets"
NAMES = {"apiVersion": "demo.example/v1", "kind": "Widget"}


def widget(name: str = "", **spec: Any) -> dict[str, Any]:
    """A widget of this spec, with a name where one is given."""
    body: dict[str, Any] = {**NAMES, "spec": spec}
    return {**body, "metadata": {"name": name}} if name else body


def types_and_names(lines: list[Any]) -> list[tuple[str, str]]:
    """What the lines of a watch tell, without the objects."""
    return [(it["type"], it["object"]["metadata"].get("name", "")) for it in lines]


@lru_cache(maxsize=None)
def pytest_python() -> str:
    """A Python that has pytest: this one, or Debian's; empty where there is none."""
    for python in (sys.executable, "/usr/bin/python3"):
        words = [python, "-c", "import pytest"]
        if (
            os.path.exists(python)
            and not subprocess.run(words, stderr=subprocess.DEVNULL).returncode
        ):
            return python
    return ""
