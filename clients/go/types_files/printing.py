"""Prints JSON for people: a value stands on one line where it fits."""

from __future__ import annotations

import json
from typing import Any

WIDTH = 120


def printed(value: Any, indent: int = 0, before: int = 0) -> str:
    """The text of a value whose first line begins after `indent` blanks and `before` characters."""
    flat = json.dumps(value, ensure_ascii=False)
    is_flat = not isinstance(value, (dict, list))
    if is_flat or indent + before + len(flat) < WIDTH:
        return flat
    inside = indent + 2
    if isinstance(value, dict):
        names = [f"{json.dumps(name, ensure_ascii=False)}: " for name in value]
        rows = [
            name + printed(it, inside, len(name))
            for name, it in zip(names, value.values())
        ]
        ends = "{}"
    else:
        rows, ends = [printed(it, inside) for it in value], "[]"
    lines = ",\n".join(" " * inside + row for row in rows)
    return f"{ends[0]}\n{lines}\n{' ' * indent}{ends[1]}"
