"""Events that can't happen, as `ssa-pipe` refuses them; its types are those of `examples/widgets.json`.

| step | what comes |
|---|---|
| `LINE` | why the event is refused, or `-` where it happens |
"""

from __future__ import annotations

import json
from collections.abc import Iterator

from pipe import Pipe
from programs import TOP, Programs
from rows import Example


def play(programs: Programs, example: Example) -> Iterator[str]:
    """What comes at each row."""
    with open(f"{TOP}/examples/widgets.json", encoding="utf-8") as it:
        types = it.read()
    with Pipe(programs, types) as pipe:
        for row in example.rows:
            yield pipe.on(json.loads(row.step)).refused or "-"
