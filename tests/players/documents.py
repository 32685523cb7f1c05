"""The documents of discovery, by a server of the types in `documents/types.json`.

| step | what comes |
|---|---|
| `METHOD PATH` | the document's text, `other method`, or `none` |
"""

from __future__ import annotations

import os
from collections.abc import Iterator

from requesting import Requests, Reply
from pipe import Pipe
from programs import Programs
from rows import Example, Wrong

TEXTS = {404: "none", 405: "other method"}


def shown(reply: Reply) -> str:
    """What a reply says of the document."""
    if reply.status == 200:
        return reply.body
    if reply.status not in TEXTS:
        raise Wrong(f"the status is {reply.status}: {reply.body[:200]}")
    return TEXTS[reply.status]


def play(programs: Programs, example: Example) -> Iterator[str]:
    """What comes at each row."""
    with open(f"{os.path.dirname(example.path)}/types.json", encoding="utf-8") as it:
        types = it.read()
    with Pipe(programs, types, ["--discovery"]) as pipe:
        requests = Requests(pipe)
        for row in example.rows:
            method, _, path = row.step.partition(" ")
            yield shown(requests.request(method, path))
