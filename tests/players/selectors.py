"""Selectors: which objects a list has that asks for one, and what is wrong with a text that is none.

| step | what comes |
|---|---|
| `select {TEXT}` | whether the selector takes a frontend in production, and whether it takes an object with one label without a value |
| `fault {TEXT}` | why the text is no selector, as `ssa-mirror` says it of its option |
| `name {TEXT}` | whether the field selector takes an object of the name `w1`, and whether it takes one of another name; `none` where it is refused |
"""

from __future__ import annotations

import socket
from collections.abc import Iterator
from urllib.parse import quote

from asking import Asked, widget
from players.names import word
from programs import Programs
from rows import Example, Wrong

FAULTS = {
    "--selector: a part is empty": "Some(Fault(EmptyPart))",
    "--selector: a key is not a label's": "Some(Fault(BadKey))",
    "--selector: a value is not a label's": "Some(Fault(BadValue))",
    "--selector: a bracket is misplaced": "Some(Fault(Bracket))",
}


def taken(hub: Asked, parameter: str, text: str) -> str:
    """Which of the two objects a list has; `none` where the parameter is refused."""
    reply = hub.ask("GET", f"{hub.path()}?{parameter}={quote(text)}")
    if reply.status == 400 and reply.message == f"bad parameter: {parameter}":
        return "none"
    if reply.status != 200 or not set(reply.names) <= {"w1", "w2"}:
        raise Wrong(f"{reply.status} {reply.value}")
    return f"({word('w1' in reply.names)}, {word('w2' in reply.names)})"


def fault(programs: Programs, text: str) -> str:
    """Why a text is no selector; none where `ssa-mirror` goes on to dial a port at which nobody listens."""
    with socket.socket() as nobody, Asked(programs) as hub:
        nobody.bind(("127.0.0.1", 0))
        words = ["--types", hub.types.name, "--type", "demo.example/v1/widgets"]
        words += ["--port", str(nobody.getsockname()[1]), f"--selector={text}"]
        ran = programs.run("ssa-mirror", words)
    said = ran.err.decode().strip()
    if ran.status == 6 and "Connection refused" in said:
        return "None"
    if ran.status != 2 or said not in FAULTS:
        raise Wrong(f"status {ran.status}: {said}")
    return FAULTS[said]


def answer(programs: Programs, step: str) -> str:
    """What comes at a step."""
    call, _, text = step.partition(" ")
    text = text.removeprefix("{").removesuffix("}")
    if call == "fault":
        return fault(programs, text)
    with Asked(programs, *(["--discovery"] if call == "name" else [])) as hub:
        hub.made(
            widget("w1", {"environment": "production", "tier": "frontend"}),
            widget("w2", {"partition": ""}),
        )
        return taken(hub, "fieldSelector" if call == "name" else "labelSelector", text)


def play(programs: Programs, example: Example) -> Iterator[str]:
    """What comes at each row of an example."""
    for row in example.rows:
        yield answer(programs, row.step)
