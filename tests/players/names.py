"""Names, and versions: what the server and the client take of them.

| step | what comes |
|---|---|
| `object TEXT` | whether it is a namespace's name (`--namespace` of `ssa-pipe`), and whether it is an object's (a POST) |
| `label TEXT` | whether it is a label's key, and whether it is a label's value (POSTs) |
| `version TEXT` | the version that it says: `ssa-mirror` is synced at that, or gives up the list that has it |
| `decimal MAX TEXT` | the decimal that it says: the seconds after which a watch ends, which are at most MAX |
"""

from __future__ import annotations

from collections.abc import Iterator

from asking import Asked, widget
from little_server import Mirrored
from programs import Programs
from replies import list_of
from rows import Example, Wrong

REFUSED = {
    "metadata.name: bad name",
    "metadata.name: required",
    "metadata.labels: bad key",
    "metadata.labels: bad value",
}
NO_NAMESPACE = "--namespace: it is no DNS label"
NO_VERSION = "reply given up: malformed page or line: resourceVersion is no version"


def word(truth: bool) -> str:
    """A truth value as rows have it."""
    return "true" if truth else "false"


def is_created(hub: Asked, body: str) -> bool:
    """Whether an object is created; else its name, or a key or value of its labels, must be refused."""
    reply = hub.create(body)
    if reply.status != 201 and (reply.status != 422 or reply.message not in REFUSED):
        raise Wrong(f"{reply.status} {reply.message}")
    return reply.status == 201


def is_namespace(programs: Programs, text: str) -> bool:
    """Whether a client can ask for this namespace."""
    with Asked(programs) as hub:
        words = ["--types", hub.types.name, f"--namespace={text}"]
        ran = programs.run("ssa-pipe", words)
    said = ran.err.decode().strip()
    if (ran.status, said) not in ((0, ""), (2, NO_NAMESPACE)):
        raise Wrong(f"status {ran.status}: {said}")
    return ran.status == 0


def version(programs: Programs, text: str) -> str:
    """The version of a list, as a client has it."""
    with Mirrored(programs) as mirror:
        mirror.accept()
        mirror.send(list_of("", f'"resourceVersion":"{text}"').encode())
        mirror.waits(10, 0)
        lines, reasons = mirror.lines, mirror.reasons
    if reasons == [NO_VERSION] and not lines:
        return "None"
    if reasons or len(lines) != 1 or not lines[0].startswith("synced "):
        raise Wrong(f"the mirror told {lines} and {reasons}")
    return f"Some({lines[0].removeprefix('synced ')})"


def decimal(hub: Asked, greatest: int, text: str) -> str:
    """The seconds after which a watch ends: at the last millisecond before these it is still there."""
    target = f"{hub.path()}?watch=true&timeoutSeconds={text}"
    if hub.text("GET", target).startswith("HTTP/1.1 400 "):
        return "None"
    before, at = hub.all([{"tick": greatest * 1000 - 1}, {"tick": greatest * 1000}])
    if before.ended or at.ended != [hub.last]:
        raise Wrong(f"the watch doesn't end after {greatest} seconds")
    return f"Some({greatest})"


def answer(programs: Programs, step: str) -> str:
    """What comes at a step."""
    call, _, text = step.partition(" ")
    if call == "version":
        return version(programs, text)
    with Asked(programs) as hub:
        if call == "object":
            is_name = is_created(hub, widget(text))
            return f"({word(is_namespace(programs, text))}, {word(is_name)})"
        if call == "label":
            is_key = is_created(hub, widget("a", {text: ""}))
            is_value = is_created(hub, widget("b", {"a": text}))
            return f"({word(is_key)}, {word(is_value)})"
        greatest, _, text = text.partition(" ")
        return decimal(hub, int(greatest), text)


def play(programs: Programs, example: Example) -> Iterator[str]:
    """What comes at each row of an example."""
    for row in example.rows:
        yield answer(programs, row.step)
