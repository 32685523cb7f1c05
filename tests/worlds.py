"""Runs of a server and a client behind `ssa-pipe`, by the words of rows.

A run begins with words: the types, the client's settings (`Run`). Its events are steps with `; ` between them (`events_of`).
"""

from __future__ import annotations

import contextlib
import json
import re
from collections.abc import Callable, Iterator
from typing import Any, NamedTuple

from pipe import Did, Event, Pipe
from programs import Programs
from rows import Wrong

LAST_ID = 18_446_744_073_709_551_615
ALL = 18_446_744_073_709_551_615

# Why a client can't have its settings, by what `ssa-pipe` says.
REFUSED = {
    "--page: a page has 1 to 500 objects": "Settings(1)",
    "--selector: it can't be read": "Settings(2)",
    "--namespace: it is no DNS label": "Settings(5)",
}


def schema(**members: Any) -> dict[str, Any]:
    """An object's schema."""
    return {"type": "object", "properties": members}


def typed(group: str, kind: str, spec: dict[str, Any]) -> dict[str, Any]:
    """A type of a types file."""
    plural = {"Widget": "widgets", "LabelSummary": "labelsummaries"}[kind]
    return {
        "group": f"{group}.example",
        "version": "v1",
        "kind": kind,
        "plural": plural,
        "schema": schema(spec=spec),
    }


TEXT, WHOLE = {"type": "string"}, {"type": "integer"}
PORT = schema(name=TEXT, note=TEXT, port=WHOLE)
BY_NAME = {"x-kubernetes-list-type": "map", "x-kubernetes-list-map-keys": ["name"]}


def widgets(ports: dict[str, Any]) -> dict[str, Any]:
    """The type of widgets, with each kind of list; of the ports it is this one."""
    spec = schema(
        args={"type": "array", "items": TEXT},
        config={"type": "object", "additionalProperties": TEXT},
        image=TEXT,
        ports={"type": "array", **ports, "items": PORT},
        replicas=WHOLE,
        tags={"type": "array", "x-kubernetes-list-type": "set", "items": TEXT},
    )
    return typed("demo", "Widget", spec)


def summaries(count: dict[str, Any]) -> dict[str, Any]:
    """The type of label summaries, with counts of this schema."""
    counts = {"type": "object", "additionalProperties": count}
    spec = schema(counts=counts, label=TEXT, total=WHOLE)
    return typed("summary", "LabelSummary", spec)


PLAIN = typed("demo", "Widget", schema(image=TEXT))
TYPES = {
    "": [widgets(BY_NAME), summaries(WHOLE)],
    "widgets": [PLAIN],
    "texts": [PLAIN, summaries(TEXT)],
}
PORTS_ATOMIC = [widgets({"x-kubernetes-list-type": "atomic"}), summaries(WHOLE)]


class Request(NamedTuple):
    """Another peer's bytes, which come in one piece on a new connection."""

    data: bytes


WorldEvent = Request | Event


def bytes_of(text: str) -> bytes:
    """What a text in one line shows: `|` a carriage return, `$` a line feed, `~` the byte 1, `<N TEXT>` TEXT so many times."""
    found = re.sub(
        "<([0-9]+) ([^>]*)>", lambda it: int(it.group(1)) * it.group(2), text
    )
    return found.translate(str.maketrans("|$~", "\r\n\x01")).encode()


def line_of(data: bytes) -> str:
    """Bytes in one line: a carriage return as `|`, a line feed as `$`; `-` where there are none."""
    return data.decode().translate(str.maketrans("\r\n", "|$")) or "-"


def asked(words: str) -> Request:
    """The request of `METHOD TARGET BODY`."""
    method, _, rest = words.partition(" ")
    target, _, text = rest.partition(" ")
    media = "application/apply-patch+yaml" if method == "PATCH" else "application/json"
    body = bytes_of(text)
    head = f"{method} {target} HTTP/1.1\r\nHost: localhost\r\nContent-Type: {media}\r\n"
    return Request(f"{head}Content-Length: {len(body)}\r\n\r\n".encode() + body)


def called(method: str, words: str) -> Request:
    """A POST, PUT or DELETE of the widget of `NAME TIER` or `NAMESPACE/NAME TIER`."""
    place, _, tier = words.partition(" ")
    namespace, _, name = place.rpartition("/")
    path = f"/apis/demo.example/v1/namespaces/{namespace or 'default'}/widgets"
    labels = f'"labels":{{"tier":"{tier}"}},' if tier else ""
    body = f'{{"apiVersion":"demo.example/v1","kind":"Widget","metadata":{{{labels}"name":"{name}"}}}}'
    if method == "POST":
        return asked(f"POST {path} {body}")
    return asked(f"{method} {path}/{name} {body if method == 'PUT' else ''}")


def comes(words: str) -> Event:
    """Bytes on a connection, of `K TEXT`, where `^` is a byte that is no UTF-8."""
    connection, _, text = words.partition(" ")
    data = bytes_of(text).replace(b"^", b"\xff")
    if b"\xff" in data:
        return {"bytes": [int(connection), data.hex()]}
    return {"in": [int(connection), data.decode()]}


EVENTS: dict[str, Callable[[str], WorldEvent]] = {
    "open": lambda it: {"open": int(it)},
    "in": comes,
    "gone": lambda it: {"gone": int(it)},
    "pump": lambda it: {"pump": [int(part) for part in it.split()]},
    "tick": lambda it: {"tick": int(it)},
    "compact": lambda it: {"compact": int(it)},
    "types": lambda it: {"types": {"types": PORTS_ATOMIC}},
    "create": lambda it: called("POST", it),
    "change": lambda it: called("PUT", it),
    "delete": lambda it: called("DELETE", it),
    "ask": asked,
    "send": lambda it: {"client": "send"},
    "cut": lambda it: {"client": "cut"},
    "restart": lambda it: {"client": "restart"},
    "reconcile": lambda it: {"client": "reconcile"},
    "server": lambda it: {"toServer": int(it or ALL)},
    "client": lambda it: {"toClient": int(it or ALL)},
}


def events_of(steps: str) -> Iterator[WorldEvent]:
    """The events of steps with `; ` between them."""
    for step in filter(None, steps.split("; ")):
        word, _, rest = step.partition(" ")
        if word == "opens":
            first, last = map(int, rest.split())
            yield from ({"open": it} for it in range(first, last + 1))
        elif word in EVENTS:
            yield EVENTS[word](rest)
        else:
            raise Wrong(f"no event: {step[:60]}")


class Report(NamedTuple):
    """What the client had after an event: its number, the version, the objects' texts by namespace and name, the counts."""

    event: int
    revision: int
    objects: dict[tuple[str, str], str]
    counts: dict[str, int]

    def line(self) -> str:
        """`EVENT REVISION [OBJECT@REVISION ..] {VALUE=COUNT ..}`."""
        names = [
            f"{name if namespace == 'default' else f'{namespace}/{name}'}@{revision_of(text)}"
            for (namespace, name), text in self.objects.items()
        ]
        counts = [f"{value}={count}" for value, count in self.counts.items()]
        return (
            f"{self.event} {self.revision} [{' '.join(names)}] {{{' '.join(counts)}}}"
        )


def revision_of(text: str) -> int:
    """The version that an object's text tells."""
    return int(json.loads(text)["metadata"]["resourceVersion"])


def place_of(found: dict[str, Any]) -> tuple[str, str]:
    """The namespace and the name of an object."""
    return found["metadata"]["namespace"], found["metadata"]["name"]


def text_of(found: dict[str, Any]) -> str:
    """An object's compact JSON."""
    return json.dumps(found, ensure_ascii=False, separators=(",", ":"))


def told(reports: list[Report], before: int) -> str:
    """The reports of the events behind the first so many, with bars between them; `-` where there are none."""
    return " | ".join(it.line() for it in reports if it.event > before) or "-"


class Run(contextlib.AbstractContextManager["Run"]):
    """A server and a client from their start on, as these words ask: `types=`, `kind=`, `namespace=`, `selector=`, `page=` and
    `label=`. Without them: widgets of all namespaces, two in a page, counted by `tier`.
    """

    def __init__(self, programs: Programs, words: str) -> None:
        given = dict(
            it.split("=", 1) for it in bytes_of(words).decode().split(" ") if it
        )
        types = TYPES[given.pop("types", "")]
        kind = types[int(given.pop("kind", "0"))]
        named = "/".join(kind[it] for it in ("group", "version", "plural"))
        options = ["--type", named]
        for name, value in given.items():
            options += [f"--{name}", value]
        self.pipe = Pipe(programs, json.dumps({"types": types}), options)
        self.options, self.programs = options, programs
        self.count = self.highest = 0
        self.reports: list[Report] = []
        self.requested: list[int] = []
        self.written: dict[int, bytes] = {}

    def __exit__(self, *_: object) -> None:
        self.pipe.close()

    def refusal(self) -> str | None:
        """Why the client can't have its settings, if it can't."""
        words = ["--types", self.pipe.types.name, *self.options]
        ran = self.programs.run("ssa-pipe", words)
        said = ran.err.decode().strip()
        if ran.status == 2 and said in REFUSED:
            return REFUSED[said]
        if ran.status:
            raise Wrong(f"ssa-pipe ended with status {ran.status}: {said[:300]}")
        return None

    def notes(self, did: Did) -> Did:
        """Keeps what an event wrote."""
        if did.opened is not None:
            self.opens(did.opened)
        for connection, data in did.out.items():
            self.written[connection] += data
        if did.report is not None:
            self.reports.append(self.report(did.report))
        return did

    def opens(self, connection: int) -> None:
        """A connection has opened."""
        self.highest = connection
        self.written[connection] = b""

    def report(self, found: dict[str, Any]) -> Report:
        """What the client has, of which this is reported."""
        lines = self.pipe.on({"client": "objects"}).lines
        objects = [it["object"] for it in lines if "object" in it]
        if len(objects) != found["objects"]:
            raise Wrong(f"{len(objects)} objects came, reported were {found}")
        by_place = {place_of(it): text_of(it) for it in objects}
        return Report(self.count, found["revision"], by_place, found["counts"])

    def takes(self, event: WorldEvent) -> Did | None:
        """The next event: what it did. A request for which no id is left does nothing."""
        self.count += 1
        if not isinstance(event, Request):
            did = self.notes(self.pipe.on(event))
            if "open" in event and did.refused is None:
                self.opens(event["open"])
            return did
        if self.highest == LAST_ID:
            return None
        connection = self.highest + 1
        self.pipe.on({"open": connection})
        self.opens(connection)
        self.requested.append(connection)
        return self.notes(self.pipe.on({"bytes": [connection, event.data.hex()]}))

    def takes_all(self, events: list[Event]) -> None:
        """The next events, which are of other peers' connections: none leads to a report."""
        for event, did in zip(events, self.pipe.all(events), strict=True):
            self.count += 1
            if "open" in event and did.refused is None:
                self.opens(event["open"])
            self.notes(did)

    def goes_on(self, steps: str) -> str:
        """The reports of the events of these steps."""
        before = self.count
        if steps.startswith("opens "):
            opens, _, steps = steps.partition("; ")
            self.takes_all(
                [it for it in events_of(opens) if not isinstance(it, Request)]
            )
        for event in events_of(steps):
            self.takes(event)
        return told(self.reports, before)

    def next_move(self) -> Event | None:
        """What happens next for the client to come to the server's version, if it isn't there."""
        moves = [
            it["move"] for it in self.pipe.on({"client": "next"}).lines if "move" in it
        ]
        return moves[0] if moves else None

    def catches_up(self, most: int) -> list[Event]:
        """At most so many moves by which the client comes to the server's version."""
        made: list[Event] = []
        while len(made) < most and (move := self.next_move()) is not None:
            self.takes(move)
            made.append(move)
        return made
