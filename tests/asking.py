"""Requests that are asked of the server behind `ssa-pipe`, each on a connection of its own, and their replies."""

from __future__ import annotations

import json
from typing import Any, NamedTuple

from pipe import Pipe
from programs import Programs
from rows import Wrong

API_VERSION = "demo.example/v1"
# One type, whose objects have one text.
TYPES = (
    '{"types":[{"group":"demo.example","kind":"Widget","plural":"widgets",'
    '"schema":{"type":"object","properties":{"spec":{"type":"object",'
    '"properties":{"image":{"type":"string"}}}}},"version":"v1"}]}'
)
MEDIA = {"PATCH": "application/apply-patch+yaml"}


class Reply(NamedTuple):
    """A reply's status, and its body as JSON; of the head of a watch there is none."""

    status: int
    value: dict[str, Any] | None

    @property
    def message(self) -> str:
        """What a refusal says."""
        return str((self.value or {}).get("message"))

    @property
    def names(self) -> list[str]:
        """The names of the objects of a list."""
        items = (self.value or {})["items"]
        return [it["metadata"]["name"] for it in items]


def request(method: str, target: str, body: str | None = None) -> str:
    """The text of a request."""
    head = f"{method} {target} HTTP/1.1\r\nHost: localhost\r\n"
    if body is None:
        return f"{head}\r\n"
    media = MEDIA.get(method, "application/json")
    length = len(body.encode())
    return f"{head}Content-Type: {media}\r\nContent-Length: {length}\r\n\r\n{body}"


def reply_of(text: str) -> Reply:
    """What a whole reply says."""
    head, _, body = text.partition("\r\n\r\n")
    version, _, rest = head.partition(" ")
    if version != "HTTP/1.1" or not rest[:3].isdecimal():
        raise Wrong(f"no reply: {text[:200]}")
    if "Transfer-Encoding: chunked" in head:
        return Reply(int(rest[:3]), None)
    value = json.loads(body)
    return Reply(int(rest[:3]), value)


def widget(name: str, labels: dict[str, str] | None = None, **more: Any) -> str:
    """The text of an object without a namespace."""
    metadata: dict[str, Any] = {"name": name}
    if labels:
        metadata["labels"] = labels
    value = {"apiVersion": API_VERSION, "kind": "Widget", "metadata": metadata}
    return json.dumps({**value, **more})


class Asked(Pipe):
    """A server of widgets that has nothing yet, with requests on fresh connections."""

    def __init__(self, programs: Programs, *options: str) -> None:
        super().__init__(programs, TYPES, options)
        self.last = 0

    def __enter__(self) -> Asked:
        return self

    def text(self, method: str, target: str, body: str | None = None) -> str:
        """What is written for a request; `last` is its connection."""
        self.last += 1
        sent = {"in": [self.last, request(method, target, body)]}
        _, did = self.all([{"open": self.last}, sent])
        return did.out.get(self.last, b"").decode()

    def ask(self, method: str, target: str, body: str | None = None) -> Reply:
        """The reply to a request."""
        return reply_of(self.text(method, target, body))

    def path(self, name: str = "", namespace: str = "default") -> str:
        """The path of the widgets of a namespace, or of one of them."""
        more = f"/{name}" if name else ""
        return f"/apis/{API_VERSION}/namespaces/{namespace}/widgets{more}"

    def create(self, body: str, query: str = "", namespace: str = "default") -> Reply:
        """The reply to a POST."""
        return self.ask("POST", self.path("", namespace) + query, body)

    def made(self, *bodies: str) -> None:
        """Creates objects, which must succeed."""
        for body in bodies:
            reply = self.create(body)
            if reply.status != 201:
                raise Wrong(f"an object isn't created: {reply.message}: {body[:200]}")
