"""Requests to the server behind `ssa-pipe`, each on a connection of its own, and their replies."""

from __future__ import annotations

import json
from typing import NamedTuple
from urllib.parse import quote

from pipe import Pipe
from rows import Wrong

APPLY = "application/apply-patch+yaml"


class Reply(NamedTuple):
    """A reply's status, and its body."""

    status: int
    body: str


class Requests:
    """Requests to the server behind a pipe, on connections from 1 on."""

    def __init__(self, pipe: Pipe) -> None:
        self.pipe, self.last = pipe, 0

    def request(
        self, method: str, target: str, body: str = "", media: str = "application/json"
    ) -> Reply:
        """The reply to a request."""
        self.last += 1
        head = [f"{method} {target} HTTP/1.1", "Host: x"]
        if body:
            length = len(body.encode())
            head += [f"Content-Type: {media}", f"Content-Length: {length}"]
        text = "".join(f"{line}\r\n" for line in [*head, ""]) + body
        _, did = self.pipe.all([{"open": self.last}, {"in": [self.last, text]}])
        return reply_of(did.out.get(self.last, b"").decode())

    def apply(
        self, target: str, manager: str, body: str, is_forced: bool = False
    ) -> Reply:
        """The reply to an apply."""
        force = "&force=true" if is_forced else ""
        query = f"fieldManager={quote(manager)}{force}"
        return self.request("PATCH", f"{target}?{query}", body, APPLY)


def reply_of(text: str) -> Reply:
    """The reply that a text is: its body is as long as the head says, and no more comes."""
    head, blank, body = text.partition("\r\n\r\n")
    words = head.split(" ")
    if not blank or words[0] != "HTTP/1.1" or not words[1].isdecimal():
        raise Wrong(f"no reply came: {text[:200]}")
    if f"\r\nContent-Length: {len(body.encode())}" not in head:
        raise Wrong(f"the body hasn't the length that its head says: {text[:200]}")
    return Reply(int(words[1]), body)


def path_of(types: str, namespace: str = "default") -> str:
    """The path of the objects of a types file's first type."""
    it = json.loads(types)["types"][0]
    place = f"/apis/{it['group']}/{it['version']}/namespaces/{namespace}"
    return f"{place}/{it['plural']}"
