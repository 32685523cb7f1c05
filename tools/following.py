"""A client of `ssa-server` that lists and watches as docs/API.md says, for tests: what it holds, and what it met."""

from __future__ import annotations

import collections
import json
import socket
import threading
from collections.abc import Iterator
from typing import IO, Any

# A line comes within so many seconds, where one is due.
SECONDS = 60
# So many objects are on a page.
PAGE = 7


class Cut(Exception):
    """A reply ends before it is whole."""


class Expired(Exception):
    """What is asked for isn't kept any more."""


def asked(stream: socket.socket, target: str) -> IO[bytes]:
    """What a GET of this target is answered, behind the reply's head, which says that it is well."""
    stream.sendall(f"GET {target} HTTP/1.1\r\nHost: localhost\r\n\r\n".encode())
    reply = stream.makefile("rb")
    status = reply.readline().split()
    while (line := reply.readline()) != b"\r\n":
        if not line.endswith(b"\n"):
            raise Cut
    if status[1:2] != [b"200"]:
        raise Expired
    return reply


def lines_in(reply: IO[bytes]) -> Iterator[Any]:
    """The lines of a watch until its last chunk."""
    begun = b""
    while size := int(reply.readline().strip() or b"-1", 16):
        chunk = reply.read(size + 2) if size > 0 else b""
        if not chunk.endswith(b"\r\n") or len(chunk) != size + 2:
            raise Cut
        *whole, begun = (begun + chunk[:-2]).split(b"\n")
        yield from (json.loads(it) for it in whole)


class Follower(threading.Thread):
    """Follows the objects of a path until it holds the version at which it is to end."""

    def __init__(self, port: int, path: str) -> None:
        super().__init__(daemon=True)
        self.address, self.path = ("127.0.0.1", port), path
        self.objects: dict[str, Any] = {}
        self.version = 0
        self.is_listed = False
        self.last: int | None = None
        self.met: collections.Counter[str] = collections.Counter()

    def run(self) -> None:
        """Lists and watches in turn."""
        while self.last is None or self.version < self.last:
            try:
                if not self.is_listed:
                    self.list()
                self.watch()
            except Expired:
                self.met["expired"] += 1
                self.is_listed = False
            except (Cut, ConnectionError):
                self.met["cut"] += 1

    def list(self) -> None:
        """All objects, page by page: others are gone."""
        found, more, version = {}, "", 0
        while True:
            target = f"{self.path}?limit={PAGE}{more}"
            with socket.create_connection(self.address, SECONDS) as stream:
                page = json.loads(asked(stream, target).read())
            found |= {it["metadata"]["name"]: it for it in page["items"]}
            version = int(page["metadata"]["resourceVersion"])
            if not (token := page["metadata"].get("continue")):
                break
            more = f"&continue={token}"
        self.objects, self.version, self.is_listed = found, version, True
        self.met["listed"] += 1

    def watch(self) -> None:
        """Each change from the version that is held, until the watch ends."""
        target = f"{self.path}?watch=true&timeoutSeconds=5&resourceVersion={self.version}"
        with socket.create_connection(self.address, SECONDS) as stream:
            for line in lines_in(asked(stream, target)):
                self.take(line["type"], line["object"])

    def take(self, kind: str, it: Any) -> None:
        """What a line tells."""
        if kind == "ERROR":
            raise Expired
        version = int(it["metadata"]["resourceVersion"])
        if version <= self.version:
            raise AssertionError(f"version {version} comes behind {self.version}")
        name = it["metadata"]["name"]
        is_new = name not in self.objects
        if is_new != (kind == "ADDED"):
            raise AssertionError(f"{kind} of {name}, which is {'not ' * is_new}there")
        if kind == "DELETED":
            del self.objects[name]
        else:
            self.objects[name] = it
        self.version = version
        self.met["told"] += 1

    def ended_at(self, version: int) -> dict[str, Any]:
        """The objects at a version, after which nothing is written."""
        self.last = version
        self.join(SECONDS)
        if self.version != version:
            raise AssertionError(f"it is at version {self.version} and not at {version}")
        return self.objects
