"""Rows of the profile `kubernetes`: requests as controllers and kubectl send them, with the whole reply to each.

A heading is `NAME on WHAT: WHY`. WHAT is `namespaced types`, or `all types`, with those of cluster scope, of the file
`types.json`. A step is `METHOD TARGET BODY`, or `NAME METHOD TARGET BODY`: it is sent on a connection of its own. BODY and
the blank before it may be absent. By its target it is below `/apis/wide.example/v1/namespaces/ns/`, or, where that begins with
`/`, below `/apis/wide.example/v1`.

| METHOD | what is sent |
|---|---|
| `GET`, `POST`, `PUT`, `DELETE` | that; a body is `application/json`, with `;untyped` behind the method it has no type |
| `apply-patch`, `json-patch`, `merge-patch` | a PATCH of this media type; behind `;` stand parameters of the type |
| `agent` | nothing: from here on TARGET and BODY are the `User-Agent`, which is `probe/1.0` at first; `-` is none |

NAME is that of a request which kube-apiserver 1.20.2 answered, too: with the same status, reason and object, but for what
`docs/DIFFERENCES.md` has. Other steps, mostly gets of what a write left, have none.

What is wanted is the status and the body. A watch is pumped once, for as many lines as there are; its body is its lines, with `$`
for each line's end.

Each row is played twice, by `ssa-pipe` and over a socket by `ssa-server`, both with `--epoch 0`. No tick comes in `ssa-pipe`, so
each moment is 1970-01-01T00:00:00Z. A server's clock runs: its reply must be the other one byte for byte, but for the
moments in it.
"""

from __future__ import annotations

import json
import os
import re
import select
import socket
import tempfile
from collections.abc import Iterator
from typing import NamedTuple

from pipe import Pipe
from programs import Programs
from requests_and_replies import expect_head, status_of
from rows import AROUND, Example, Wrong, difference
from served import request_comes
from streams import CHUNKED, Server, is_quiet, whole_reply
from texts import bytes_of, line_of

VERSION = "/apis/wide.example/v1"
NAMESPACE = f"{VERSION}/namespaces/ns/"
OPTIONS = ("--kubernetes", "--epoch", "0")
AGENT = "probe/1.0"
METHODS = ("GET", "POST", "PUT", "DELETE")
# What has a `Content-Length` also where it has no body.
WRITES = ("POST", "PUT", "PATCH")
PATCHES = {
    "apply-patch": "application/apply-patch+yaml",
    "json-patch": "application/json-patch+json",
    "merge-patch": "application/merge-patch+json",
}
MOMENT = re.compile(rb"\d{4}-\d\d-\d\dT\d\d:\d\d:\d\dZ")
FIRST_MOMENT = b"1970-01-01T00:00:00Z"
# The head of a watch.
WATCH = bytes_of(CHUNKED)
# More lines than any row has.
LINES = 10_000
# A watch that gives nothing for so many seconds gives no more.
SILENT = 5.0


class Request(NamedTuple):
    """A request: its method, target, media type, and body."""

    method: str
    target: str
    media: str
    body: str

    def data(self, agent: str) -> bytes:
        """Its bytes."""
        head = [f"{self.method} {self.target} HTTP/1.1", "Host: localhost"]
        if agent != "-":
            head.append(f"User-Agent: {agent}")
        if self.media:
            head.append(f"Content-Type: {self.media}")
        if self.body or self.method in WRITES:
            head.append(f"Content-Length: {len(self.body.encode())}")
        return (
            "".join(f"{line}\r\n" for line in [*head, ""]).encode() + self.body.encode()
        )

    def is_watch(self) -> bool:
        """Whether it asks for a watch."""
        _, _, query = self.target.partition("?")
        return "watch=true" in query.split("&")


def words_of(step: str) -> tuple[str, str]:
    """The method of a step, and what stands behind it; a name in front of it is left out."""
    word, _, rest = step.partition(" ")
    if re.fullmatch(r"[a-z][a-z0-9]*\.[0-9a-z]+", word):
        word, _, rest = rest.partition(" ")
    return word, rest


def request_of(step: str) -> Request:
    """The request that a step is."""
    word, rest = words_of(step)
    target, _, body = rest.partition(" ")
    if not target:
        raise Wrong(f"the step has no target: {step[:AROUND]}")
    target = f"{VERSION if target.startswith('/') else NAMESPACE}{target}"
    name, _, parameters = word.partition(";")
    if name in PATCHES:
        media = PATCHES[name] + (f"; {parameters}" if parameters else "")
        return Request("PATCH", target, media, body)
    if name not in METHODS or parameters not in ("", "untyped"):
        raise Wrong(f"there is no step {word}")
    media = "application/json" if body and not parameters else ""
    return Request(name, target, media, body)


def joined(chunks: bytes) -> bytes:
    """What chunks hold."""
    body = b""
    while chunks:
        size, _, rest = chunks.partition(b"\r\n")
        length = int(size, 16)
        if rest[length : length + 2] != b"\r\n":
            raise Wrong(f"no chunk is so long: {line_of(size)}")
        body, chunks = body + rest[:length], rest[length + 2 :]
    return body


def shown(reply: bytes) -> str:
    """The status of a reply, and its body, in one line. Its head must be that of a watch, or of the status and the body, where
    it may also say what is allowed."""
    if reply.startswith(WATCH):
        return f"200 {line_of(joined(reply.removeprefix(WATCH)))}"
    head, ends, rest = reply.partition(b"\r\n\r\n")
    fields = [it for it in head.split(b"\r\n") if not it.startswith(b"Allow: ")]
    line = line_of(b"\r\n".join(fields))
    status = status_of(line)
    if not ends or status is None:
        raise Wrong(f"no reply came: {line_of(reply[:2 * AROUND])}")
    expect_head(line, status, rest.decode())
    return f"{status} {line_of(rest)}"


def heard_for_now(stream: socket.socket, count: int) -> bytes:
    """So many bytes of a stream, or fewer where it ends, or gives nothing for a while."""
    data = b""
    while len(data) < count and select.select([stream], [], [], SILENT)[0]:
        more = stream.recv(count - len(data))
        if not more:
            break
        data += more
    return data


class Both:
    """A server behind `ssa-pipe`, and one over sockets. They are ended at the end of a `with`."""

    def __init__(self, programs: Programs, types: str) -> None:
        self.room = tempfile.TemporaryDirectory(prefix="rows-")
        file = f"{self.room.name}/types.json"
        with open(file, "w", encoding="utf-8") as it:
            it.write(types)
        self.pipe = Pipe(programs, types, OPTIONS)
        words = ["--types", file, "--concurrent", *OPTIONS]
        try:
            self.server = Server(programs, words, self.room.name)
        except BaseException:
            self.pipe.close()
            self.room.cleanup()
            raise
        self.last = 0

    def __enter__(self) -> Both:
        return self

    def __exit__(self, *_: object) -> None:
        self.server.__exit__()
        self.pipe.close()
        self.room.cleanup()

    def by_pipe(self, data: bytes, is_watch: bool) -> bytes:
        """What `ssa-pipe`'s server writes on the connection of a request."""
        self.last += 1
        events = request_comes(self.last, data)
        if is_watch:
            events.append({"pump": [self.last, LINES]})
        came = self.pipe.all(events)
        return b"".join(it.out.get(self.last, b"") for it in came)

    def by_socket(self, data: bytes, count: int, is_watch: bool) -> bytes:
        """What the other server writes; of a watch so many bytes, and what comes behind them."""
        if not is_watch:
            return whole_reply(self.server.port, data)
        self.server.send(data)
        with self.server.streams.pop() as stream:
            came = heard_for_now(stream, count)
            more = b"" if is_quiet(stream) else stream.recv(AROUND)
            return came + more

    def answer(self, request: Request, agent: str) -> str:
        """What both answer, in one line."""
        data = request.data(agent)
        wanted = self.by_pipe(data, request.is_watch())
        answer = shown(wanted)
        is_watch = wanted.startswith(WATCH)
        came = self.by_socket(data, len(wanted), is_watch)
        one, other = (MOMENT.sub(FIRST_MOMENT, it) for it in (wanted, came))
        if one != other:
            raise Wrong(f"over a socket: {difference(line_of(one), line_of(other))}")
        return answer


def types_of(folder: str, heading: str) -> str:
    """The text of the types file that a heading names."""
    what = heading.partition(": ")[0].rpartition(" on ")[2]
    with open(f"{folder}/types.json", encoding="utf-8") as it:
        types = json.load(it)
    if what == "namespaced types":
        types["types"] = [it for it in types["types"] if "scope" not in it]
    elif what != "all types":
        raise Wrong(f"the heading names no types: {heading}")
    return json.dumps(types)


def play(programs: Programs, example: Example) -> Iterator[str]:
    """What comes at each row of an example, on servers of its own."""
    types = types_of(os.path.dirname(example.path), example.heading)
    agent = AGENT
    with Both(programs, types) as both:
        for row in example.rows:
            word, rest = words_of(row.step)
            if word == "agent":
                agent = rest
                yield "-"
            else:
                yield both.answer(request_of(row.step), agent)
