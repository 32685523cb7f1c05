"""`ssa-server` as a process, its connections over loopback, and the texts that rows name."""

from __future__ import annotations

import json
import re
import select
import socket
import subprocess
import time
from collections.abc import Sequence

from pipe import Pipe
from programs import SECONDS, Programs
from rows import Wrong, difference
from texts import bytes_of, line_of

PATH = "/apis/demo.example/v1/widgets"
CHUNKED = "HTTP/1.1 200 OK|$Content-Type: application/json|$Transfer-Encoding: chunked|$Connection: close|$|$"
STATUS = '{"apiVersion":"v1","code":410,"kind":"Status","message":"too old resource version: 1 (2)"'
EXPIRED = f'{STATUS},"metadata":{{}},"reason":"Expired","status":"Failure"}}'
APPLIED = (
    '{"apiVersion":"demo.example/v1","kind":"Widget","metadata":{"managedFields":[{"apiVersion":"demo.example/v1",'
    '"fieldsType":"FieldsV1","fieldsV1":{"f:spec":{"f:image":{},"f:replicas":{}}},"manager":"alice",'
    '"operation":"Apply"}],"name":"w1","namespace":"default","resourceVersion":"2"},"spec":{"image":"a","replicas":3}}'
)
# A list, half a request, a watch, one of the first version, the first apply; what the list gets before it, and what the watch
# gets by it, or where it is cut before that, or where nothing before the current version is kept; what the watch of the first
# version then gets.
TEXTS = {
    "list": f"GET {PATH} HTTP/1.1|$Host: localhost|$|$",
    "half": "GET / HTTP/1.1|$",
    "watch": f"GET {PATH}?watch=true HTTP/1.1|$Host: localhost|$|$",
    "watch-of-1": f"GET {PATH}?watch=true&resourceVersion=1 HTTP/1.1|$Host: localhost|$|$",
    "apply": "PATCH /apis/demo.example/v1/namespaces/default/widgets/w1?fieldManager=alice HTTP/1.1|$Host: localhost|$"
    "Content-Type: application/apply-patch+yaml|$Content-Length: 107|$|$"
    '{"apiVersion":"demo.example/v1","kind":"Widget","metadata":{"name":"w1"},"spec":{"image":"a","replicas":3}}',
    "no-items": "HTTP/1.1 200 OK|$Content-Type: application/json|$Content-Length: 98|$Connection: close|$|$"
    '{"apiVersion":"demo.example/v1","items":[],"kind":"WidgetList","metadata":{"resourceVersion":"1"}}',
    "added": f'{CHUNKED}158|${{"type":"ADDED","object":{APPLIED}}}$|$',
    "overtaken": f'{CHUNKED}a9|${{"type":"ERROR","object":{EXPIRED}}}$|$0|$|$',
    "head": CHUNKED,
    "expired": "HTTP/1.1 410 Gone|$Content-Type: application/json|$Content-Length: 142|$Connection: close|$|$"
    f"{EXPIRED}",
    "nothing": "",
}
NAMED = {name: bytes_of(text) for name, text in TEXTS.items()}
NAMED["no-request"] = b'\xff a"b\n\n'
# What goes on behind its text.
STAYS = "added"
# A stream is quiet that gives nothing for so many seconds.
QUIET = 0.1
LOGGED = re.compile(r"(\d+\.\d{3}) (.*?)( \d+\.\d{3})?")


def heard(stream: socket.socket, count: int) -> bytes:
    """So many bytes of a stream, or fewer where it ends."""
    data = b""
    while len(data) < count and (more := stream.recv(count - len(data))):
        data += more
    return data


def is_quiet(stream: socket.socket) -> bool:
    """Whether a stream gives nothing for now, and hasn't ended."""
    return not select.select([stream], [], [], QUIET)[0]


def expect_received(stream: socket.socket, name: str) -> str:
    """The name of a text, where a stream gives just that, and then its end, or nothing for now."""
    wanted = NAMED[name]
    data = heard(stream, len(wanted) + (name != STAYS))
    if data != wanted:
        other = difference(line_of(wanted), line_of(data))
        raise Wrong(f"another text than `{name}` came: {other}")
    if name == STAYS and not is_quiet(stream):
        raise Wrong(f"more was heard than `{name}`, or its end")
    return name


def whole_reply(port: int, request: bytes) -> bytes:
    """The whole reply to a request, on a connection of its own."""
    with socket.create_connection(("127.0.0.1", port), SECONDS) as stream:
        stream.sendall(request)
        return heard(stream, 1 << 30)


class Server:
    """A server on a free port, in a folder, and the connections to it. It is killed at the end of a `with`."""

    def __init__(self, programs: Programs, words: Sequence[str], room: str) -> None:
        self.process = subprocess.Popen(
            [programs.path("ssa-server"), *words, "--port", "0"],
            cwd=room,
            stdin=subprocess.DEVNULL,
            stdout=subprocess.PIPE,
            stderr=subprocess.PIPE,
        )
        self.streams: list[socket.socket] = []
        self.log = b""
        assert self.process.stdout is not None
        said = self.process.stdout.readline().decode()
        if not said.startswith("listening on 127.0.0.1:"):
            raise Wrong(f"the server doesn't listen: {self.last_words()}")
        self.port = int(said.rpartition(":")[2])

    def __enter__(self) -> Server:
        return self

    def __exit__(self, *_: object) -> None:
        self.process.kill()
        self.process.wait()
        for stream in self.streams:
            stream.close()
        for pipe in (self.process.stdout, self.process.stderr):
            if pipe is not None:
                pipe.close()

    def last_words(self) -> str:
        """How a server ended that had to serve."""
        _, said = self.process.communicate(timeout=SECONDS)
        return f"status {self.process.returncode}: {said.decode()[:300]}"

    def send(self, data: bytes) -> None:
        """A connection opens, and sends this."""
        stream = socket.create_connection(("127.0.0.1", self.port), SECONDS)
        self.streams.append(stream)
        stream.sendall(data)

    def close(self, number: int) -> None:
        """A connection sends no more."""
        self.streams[number].shutdown(socket.SHUT_WR)

    def drop(self, number: int) -> None:
        """The peer of a connection goes, and the next one takes its place."""
        self.streams.pop(number).close()

    def version(self) -> str:
        """The version of the list of all objects."""
        _, _, body = whole_reply(self.port, NAMED["list"]).partition(b"\r\n\r\n")
        return str(json.loads(body)["metadata"]["resourceVersion"])

    def logged(self) -> str:
        """The next line of the log, without its time and its milliseconds, if it has any."""
        assert self.process.stderr is not None
        until = time.monotonic() + SECONDS
        while b"\n" not in self.log and time.monotonic() < until:
            if select.select([self.process.stderr], [], [], 1)[0]:
                # (as much as there is)
                more = self.process.stderr.read1(65536)  # type: ignore[attr-defined]
                if not more:
                    break
                self.log += more
        line, _, self.log = self.log.partition(b"\n")
        found = LOGGED.fullmatch(line.decode())
        if not found or abs(float(found[1]) - time.time()) > SECONDS:
            raise Wrong(f"no line of a log of now came: {line.decode()}")
        return found[2]

    def ended(self) -> int:
        """The status with which the server ends by itself."""
        try:
            return self.process.wait(SECONDS)
        except subprocess.TimeoutExpired as error:
            raise Wrong("the server doesn't end") from error


def apply_of(n: int, size: int) -> bytes:
    """The apply of the n-th object, with an image of so many letters."""
    spec = f'{{"image":"{size * "a"}"}}'
    body = f'{{"apiVersion":"demo.example/v1","kind":"Widget","spec":{spec}}}'
    target = f"/apis/demo.example/v1/namespaces/default/widgets/w{n}?fieldManager=a"
    head = (
        f"PATCH {target} HTTP/1.1\r\nHost: a\r\n"
        f"Content-Type: application/apply-patch+yaml\r\nContent-Length: {len(body)}"
    )
    return f"{head}\r\n\r\n{body}".encode()


def watch_is_told(server: Server, count: int) -> None:
    """A watch opens, and hears of so many objects."""
    server.send(NAMED["watch"])
    (watch,) = server.streams
    data = b""
    while b"\r\n\r\n" not in data or data.count(b'{"type":"ADDED"') < count:
        more = watch.recv(1 << 20)
        if not more:
            raise Wrong(f"the watch ended: {data[-100:]!r}")
        data += more
    if not is_quiet(watch):
        raise Wrong(f"more than {count} objects were told")


def lines_of_turns(
    programs: Programs, types: str, room: str, count: int, size: int
) -> list[int]:
    """How many lines turn after turn of a watch tells that begins with so many objects; 0 once one tells none.

    The server records its events, and the record is played: it says how many lines each pump wrote.
    """
    words = ["--types", types, "--concurrent", "--pump", "100", "--record", "record"]
    with Server(programs, words, room) as server:
        for n in range(count):
            reply = whole_reply(server.port, apply_of(n, size))
            if not reply.startswith(b"HTTP/1.1 201 "):
                raise Wrong(f"an object isn't created: {reply[:100]!r}")
        watch_is_told(server, count)
        # (so that all before it is recorded)
        server.version()
    with open(f"{room}/record", encoding="utf-8") as it:
        *lines, _ = it.read().split("\n")
    with open(types, encoding="utf-8") as it, Pipe(programs, it.read()) as pipe:
        done = [pipe.on(event) for event in map(json.loads, lines)]
    # (each of its lines is a chunk of three lines, and stands in what a pump writes)
    told = [
        did.out.get(count + 1, b"").count(b"\n") // 3
        for did, line in zip(done, lines)
        if line.startswith('{"pump":')
    ]
    return [*filter(None, told), 0]
