#!/usr/bin/env python3
"""Loads a server that records its events, plays the record, and compares: what each peer got is a front of what the replay
writes on its connection, and all of it where the server ended the connection.

    tools/record_test.py [--requests N] [--peers N] [--seconds N] [--disturb SEED] [FOLDER]

FOLDER has the programs as a release names them (`ssa-server`); without FOLDER they are crates/NAME/out/NAME. They are asked
10,000 times by 8 peers at once, or as often as a minute allows: applies by several managers to a few objects, lists, watches
that are left after some lines, deletions, requests in pieces, requests that their peer never ends, and bytes that are no
text. Midway another types file takes the place of the first. With a seed the server disturbs watches; of one that is cut its
peer has a front. The last line is `N passed, M failed` and counts the connections.
"""

from __future__ import annotations

import argparse
import contextlib
import json
import os
import random
import re
import socket
import subprocess
import sys
import tempfile
import threading
import time
from typing import Any, NamedTuple

from running import BUILT, TOP

REPLAY = f"{TOP}/crates/ssa_replay/out/ssa_replay"
WIDGETS = "/apis/demo.example/v1/namespaces/{}/widgets"
NAMESPACES = "default", "other"
MANAGERS = "alice", "bob", "carol"
HEAD = re.compile(rb"connection (\d+) (\d+)\n")
MARK = re.compile(r"X-Request: (\S+)\r\n")


class Got(NamedTuple):
    """What a peer got on a connection, and whether the server ended it."""

    data: bytes
    is_whole: bool


class Peer(threading.Thread):
    """Makes its requests one after another, each on a connection of its own, as its number decides."""

    def __init__(self, number: int, port: int, requests: int, until: float) -> None:
        super().__init__()
        self.number, self.port, self.requests = number, port, requests
        self.until = until
        self.draws = random.Random(number)
        self.got: dict[str, Got] = {}

    def run(self) -> None:
        """All of its requests, or as many as there is time for."""
        for n in range(self.requests):
            if time.monotonic() > self.until:
                break
            self.ask(f"{self.number}-{n}")

    def ask(self, mark: str) -> None:
        """One request, and as much of its reply as this peer wants."""
        method, target, body = self.request()
        head = f"{method} {target} HTTP/1.1\r\nHost: localhost\r\nX-Request: {mark}\r\n"
        if body is not None:
            head += f"Content-Type: application/apply-patch+yaml\r\nContent-Length: {len(body)}\r\n"
        data = head.encode() + b"\r\n" + (body or b"")
        with socket.create_connection(("127.0.0.1", self.port), timeout=60) as it:
            # (the server may refuse what it has, and end the connection)
            with contextlib.suppress(ConnectionError):
                for piece in self.pieces(data):
                    it.sendall(piece)
            if self.draws.random() < 0.02:
                self.got[mark] = Got(b"", False)
                return
            self.got[mark] = received(it, 3 if "watch=" in target else None)

    def request(self) -> tuple[str, str, bytes | None]:
        """A drawn method, target and body."""
        names = WIDGETS.format(self.draws.choice(NAMESPACES))
        name = f"{names}/w{self.draws.randrange(40)}"
        kind = self.draws.random()
        if kind < 0.6:
            manager = self.draws.choice(MANAGERS)
            force = self.draws.choice(("", "&force=true"))
            return "PATCH", f"{name}?fieldManager={manager}{force}", self.body()
        if kind < 0.7:
            return "GET", name, None
        if kind < 0.8:
            return "GET", f"{names}?limit=5&labelSelector=tier%3Ddb", None
        if kind < 0.9:
            seconds = f"&timeoutSeconds={self.draws.choice((1, 30))}"
            return "GET", f"{names}?watch=true&allowWatchBookmarks=true{seconds}", None
        if kind < 0.95:
            return "DELETE", name, None
        return "PATCH", f"{name}?fieldManager=alice", b'{"spec":"\xff\xfe"}'

    def body(self) -> bytes:
        """A drawn configuration."""
        spec: dict[str, Any] = {"image": f"image-{self.draws.randrange(5)}"}
        if self.draws.random() < 0.5:
            spec["tags"] = self.draws.sample(["a", "b", "c", "d"], 2)
        if self.draws.random() < 0.5:
            spec["config"] = {f"k{self.draws.randrange(9)}": "v" * self.draws.randrange(200)}
        labels = {"tier": self.draws.choice(("db", "web"))}
        value = {"apiVersion": "demo.example/v1", "kind": "Widget", "metadata": {"labels": labels}, "spec": spec}
        return json.dumps(value).encode()

    def pieces(self, data: bytes) -> list[bytes]:
        """The bytes in one piece or two, of which the second may never be sent."""
        kind = self.draws.random()
        if kind < 0.8:
            return [data]
        at = self.draws.randrange(len(data))
        return [data[:at], data[at:]] if kind < 0.997 else [data[:at]]


def received(it: socket.socket, lines: int | None) -> Got:
    """What comes until the server ends the connection, or so many lines of a watch are there, or nothing comes for some time."""
    it.settimeout(1)
    data = b""
    while lines is None or data.count(b'{"type":') < lines:
        try:
            piece = it.recv(65536)
        except TimeoutError:
            return Got(data, False)
        except ConnectionResetError:
            return Got(data, False)
        if not piece:
            return Got(data, True)
        data += piece
    return Got(data, False)


def with_atomic_tags(types: dict[str, Any]) -> dict[str, Any]:
    """The types file with an atomic list in place of the set of tags."""
    changed = json.loads(json.dumps(types))
    spec = changed["types"][0]["schema"]["properties"]["spec"]["properties"]
    del spec["tags"]["x-kubernetes-list-type"]
    return changed


def replace(path: str, value: object) -> None:
    """Writes a file at once."""
    with open(f"{path}.next", "w", encoding="utf-8") as it:
        json.dump(value, it)
    os.replace(f"{path}.next", path)


def load(server: str, room: str, given: argparse.Namespace) -> dict[str, Got]:
    """What the peers got of a server that records; the record is left in the room."""
    with open(f"{TOP}/examples/widgets.json", encoding="utf-8") as it:
        types = json.load(it)
    for name in ("first", "types"):
        replace(f"{room}/{name}.json", types)
    words = ["--types", f"{room}/types.json", "--record", f"{room}/record", "--port", "0", "--concurrent"]
    if given.disturb is not None:
        words += ["--disturb", given.disturb]
    with subprocess.Popen([server, *words], stdout=subprocess.PIPE, text=True) as process:
        assert process.stdout is not None
        port = int(process.stdout.readline().rpartition(":")[2])
        began = time.monotonic()
        each, until = given.requests // given.peers, began + given.seconds
        asking = [Peer(n, port, each, until) for n in range(given.peers)]
        for it in asking:
            it.start()
        while (
            sum(len(it.got) for it in asking) < given.requests // 2
            and time.monotonic() < began + given.seconds / 2
        ):
            time.sleep(0.05)
        replace(f"{room}/types.json", with_atomic_tags(types))
        for it in asking:
            it.join()
        time.sleep(1.5)
        process.kill()
    return {mark: got for it in asking for mark, got in it.got.items()}


def replayed(replay: str, room: str) -> dict[int, bytes]:
    """What the replay of the record writes on each connection. (A server that is killed may leave half a line.)"""
    with open(f"{room}/record", "rb") as it:
        lines = it.read()
    with open(f"{room}/script", "wb") as it:
        it.write(lines[: lines.rfind(b"\n") + 1])
    words = ["--types", f"{room}/first.json", "--script", f"{room}/script"]
    printed = subprocess.run([replay, *words], stdout=subprocess.PIPE, check=True).stdout
    found, at = {}, 0
    while at < len(printed):
        head = HEAD.match(printed, at)
        if not head:
            sys.exit(f"record_test: the replay printed {printed[at : at + 80]!r}")
        end = head.end() + int(head[2])
        found[int(head[1])] = printed[head.end() : end]
        at = end + 1
    return found


def marks(room: str) -> tuple[dict[str, int], set[str]]:
    """The connection on which each marked request came, by the record; and the kinds of lines that it has."""
    came: dict[int, str] = {}
    kinds = set()
    with open(f"{room}/script", encoding="utf-8") as lines:
        for line in lines:
            ((kind, value),) = json.loads(line).items()
            kinds.add(kind)
            if kind in ("in", "bytes"):
                text = value[1] if kind == "in" else bytes.fromhex(value[1]).decode(errors="replace")
                came[value[0]] = came.get(value[0], "") + text
    found = {mark[1]: number for number, text in came.items() if (mark := MARK.search(text))}
    return found, kinds


def is_cut(data: bytes) -> bool:
    """Whether this is a watch that lacks its last chunk."""
    return b"Transfer-Encoding: chunked" in data and not data.endswith(b"\r\n0\r\n\r\n")


def main() -> None:
    """Loads, replays and compares."""
    parser = argparse.ArgumentParser(description=__doc__, formatter_class=argparse.RawDescriptionHelpFormatter)
    parser.add_argument("--requests", type=int, default=10_000)
    parser.add_argument("--peers", type=int, default=8)
    parser.add_argument("--seconds", type=int, default=60)
    parser.add_argument("--disturb", metavar="SEED")
    parser.add_argument("folder", nargs="?", metavar="FOLDER")
    given = parser.parse_args()
    server, replay = BUILT, REPLAY
    if given.folder:
        server, replay = f"{given.folder}/ssa-server", f"{given.folder}/ssa-replay"
    failed = []
    with tempfile.TemporaryDirectory() as room:
        got = load(server, room, given)
        written = replayed(replay, room)
        came, kinds = marks(room)
    for mark, (data, is_whole) in got.items():
        found = written.get(came.get(mark, 0), b"")
        is_whole = is_whole and not (given.disturb is not None and is_cut(data))
        if found != data if is_whole else not found.startswith(data):
            failed.append(f"{mark}, connection {came.get(mark)}: {data[:300]!r} and not {found[:300]!r}")
    wanted = {"open", "in", "bytes", "gone", "pump", "tick", "types"}
    if not wanted <= kinds:
        failed.append(f"the record has no line {sorted(wanted - kinds)}")
    print(f"{sum(it.is_whole for it in got.values())} of {len(got)} replies are whole; lines of the record: {', '.join(sorted(kinds))}")
    for text in failed[:20]:
        print(f"FAILED: {text}")
    print(f"{len(got) - len(failed)} passed, {len(failed)} failed")
    sys.exit(1 if failed else 0)


if __name__ == "__main__":
    main()
