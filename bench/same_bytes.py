#!/usr/bin/env python3
"""Plays drawn scripts over two builds of ssa_replay, and compares what they print.

Usage: bench/same_bytes.py ONE OTHER [SCRIPTS [EVENTS [SEED]]]     (100 scripts of 1,000 events, seed 1)

ONE and OTHER are programs, the released ssa-replay and a new build, say. A script has writes of all kinds, lists at older
versions, by selectors and by pages, watches from anywhere that are pumped, compactions, ticks, and an informer's steps. The
last line counts the scripts; the status is 1 where a script is printed differently.
"""
import json
import os
import random
import subprocess
import sys
import tempfile
import urllib.parse

TOP = os.path.dirname(os.path.dirname(os.path.abspath(__file__)))
TYPES = f"{TOP}/examples/widgets.json"
BASE = "/apis/demo.example/v1/"
SPACES, NAMES = ("a", "b", "default"), [f"w{at}" for at in range(30)]
SELECTORS = ("", "tier=web", "tier!=web", "tier in (web,db)", "!tier", "tier=web,size notin (1,2)")
APPLY = "application/apply-patch+yaml"


class Script:
    """A script that grows, with the id of its last connection and about as many versions as it has written."""

    def __init__(self, seed: str) -> None:
        self.draw = random.Random(seed)
        self.lines: list[str] = []
        self.last, self.version, self.now = 0, 1, 0
        self.watches: list[int] = []

    def add(self, line: object) -> None:
        """Adds a line."""
        self.lines.append(json.dumps(line, separators=(",", ":")))

    def request(self, method: str, path: str, query: dict[str, object], body: object = None, media: str = "application/json") -> int:
        """Adds a request on the next connection, in one piece or in two, and returns the connection."""
        asked = urllib.parse.urlencode(query)
        text = "" if body is None else json.dumps(body)
        head = f"{method} {BASE}{path}{'?' * bool(asked)}{asked} HTTP/1.1\r\nHost: x\r\n"
        if body is not None:
            head += f"Content-Type: {media}\r\nContent-Length: {len(text)}\r\n"
        whole = f"{head}\r\n{text}"
        self.last += 1
        self.add({"open": self.last})
        cut = self.draw.choice((0, 0, self.draw.randrange(len(whole))))
        for piece in filter(None, (whole[:cut], whole[cut:])):
            self.add({"in": [self.last, piece]})
        return self.last

    def an_object(self) -> tuple[str, dict[str, object]]:
        """The path of an object, and a body for it."""
        draw = self.draw
        space, name = draw.choice(SPACES), draw.choice(NAMES)
        labels = {"tier": draw.choice(("web", "db", "x")), "size": str(draw.randrange(4))}
        spec = {"image": draw.choice("abc") * draw.choice((1, 1, 900)), "replicas": draw.randrange(9), "ports": [{"name": f"p{at}", "port": at} for at in range(draw.randrange(3))]}
        kept = {key: value for key, value in spec.items() if draw.random() < 0.7}
        metadata: dict[str, object] = {"name": name}
        if draw.random() < 0.6:
            metadata["labels"] = {key: value for key, value in labels.items() if draw.random() < 0.7}
        return f"namespaces/{space}/widgets/{name}", {"apiVersion": "demo.example/v1", "kind": "Widget", "metadata": metadata, "spec": kept}

    def a_version(self) -> int:
        """A version of about now, or an earlier one."""
        return max(1, self.draw.choice((self.version, self.draw.randint(1, self.version), self.version - self.draw.randrange(90))))

    def write(self) -> None:
        """Adds a write."""
        draw = self.draw
        path, body = self.an_object()
        kind = draw.choice(("apply", "apply", "apply", "create", "replace", "delete"))
        query: dict[str, object] = {"fieldManager": draw.choice("mno")}
        if kind == "apply":
            query["force"] = draw.choice(("true", "false"))
            self.request("PATCH", path, query, body, APPLY)
        elif kind == "create":
            self.request("POST", path.rpartition("/")[0], query, body)
        elif kind == "replace":
            if draw.random() < 0.3:
                body["metadata"]["resourceVersion"] = str(self.a_version())  # type: ignore[index]
            self.request("PUT", path, query, body)
        else:
            wanted = {"preconditions": {"resourceVersion": str(self.a_version())}} if draw.random() < 0.3 else None
            self.request("DELETE", path, {}, wanted)
        self.version += draw.random() < 0.5

    def read(self) -> None:
        """Adds a GET of an object, a list or a watch."""
        draw = self.draw
        where = draw.choice(("widgets", *(f"namespaces/{space}/widgets" for space in SPACES)))
        if draw.random() < 0.3:
            self.request("GET", self.an_object()[0], {})
            return
        query: dict[str, object] = {}
        if selector := draw.choice(SELECTORS):
            query["labelSelector"] = selector
        if draw.random() < 0.6:
            query["resourceVersion"] = draw.choice((0, self.a_version(), self.a_version()))
        if draw.random() < 0.4:
            query.update(watch="true", allowWatchBookmarks=draw.choice(("true", "false")))
            self.watches.append(self.request("GET", where, query))
            return
        if draw.random() < 0.5:
            query["limit"] = draw.randint(1, 9)
        if "resourceVersion" in query and draw.random() < 0.6:
            query["resourceVersionMatch"] = draw.choice(("Exact", "NotOlderThan"))
        self.request("GET", where, query)

    def pass_time(self) -> None:
        """Adds pumps, a tick, a compaction, or steps of the client."""
        draw = self.draw
        kind = draw.choice(("pump", "pump", "pump", "tick", "compact", "client", "client"))
        if kind == "pump" and self.watches:
            self.add({"pump": [draw.choice(self.watches), draw.choice((1, 2, 10, 600))]})
        elif kind == "tick":
            self.now += draw.randrange(2000)
            self.add({"tick": self.now})
        elif kind == "compact" and draw.random() < 0.2:
            self.add({"compact": max(1, self.version - draw.randrange(200))})
        elif kind == "client":
            some = {"toClient": draw.randrange(1, 3000)}
            for step in ({"client": "send"}, {"toServer": 9999}, draw.choice((some, {"toClient": 99_999}, {"toClient": 99_999}))):
                self.add(step)
            self.last += 1
            if draw.random() < 0.05:
                self.add({"client": "cut"})

    def of(self, events: int) -> str:
        """The text of a script of so many events at least."""
        while len(self.lines) < events:
            self.draw.choice((self.write, self.write, self.read, self.pass_time))()
        return "\n".join(self.lines) + "\n"


def printed(program: str, script: str) -> bytes:
    """What a program prints of a script."""
    words = [program, "--types", TYPES, "--script", script, "--page", "7"]
    return subprocess.run(words, stdout=subprocess.PIPE, check=True).stdout


def main(words: list[str]) -> int:
    """Plays the scripts, and returns the exit status."""
    one, other = (os.path.abspath(word) for word in words[:2])
    scripts, events, seed = (int(word) for word in (*words[2:], *("100", "1000", "1")[len(words) - 2 :]))
    differ, total = [], 0
    with tempfile.TemporaryDirectory() as folder:
        for at in range(scripts):
            path = f"{folder}/script.jsonl"
            with open(path, "w", encoding="ascii") as it:
                it.write(Script(f"{seed}.{at}").of(events))
            said = printed(one, path)
            total += len(said)
            if said != printed(other, path):
                differ.append(at)
    for at in differ:
        print(f"script {at} of seed {seed} is printed differently")
    print(f"{scripts - len(differ)} scripts printed alike, {len(differ)} differently; {total} bytes")
    return 1 if differ else 0


if __name__ == "__main__":
    if len(sys.argv) < 3 or set(sys.argv[1:]) & {"-h", "--help"}:
        sys.exit(__doc__)
    sys.exit(main(sys.argv[1:]))
