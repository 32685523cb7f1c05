"""A controller that runs in real time over a server that disturbs watches: its bug is found, and by which seed is told."""

from __future__ import annotations

import http.client
import json
import subprocess
import sys
import threading
import time
import unittest
from typing import Any, Callable, Optional

from nazhuvem import Server
from tests.common import TYPES, WIDGETS, widget

SECONDS = 30
#: What is written in turn: a widget, or that it is deleted, which is the version 6.
WRITES = (
    ("PATCH", "a"),
    ("PATCH", "b"),
    ("PATCH", "c"),
    ("PATCH", "d"),
    ("DELETE", "b"),
)
APPLY = {"Content-Type": "application/apply-patch+yaml"}


def until(holds: Callable[[], bool]) -> None:
    """Waits until this holds."""
    ends = time.monotonic() + SECONDS
    while not holds():
        if time.monotonic() > ends:
            raise AssertionError(f"after {SECONDS} seconds it isn't so")
        time.sleep(0.002)


class Cache(threading.Thread):
    """Holds the names of the widgets, by a list and watches."""

    #: Whether a list after a 410 takes away what is gone.
    forgets = True

    def __init__(self, port: int) -> None:
        super().__init__(daemon=True)
        self.port = port
        self.names: set[str] = set()
        #: What is held is of this version; 0 where a list is due.
        self.version = 0
        self.watches = False
        self.is_over = False

    def ask(self, method: str, path: str, body: Any = None) -> http.client.HTTPResponse:
        """The reply to a request."""
        server = http.client.HTTPConnection("127.0.0.1", self.port, timeout=SECONDS)
        text = json.dumps(body) if body else None
        server.request(method, path, text, APPLY if body else {})
        return server.getresponse()

    def run(self) -> None:
        while not self.is_over:
            try:
                if not self.version:
                    self.list()
                self.follow()
            except (http.client.HTTPException, OSError):
                pass  # it was cut, and goes on from its version
            self.watches = False

    def list(self) -> None:
        """Takes what is there."""
        with self.ask("GET", WIDGETS) as reply:
            listed = json.load(reply)
        found = {it["metadata"]["name"] for it in listed["items"]}
        self.names = found if self.forgets else self.names | found
        self.version = int(listed["metadata"]["resourceVersion"])

    def follow(self) -> None:
        """Takes what changes, until the watch is over."""
        path = f"{WIDGETS}?watch=true&resourceVersion={self.version}"
        with self.ask("GET", path) as reply:
            self.watches = reply.status == 200
            if not self.watches:
                self.version = 0
                return
            for line in reply:
                self.take(json.loads(line))

    def take(self, line: Any) -> None:
        """Takes a line."""
        if line["type"] == "ERROR":
            self.version = 0
            return
        name = line["object"]["metadata"]["name"]
        if line["type"] == "DELETED":
            self.names.discard(name)
        else:
            self.names.add(name)
        self.version = int(line["object"]["metadata"]["resourceVersion"])


class OnlyAdds(Cache):
    """Keeps after a 410 what was deleted meanwhile."""

    forgets = False


def wrong_of(cache: type[Cache], seed: int) -> tuple[set[str], str]:
    """The names that a cache holds in the end and the server doesn't, or the other way round, and the server's log."""
    with Server(TYPES, disturb=seed) as server:
        it = cache(server.port)
        it.start()
        for method, name in WRITES:
            until(lambda: it.watches)
            body = widget(replicas=1) if method == "PATCH" else None
            its = f"{WIDGETS}/{name}" + "?fieldManager=alice" * bool(body)
            with it.ask(method, its, body) as reply:
                made = int(json.load(reply)["metadata"]["resourceVersion"])
            until(lambda: it.version >= made)
        with it.ask("GET", WIDGETS) as reply:
            there = {one["metadata"]["name"] for one in json.load(reply)["items"]}
        it.is_over = True
    return it.names ^ there, server.log


def seed_that_finds(cache: type[Cache], seeds: range) -> Optional[int]:
    """The first of these seeds by which a cache holds something else than the server."""
    return next((seed for seed in seeds if wrong_of(cache, seed)[0]), None)


class DisturbedTest(unittest.TestCase):
    """The seed 0 cuts a watch and holds one back, 1 refuses one by 410 after the version 5, 2 cuts one."""

    def test_a_cache_that_only_adds(self) -> None:
        self.assertEqual(seed_that_finds(OnlyAdds, range(9)), 1)
        wrong, log = wrong_of(OnlyAdds, 1)
        self.assertEqual(wrong, {"b"})
        self.assertEqual(log.count(" disturbed: expired\n"), 1)

    def test_the_right_one_passes(self) -> None:
        self.assertIsNone(seed_that_finds(Cache, range(3)))

    def test_a_command_takes_a_seed(self) -> None:
        serve = [sys.executable, "-m", "nazhuvem", "serve", str(TYPES)]
        for seed, wanted in (("1:cuts", 0), ("1:all", 1)):
            words = [*serve, "--disturb", seed, "--", "true"]
            ran = subprocess.run(words, capture_output=True, text=True)
            self.assertEqual(ran.returncode, wanted)
        self.assertIn("nazhuvem: --disturb: a seed", ran.stderr)


if __name__ == "__main__":
    unittest.main()
