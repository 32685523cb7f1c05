"""A server and a client behind `ssa-pipe`: events go in, and what each did comes back."""

from __future__ import annotations

import json
import subprocess
import tempfile
from collections.abc import Sequence
from typing import Any, NamedTuple

from programs import SECONDS, Programs
from rows import Wrong

Event = dict[str, Any]
# So many events are written before their answers are read: both fit what a pipe holds.
MOST_AT_ONCE = 64


class Did(NamedTuple):
    """What an event did, by `ssa-pipe`'s answer."""

    opened: int | None
    out: dict[int, bytes]
    ended: list[int]
    report: dict[str, Any] | None
    refused: str | None
    lines: list[dict[str, Any]]


def first_type(types: str) -> str:
    """The first type of a types file, as `--type` names it."""
    named = json.loads(types)["types"][0]
    return "/".join(named[it] for it in ("group", "version", "plural"))


class Pipe:
    """A run of `ssa-pipe`. It is ended by `close`, or at the end of a `with`."""

    def __init__(
        self, programs: Programs, types: str, options: Sequence[str] = ()
    ) -> None:
        self.types = tempfile.NamedTemporaryFile("w", suffix=".json", encoding="utf-8")
        self.types.write(types)
        self.types.flush()
        words = ["--types", self.types.name, *options]
        if "--type" not in options:
            words += ["--type", first_type(types)]
        self.process = subprocess.Popen(
            [programs.path("ssa-pipe"), *words],
            stdin=subprocess.PIPE,
            stdout=subprocess.PIPE,
            stderr=subprocess.PIPE,
        )

    def __enter__(self) -> Pipe:
        return self

    def __exit__(self, *_: object) -> None:
        self.close()

    def on(self, event: Event) -> Did:
        """An event happens: what it did."""
        return self.all([event])[0]

    def all(self, events: Sequence[Event]) -> list[Did]:
        """Events happen, one after another: what each did."""
        found = []
        for first in range(0, len(events), MOST_AT_ONCE):
            some = events[first : first + MOST_AT_ONCE]
            lines = [json.dumps(it, ensure_ascii=False) + "\n" for it in some]
            assert self.process.stdin is not None
            try:
                self.process.stdin.write("".join(lines).encode())
                self.process.stdin.flush()
            except BrokenPipeError:
                self.lost()
            found += [self.answer(it) for it in some]
        return found

    def answer(self, event: Event) -> Did:
        """Reads what an event did."""
        assert self.process.stdout is not None
        did = Did(None, {}, [], None, None, [])
        while True:
            text = self.process.stdout.readline()
            if not text.endswith(b"\n"):
                self.lost()
            line = json.loads(text)
            did.lines.append(line)
            if "bad" in line:
                raise Wrong(f"a bad event ({line['bad']}): {json.dumps(event)[:200]}")
            if "done" in line:
                return did._replace(refused=line.get("refused"))
            if "out" in line:
                did.out[line["out"][0]] = line["out"][1].encode()
            elif "bytes" in line:
                did.out[line["bytes"][0]] = bytes.fromhex(line["bytes"][1])
            elif "ended" in line:
                did.ended.append(line["ended"])
            elif "opened" in line:
                did = did._replace(opened=line["opened"])
            elif "report" in line:
                did = did._replace(report=line["report"])

    def lost(self) -> None:
        """Says why the program answers no more."""
        _, said = self.process.communicate(timeout=SECONDS)
        status = self.process.returncode
        raise Wrong(f"ssa-pipe ended with status {status}: {said.decode()[:300]}")

    def close(self) -> None:
        """Ends the program."""
        if self.process.poll() is None:
            self.process.communicate(timeout=SECONDS)
        for stream in (self.process.stdin, self.process.stdout, self.process.stderr):
            if stream is not None:
                stream.close()
        self.types.close()
