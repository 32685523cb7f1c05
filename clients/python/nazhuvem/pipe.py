"""The program `ssa-pipe`, which answers each line of a script before the next."""

from __future__ import annotations

import json
import os
import subprocess
from dataclasses import dataclass, field
from typing import Any, Optional, Sequence

from nazhuvem.definitions import Types, TypesFile
from nazhuvem.errors import PipeFailedError
from nazhuvem.programs import environment, find, itself

__tracebackhide__ = True

# So many bytes a pipe holds; a larger piece would be room that is made in vain.
_PIECE = 1 << 16
_OUT, _ENDED, _DONE = '{"out":', '{"ended":', '{"done":'


@dataclass
class Answer:
    """What one line of a script brought."""

    #: The number of the event: how many were read so far.
    event: int = 0
    #: The connection that the line opened by itself.
    opened: Optional[int] = None
    #: The bytes that were written, by connection.
    out: list[tuple[int, bytes]] = field(default_factory=list)
    #: The connections that ended.
    ended: list[int] = field(default_factory=list)
    #: The client's report.
    report: Optional[dict[str, Any]] = None
    #: Why the event changed nothing.
    refused: Optional[str] = None
    #: Why the line is no event.
    bad: Optional[str] = None


def _read(lines: list[str], closing: str) -> Answer:
    """The answer whose lines these are, with the one that closes it."""
    done = closing[len(_DONE) : -1]
    is_plain = done.isdigit()
    answer = Answer(int(done)) if is_plain else Answer(**_closed(json.loads(closing)))
    for line in lines:
        # Most answers have these two alone.
        if line.startswith(_OUT):
            number, text = json.loads(line[len(_OUT) : -1])
            answer.out.append((number, text.encode()))
            continue
        if line.startswith(_ENDED):
            answer.ended.append(int(line[len(_ENDED) : -1]))
            continue
        ((name, value),) = json.loads(line).items()
        if name == "bytes":
            answer.out.append((value[0], bytes.fromhex(value[1])))
        elif name == "opened":
            answer.opened = value
        elif name == "report":
            answer.report = value
        else:
            raise PipeFailedError(f"ssa-pipe printed {line}")
    return answer


def _closed(value: dict[str, Any]) -> dict[str, Any]:
    value["event"] = value.pop("done")
    return value


class Pipe:
    """A running `ssa-pipe` of these types.

    `options` are the options of its client, `"--page", "10"` say. It follows the
    first type of the file where none is named. One that doesn't wait until the program
    answers is begun later, by `begin`.
    """

    def __init__(
        self, types: Types, options: Sequence[str] = (), waits: bool = True
    ) -> None:
        program = itself(find("ssa-pipe"))
        self._types = TypesFile(types)
        #: The first type of the file; empty where the file is none of types.
        self.first_type: dict[str, Any] = self._types.first()
        self._options = list(options)
        if "--type" not in options and self.first_type:
            one = self.first_type
            place = f"{one['group']}/{one['version']}/{one['plural']}"
            self._options += ["--type", place]
        self._process = subprocess.Popen(
            [program, "--types", self._types.path, *self._options],
            bufsize=0,
            stdin=subprocess.PIPE,
            stdout=subprocess.PIPE,
            stderr=subprocess.PIPE,
            env=environment(),
        )
        assert self._process.stdin is not None
        assert self._process.stdout is not None
        self._to = self._process.stdin.fileno()
        self._from = self._process.stdout.fileno()
        self._rest = b""
        self._is_closed = False
        if waits:
            self.begin()

    def words(self, beside: str) -> list[str]:
        """The words of a program that plays the same; a temporary types file is
        kept beside this file."""
        return ["--types", self._types.kept(beside), *self._options]

    def begin(self) -> None:
        """Waits until it answers, or tells why it doesn't: no line is `{}`."""
        try:
            self.ask("{}")
        except BaseException:
            self.close()
            raise

    def ask(self, *lines: str) -> list[Answer]:
        """The answers to these lines, which are sent at once."""
        self._send(("\n".join(lines) + "\n").encode())
        answers: list[Answer] = []
        parts: list[str] = []
        while len(answers) < len(lines):
            for line in self._lines():
                if line.startswith(_DONE):
                    answers.append(_read(parts, line))
                    parts = []
                else:
                    parts.append(line)
        return answers

    def _send(self, data: bytes) -> None:
        if self._is_closed:
            raise PipeFailedError("the hub is closed")
        try:
            while data:
                data = data[os.write(self._to, data) :]
        except BrokenPipeError:
            raise PipeFailedError(self._last_words()) from None

    def _lines(self) -> list[str]:
        """The whole lines that come next, one or more."""
        pieces = [self._rest]
        while True:
            piece = os.read(self._from, _PIECE)
            if not piece:
                raise PipeFailedError(self._last_words())
            pieces.append(piece)
            if b"\n" in piece:
                break
        whole, _, self._rest = b"".join(pieces).rpartition(b"\n")
        return whole.decode().split("\n")

    def _last_words(self) -> str:
        assert self._process.stderr is not None
        said = self._process.stderr.read().decode(errors="replace").strip()
        return said or f"ssa-pipe ended with status {self._process.wait()}"

    def close(self) -> None:
        """Ends the program."""
        self._is_closed = True
        for stream in (self._process.stdin, self._process.stdout):
            if stream is not None:
                stream.close()
        self._process.wait()
        if self._process.stderr is not None:
            self._process.stderr.close()
        self._types.remove()
