"""Scripts of events: runs of the programs that play them, from files and a line at a time.

| step | what happens |
|---|---|
| `types TEXT`, `script TEXT` | the types file, the script is written |
| `types-of FILE` | the types file is a copy of one beside the rows |
| `run ARGUMENTS` | `ssa-replay` runs on these arguments, its name first |
| `play OPTIONS` | it runs on those that name both files, and these options |
| `loop OPTIONS` | so does `ssa-loop`, called by the same name |
| `both OPTIONS` | so do both, and they print and end the same |
| `full`, `gone` | as `play`, but the standard output is a full device, a pipe that nobody reads |
| `offline` | as `loop`, but no socket can be had |
| `bad LINE => WHY` | as `play`, with a script whose third line is this one, between good ones: it is refused, and why |
| `input TEXT` | `ssa-pipe` runs on the types file, and this is all that it reads; `%` stands before a byte's two digits |
| `filling TEXT` | so it does in turn with room for each number of bytes that is less than it prints: it prints just so many |
| `unreadable` | it runs on the types file, and its standard input is a folder |
| `unread OPTIONS` | it runs on the types file and these options, and nothing comes that it could read |
| `pipe OPTIONS` | it begins so, and reads what the rows below say, of which each is answered before the next is written |
| `> LINE` | it reads this line; what it prints |
| `end` | it has read all |

What comes of a run is `STATUS PRINTED`. What is printed on the standard error has a `!` before it; a carriage return is shown
as `|`, a line feed as `$`. Where `..` stands first, what is printed begins in other words.
"""

from __future__ import annotations

import contextlib
import ctypes
import functools
import os
import re
import resource
import signal
import struct
import subprocess
import tempfile
import threading
from collections.abc import Callable, Iterator, Sequence
from typing import IO, Any

from programs import SECONDS, Programs, Ran
from rows import Example, Row, Wrong, difference

TYPES, SCRIPT = "replayed-types.json", "replayed-script.jsonl"
FILES = ("--types", TYPES, "--script", SCRIPT)
# A line that applies a body.
GOOD = '{"apply":{"body":null,"force":false,"manager":"alice","target":"/x"}}'
# What `offline` asks of the system (of x86-64), by its numbers: no more rights by a program, a filter of calls, its answers.
NO_NEW_PRIVILEGES, SET_FILTER, FILTER = 38, 22, 2
SOCKET, NOT_SUPPORTED, REFUSES, ALLOWS = 41, 97, 0x50000, 0x7FFF0000


@functools.cache
def program(folder: str, name: str) -> str:
    """The path of a program itself, where a launcher stands before it, whose `--version` says more."""
    path = Programs(folder).path(name)
    itself = f"{os.path.dirname(os.path.realpath(path))}/programs/{name}"
    return itself if os.path.isfile(itself) else path


def bytes_of(text: str) -> bytes:
    """The bytes that a text in one line shows."""
    return text.replace("|", "\r").replace("$", "\n").encode()


def shown(printed: bytes) -> str:
    """What was printed, in one line."""
    text = printed.decode()
    if "|" in text or "$" in text:
        raise Wrong(f"a row can't show a `|` or `$` that is printed: {text[:300]}")
    return text.replace("\r", "|").replace("\n", "$")


def told(ran: Ran) -> str:
    """What came of a run."""
    printed = ran.out + (b"!" + ran.err if ran.err else b"")
    return f"{ran.status} {shown(printed)}"


def end_of(came: str, wanted: str) -> str:
    """As much of the end of what came as is wanted where `..` stands first, and all of it elsewhere."""
    _, _, end = wanted.partition(" ")
    status, _, printed = came.partition(" ")
    if not end.startswith(".."):
        return came
    return f"{status} ..{printed[max(len(printed) - len(end) + 2, 0):]}"


def without_sockets() -> None:
    """From here on the system refuses this process each socket."""
    steps = ((0x20, 0, 0, 0), (0x15, 0, 1, SOCKET))
    ends = ((0x06, 0, 0, REFUSES | NOT_SUPPORTED), (0x06, 0, 0, ALLOWS))
    packed = b"".join(struct.pack("HBBI", *it) for it in steps + ends)
    filters = ctypes.create_string_buffer(packed)
    listed = struct.pack("HxxxxxxP", len(steps + ends), ctypes.addressof(filters))
    call = ctypes.CDLL(None, use_errno=True).prctl
    if call(NO_NEW_PRIVILEGES, 1, 0, 0, 0) or call(SET_FILTER, FILTER, listed, 0, 0):
        raise OSError(ctypes.get_errno(), "no filter of calls can be had")


def with_room(count: int) -> None:
    """From here on the files of this process have room for so many bytes."""
    signal.signal(signal.SIGXFSZ, signal.SIG_IGN)
    resource.setrlimit(resource.RLIMIT_FSIZE, (count, count))


class Session:
    """The files of an example, and `ssa-pipe` where it runs."""

    def __init__(self, programs: Programs, example: Example) -> None:
        self.programs = programs
        self.beside = os.path.dirname(os.path.realpath(example.path))
        self.folder = tempfile.TemporaryDirectory(prefix="scripts-")
        self.piped: subprocess.Popen[bytes] | None = None
        self.limit: threading.Timer | None = None

    def close(self) -> None:
        """Ends what runs, and removes the files."""
        if self.limit:
            self.limit.cancel()
        if self.piped:
            self.piped.kill()
            self.piped.wait()
            for stream in (self.piped.stdin, self.piped.stdout, self.piped.stderr):
                if stream:
                    stream.close()
        self.folder.cleanup()

    def write(self, name: str, text: bytes) -> str:
        """Writes a file."""
        with open(f"{self.folder.name}/{name}", "wb") as it:
            it.write(text)
        return ""

    def run(
        self,
        name: str,
        words: Sequence[str],
        given: bytes | int = b"",
        out: int | IO[bytes] = subprocess.PIPE,
        before: Callable[[], None] | None = None,
    ) -> Ran:
        """Runs a program, whose name is the first word, to its end, with an input or a descriptor of one."""
        source: dict[str, Any] = {"input": given}
        if isinstance(given, int):
            source = {"stdin": given}
        ran = subprocess.run(
            words,
            executable=program(self.programs.folder, name),
            **source,
            stdout=out,
            stderr=subprocess.PIPE,
            cwd=self.folder.name,
            preexec_fn=before,
            timeout=SECONDS,
            check=False,
        )
        return Ran(ran.returncode, ran.stdout or b"", ran.stderr)

    def files(
        self,
        name: str,
        options: str = "",
        out: int | IO[bytes] = subprocess.PIPE,
        before: Callable[[], None] | None = None,
    ) -> Ran:
        """Runs a program that plays the files."""
        words = [name, *FILES, *options.split()]
        return self.run(name, words, out=out, before=before)

    def both(self, options: str) -> Ran:
        """Runs both programs, which print and end the same."""
        ran, looped = self.files("ssa-replay", options), self.files("ssa-loop", options)
        if ran != looped:
            differ = difference(told(ran), told(looped))
            raise Wrong(f"ssa-loop prints otherwise than ssa-replay: {differ}")
        return ran

    def gone(self) -> Ran:
        """Plays the files for nobody who reads what is printed."""
        reads, writes = os.pipe()
        os.close(reads)
        with os.fdopen(writes, "wb") as pipe:
            return self.files("ssa-replay", out=pipe)

    def bad(self, line: str) -> str:
        """Why a line is refused, or what came otherwise."""
        self.write(SCRIPT, bytes_of(f"{GOOD}$${line}${GOOD}"))
        came = told(self.files("ssa-replay"))
        found = re.fullmatch(r"4 !line 3: bad event: (.*)\$", came)
        return found[1] if found else came

    def input(self, text: str) -> Ran:
        """Runs `ssa-pipe` on an input."""
        parts = re.split("%([0-9a-f]{2})", text)
        given = [bytes_of(it) for it in parts]
        given[1::2] = [bytes.fromhex(it) for it in parts[1::2]]
        return self.run("ssa-pipe", ["ssa-pipe", "--types", TYPES], b"".join(given))

    def unreadable(self) -> Ran:
        """Runs `ssa-pipe` with a folder for its input."""
        given = os.open(self.folder.name, os.O_RDONLY)
        try:
            return self.run("ssa-pipe", ["ssa-pipe", "--types", TYPES], given)
        finally:
            os.close(given)

    def filling(self, text: str) -> str:
        """Runs `ssa-pipe` with less and less room for what it prints: how it ends each time, and how often."""
        whole, ends = self.input(text).out, set()
        words = ["ssa-pipe", "--types", TYPES]
        path = f"{self.folder.name}/printed"
        for room in range(len(whole)):
            with open(path, "wb") as out:
                limit = functools.partial(with_room, room)
                ran = self.run("ssa-pipe", words, bytes_of(text), out, limit)
            with open(path, "rb") as it:
                printed = it.read()
            if printed != whole[:room]:
                came = shown(printed)
                raise Wrong(f"with room for {room} bytes it prints {came}")
            ends.add(told(ran))
        return f"{len(whole)} times {' and '.join(sorted(ends))}"

    def begin(self, options: str) -> subprocess.Popen[bytes]:
        """Begins a run of `ssa-pipe`, which is ended where it takes too long."""
        self.piped = subprocess.Popen(
            ["ssa-pipe", "--types", TYPES, *options.split()],
            executable=program(self.programs.folder, "ssa-pipe"),
            stdin=subprocess.PIPE,
            stdout=subprocess.PIPE,
            stderr=subprocess.PIPE,
            cwd=self.folder.name,
        )
        self.limit = threading.Timer(SECONDS, self.piped.kill)
        self.limit.start()
        return self.piped

    def line(self, text: str) -> str:
        """What is printed for a line. An empty one isn't answered: what came of it would stand before the next answer."""
        assert self.piped and self.piped.stdin and self.piped.stdout
        # (where it has ended, reading says so)
        with contextlib.suppress(BrokenPipeError):
            os.write(self.piped.stdin.fileno(), f"{text}\n".encode())
        answer = b""
        while text:
            printed = self.piped.stdout.readline()
            answer += printed
            if printed.startswith(b'{"done":'):
                break
            if not printed:
                raise Wrong(f"it has ended, and printed {answer.decode()}")
        return shown(answer)

    def end(self, is_read: bool) -> Ran:
        """How `ssa-pipe` ends, where it can read no more or, with nothing more, by itself."""
        assert self.piped and self.piped.stdin and self.piped.stdout
        assert self.piped.stderr
        if is_read:
            self.piped.stdin.close()
        out, err = self.piped.stdout.read(), self.piped.stderr.read()
        return Ran(self.piped.wait(SECONDS), out, err)

    def unread(self, options: str) -> Ran:
        """How a run of `ssa-pipe` ends that can read nothing."""
        self.begin(options)
        return self.end(False)

    def ran(self, word: str, rest: str) -> Ran:
        """The run that a step asks for."""
        if word == "run":
            return self.run("ssa-replay", rest.split())
        if word == "full":
            with open("/dev/full", "wb") as full:
                return self.files("ssa-replay", out=full)
        plays: dict[str, Callable[[], Ran]] = {
            "play": lambda: self.files("ssa-replay", rest),
            "loop": lambda: self.files("ssa-loop", rest),
            "both": lambda: self.both(rest),
            "gone": self.gone,
            "offline": lambda: self.files("ssa-loop", before=without_sockets),
            "input": lambda: self.input(rest),
            "unreadable": self.unreadable,
            "unread": lambda: self.unread(rest),
            "end": lambda: self.end(True),
        }
        if word not in plays:
            raise Wrong("there is no such step")
        return plays[word]()

    def step(self, row: Row) -> str:
        """What comes at a row."""
        word, _, rest = row.step.partition(" ")
        if word == "types":
            return self.write(TYPES, bytes_of(rest))
        if word == "script":
            return self.write(SCRIPT, bytes_of(rest))
        if word == "types-of":
            with open(f"{self.beside}/{rest}", "rb") as it:
                return self.write(TYPES, it.read())
        if word == "bad":
            return self.bad(rest)
        if word == "filling":
            return self.filling(rest)
        if word == "pipe":
            self.begin(rest)
            return ""
        if word == ">":
            return self.line(rest)
        return end_of(told(self.ran(word, rest)), row.wanted)


def play(programs: Programs, example: Example) -> Iterator[str]:
    """What comes at each row of an example."""
    session = Session(programs, example)
    try:
        for row in example.rows:
            yield session.step(row)
    finally:
        session.close()
