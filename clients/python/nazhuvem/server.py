"""A server on a port of loopback, for clients that open connections."""

from __future__ import annotations

import os
import re
import signal
import subprocess
import threading
import weakref
from collections import deque
from os import PathLike
from types import TracebackType
from typing import Optional, Union

from nazhuvem.definitions import Types, TypesFile
from nazhuvem.errors import ServerFailedError
from nazhuvem.programs import environment, find, words_of

__tracebackhide__ = True

# So many lines of the log are kept, the last ones.
_MOST_LINES = 10_000

_servers: weakref.WeakSet[Server] = weakref.WeakSet()


def servers() -> list[Server]:
    """The servers that somebody still has, also those that have ended."""
    return list(_servers)


class Server:
    """An `ssa-server` of these types on a free port. It ends with the block.

        with Server("widgets.json") as server:
            urllib.request.urlopen(server.url + "/apis/demo.example/v1/widgets")

    It serves many connections at once, and the documents of discovery, by which
    clients find the types. `keep`, `pump`, `patience`, `disturb`, `objects` and
    `record` are the program's options of these names (`keep=5`: so many versions before
    the current one; `disturb=7`, `disturb="7:cuts,expiries"`: watches are disturbed by
    a seed). `options` are further words of its command line.
    """

    def __init__(
        self,
        types: Types,
        *options: str,
        port: int = 0,
        discovery: bool = True,
        log: bool = True,
        keep: Optional[int] = None,
        pump: Optional[int] = None,
        patience: Optional[int] = None,
        disturb: Union[int, str, None] = None,
        objects: Union[str, PathLike[str], None] = None,
        record: Union[str, PathLike[str], None] = None,
    ) -> None:
        named: dict[str, object] = {"port": port, "concurrent": True}
        named |= {"discovery": discovery, "log": log, "keep": keep, "pump": pump}
        named |= {"patience": patience, "disturb": disturb}
        named |= {"objects": objects, "record": record}
        program = find("ssa-server")
        self._types = TypesFile(types)
        self._process = subprocess.Popen(
            [program, "--types", self._types.path, *words_of(options, named)],
            stdout=subprocess.PIPE,
            stderr=subprocess.STDOUT,
            text=True,
            errors="replace",
            env=environment(),
            start_new_session=True,
        )
        self._lines: deque[str] = deque(maxlen=_MOST_LINES)
        #: How many lines it has said since its start.
        self.said: int = 0
        try:
            self.port: int = self._port()
        except BaseException:
            self._stop()
            raise
        self.url: str = f"http://127.0.0.1:{self.port}"
        # Nobody else reads what it says, and what a full pipe has no room for is left out.
        self._reader = threading.Thread(target=self._read, daemon=True)
        self._reader.start()
        _servers.add(self)

    def _port(self) -> int:
        said = ""
        assert self._process.stdout is not None
        for line in self._process.stdout:
            if found := re.search(r"listening on 127\.0\.0\.1:(\d+)$", line):
                return int(found[1])
            said += line
        raise ServerFailedError(said.strip())

    def _read(self) -> None:
        assert self._process.stdout is not None
        for line in self._process.stdout:
            self._lines.append(line)
            self.said += 1

    @property
    def log(self) -> str:
        """What it has said so far, a line for each request: the last 10,000 lines."""
        return self.log_since(0)

    def log_since(self, said: int) -> str:
        """What it has said after so many lines."""
        lines = list(self._lines)
        return "".join(lines[max(0, len(lines) - max(0, self.said - said)) :])

    def wait(self) -> int:
        """Waits until the server has ended, and gives its status."""
        return self._process.wait()

    def close(self) -> None:
        """Ends the server. Its log is kept."""
        self._stop(self._reader)

    def _stop(self, reader: Optional[threading.Thread] = None) -> None:
        if self._process.poll() is None:
            os.killpg(self._process.pid, signal.SIGTERM)
        self._process.wait()
        if reader is not None:
            reader.join()
        if self._process.stdout is not None:
            self._process.stdout.close()
        self._types.remove()

    def __enter__(self) -> Server:
        return self

    def __exit__(
        self,
        kind: Optional[type[BaseException]],
        error: Optional[BaseException],
        trace: Optional[TracebackType],
    ) -> None:
        self.close()
