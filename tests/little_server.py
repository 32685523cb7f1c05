"""A run of `ssa-mirror`, whose server is this process: it answers each connection as it is told to, byte by byte."""

from __future__ import annotations

import os
import selectors
import socket
import subprocess
import tempfile
import time
from collections.abc import Sequence

from asking import TYPES
from programs import SECONDS, Programs
from rows import Wrong

PREFIX, SUFFIX = "GET /apis/demo.example/v1", " HTTP/1.1\r\nHost: localhost\r\n\r\n"
# A mirror that waits, and for so many seconds hasn't dropped a connection, has a request under way on it.
QUIET = 0.5


def target_in(request: bytes) -> str:
    """What of a request's target stands behind the type's group and version."""
    text = request.decode()
    if not (text.startswith(PREFIX) and text.endswith(SUFFIX)):
        raise Wrong(f"the mirror asked {text!r}")
    return text.removeprefix(PREFIX).removesuffix(SUFFIX)


class Mirrored:
    """A mirror that dials this process. It is ended by `close`, or at the end of a `with`."""

    def __init__(
        self,
        programs: Programs,
        options: Sequence[str] = (),
        plural: str = "widgets",
    ) -> None:
        self.listener = socket.create_server(("127.0.0.1", 0), backlog=8)
        self.port = self.listener.getsockname()[1]
        self.connection: socket.socket | None = None
        self.types = tempfile.NamedTemporaryFile("w", suffix=".json")
        self.types.write(TYPES)
        self.types.flush()
        self.told = {"out": b"", "err": b""}
        words = ["--types", self.types.name, "--port", str(self.port)]
        words += ["--type", f"demo.example/v1/{plural}", *options]
        self.process = subprocess.Popen(
            [programs.path("ssa-mirror"), *words],
            stdin=subprocess.DEVNULL,
            stdout=subprocess.PIPE,
            stderr=subprocess.PIPE,
        )
        assert self.process.stdout is not None and self.process.stderr is not None
        self.streams = {"out": self.process.stdout, "err": self.process.stderr}
        for stream in self.streams.values():
            os.set_blocking(stream.fileno(), False)

    def __enter__(self) -> Mirrored:
        return self

    def __exit__(self, *_: object) -> None:
        self.close()

    def read(self) -> None:
        """Reads what the mirror has printed until now."""
        for name, stream in self.streams.items():
            self.told[name] += stream.read() or b""

    @property
    def lines(self) -> list[str]:
        """The lines that the mirror has printed."""
        self.read()
        return self.told["out"].decode().splitlines()

    @property
    def reasons(self) -> list[str]:
        """Why replies were given up, as far as the mirror has told."""
        self.read()
        return self.told["err"].decode().splitlines()

    def waits(self, seconds: float, has_reasons: int | None = None) -> bool:
        """Waits until the mirror dials, or has told of more replies that were given up than so many; whether it does."""
        with selectors.DefaultSelector() as ready:
            ready.register(self.listener, selectors.EVENT_READ)
            if has_reasons is not None:
                ready.register(self.streams["err"], selectors.EVENT_READ)
            end = time.monotonic() + seconds
            while (left := end - time.monotonic()) > 0:
                for key, _ in ready.select(left):
                    if key.fileobj is self.listener:
                        return True
                    if len(self.reasons) > (has_reasons or 0):
                        return True
        return False

    def is_idle(self) -> bool:
        """Whether the mirror waits, and doesn't only want a processor."""
        with open(f"/proc/{self.process.pid}/stat", encoding="utf-8") as it:
            return it.read().rpartition(") ")[2].startswith("S")

    def is_dropped(self) -> bool:
        """Whether the mirror has dropped the connection, or drops it soon."""
        if self.connection is None:
            return True
        self.connection.settimeout(QUIET)
        end = time.monotonic() + SECONDS
        while time.monotonic() < end:
            try:
                return not self.connection.recv(1)
            except TimeoutError:
                if self.is_idle():
                    return False
            except OSError:
                return True
        raise Wrong("the mirror neither waits nor drops the connection")

    def ask(self) -> str:
        """The target that the mirror asks next; `none` while a request is under way."""
        if not self.is_dropped():
            return "none"
        self.cut()
        return self.accept()

    def accept(self) -> str:
        """The target of the mirror's next connection."""
        if not self.waits(SECONDS):
            raise Wrong("the mirror doesn't ask again")
        self.connection, _ = self.listener.accept()
        self.connection.setsockopt(socket.IPPROTO_TCP, socket.TCP_NODELAY, 1)
        self.connection.settimeout(SECONDS)
        request = b""
        while not request.endswith(b"\r\n\r\n"):
            piece = self.connection.recv(65536)
            if not piece:
                raise Wrong("the mirror sent no whole request")
            request += piece
        return target_in(request)

    def send(self, data: bytes, is_whole: bool = False) -> None:
        """Sends bytes one by one, or whole; where the mirror has dropped the connection they are lost."""
        if self.connection is None:
            raise Wrong("there is no connection to send on")
        pieces = [data] if is_whole else [bytes([it]) for it in data]
        try:
            for piece in pieces:
                self.connection.sendall(piece)
        except (BrokenPipeError, ConnectionResetError):
            pass

    def cut(self) -> None:
        """Ends the connection."""
        if self.connection is not None:
            self.connection.close()
            self.connection = None

    def no_more(self) -> None:
        """From now on no connection can be dialled."""
        self.listener.close()

    def ended(self) -> int:
        """Waits for the mirror's end: its exit status."""
        status = self.process.wait(SECONDS)
        self.read()
        return status

    def close(self) -> None:
        """Ends the mirror."""
        self.process.kill()
        self.process.wait(SECONDS)
        self.cut()
        self.no_more()
        for stream in self.streams.values():
            stream.close()
        self.types.close()
