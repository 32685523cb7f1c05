"""A hub's connections for Python's `http.client`, and for what stands on it."""

from __future__ import annotations

import http.client
import io
import socket
from typing import Any, Optional, cast

from nazhuvem.connection import Connection
from nazhuvem.hub import Hub

__tracebackhide__ = True


class _Raw(io.RawIOBase):
    """The bytes that the hub writes on a connection."""

    def __init__(self, stream: Stream, connection: Connection) -> None:
        self._stream = stream
        self._connection = connection

    def readable(self) -> bool:
        return True

    def readinto(self, room: Any) -> int:
        self._stream.hub.wait(self._connection, self._stream.timeout)
        piece = self._connection.take(len(room))
        room[: len(piece)] = piece
        return len(piece)

    def close(self) -> None:
        if not self.closed:
            self._stream.hub.leave(self._connection)
        super().close()


class Stream:
    """What `http.client` needs of a socket."""

    def __init__(self, hub: Hub) -> None:
        self.hub = hub
        self.timeout: Optional[float] = None
        self._sent = b""

    def sendall(self, data: bytes) -> None:
        """Keeps these bytes until the reply is asked for: they come in one
        piece."""
        self._sent += bytes(data)

    def makefile(self, *_: Any, **__: Any) -> io.BufferedReader:
        """Sends the request, and gives the reply's bytes."""
        connection = self.hub.ask(self._sent.decode())
        return io.BufferedReader(_Raw(self, connection))

    def settimeout(self, seconds: Optional[float]) -> None:
        """How long a read waits."""
        self.timeout = seconds

    def setsockopt(self, *_: Any) -> None:
        """Does nothing."""

    def close(self) -> None:
        """Does nothing: the reply's bytes are closed by their own."""


class HTTPConnection(http.client.HTTPConnection):
    """A connection of `http.client` that opens on a hub."""

    def __init__(self, hub: Hub) -> None:
        super().__init__("hub")
        self._hub = hub

    def connect(self) -> None:
        """Opens no socket."""
        self.sock = cast(socket.socket, Stream(self._hub))
