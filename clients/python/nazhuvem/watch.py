"""A watch whose lines come when the test lets them."""

from __future__ import annotations

import json
from typing import TYPE_CHECKING, Any

from nazhuvem.connection import Chunks, Connection, reply_of, status_of
from nazhuvem.errors import RefusalError

if TYPE_CHECKING:
    from nazhuvem.hub import Hub

__tracebackhide__ = True


class Watch:
    """A watch of a hub; `Hub.watch` opens one.

    A line is `{"type": .., "object": ..}`. The watch writes none before it is
    pumped.
    """

    def __init__(self, hub: Hub, connection: Connection) -> None:
        if status_of(connection.waiting) != 200:
            raise RefusalError(reply_of(connection.waiting))
        self._hub = hub
        self.connection = connection
        self._chunks = Chunks()
        self._text = b""
        connection.take(connection.waiting.index(b"\r\n\r\n") + 4)

    @property
    def ended(self) -> bool:
        """Whether no line comes any more but those that wait."""
        return self.connection.is_over

    def pump(self, most: int = 500) -> list[Any]:
        """Lets the watch write at most so many lines, and takes all that
        it has written."""
        self._hub.pump(most, self.connection)
        return self.lines()

    def lines(self) -> list[Any]:
        """The lines that it has written and that weren't taken yet."""
        waiting = self.connection.waiting
        self._text += self._chunks.feed(self.connection.take(len(waiting)))
        whole, line_feed, rest = self._text.rpartition(b"\n")
        if not line_feed:
            return []
        self._text = rest
        return [json.loads(line) for line in whole.split(b"\n")]

    def cut(self) -> None:
        """Cuts the connection."""
        self._hub.cut(self.connection)
