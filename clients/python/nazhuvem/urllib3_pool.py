"""A pool of `urllib3` (1.26) whose connections open on a hub."""

from __future__ import annotations

import socket
from typing import Any, cast

import urllib3
import urllib3.connection

from nazhuvem.hub import Hub
from nazhuvem.stream import Stream


class _Connection(urllib3.connection.HTTPConnection):
    """A connection that opens on a hub."""

    def __init__(self, *words: Any, hub: Hub, **options: Any) -> None:
        super().__init__(*words, **options)
        self._hub = hub

    def connect(self) -> None:
        """Opens no socket."""
        self.sock = cast(socket.socket, Stream(self._hub))


class _Pool(urllib3.HTTPConnectionPool):
    """A pool of the connections of one hub."""

    ConnectionCls = _Connection

    def __init__(self, hub: Hub) -> None:
        super().__init__("hub", maxsize=4, retries=False, hub=hub)


class PoolManager(urllib3.PoolManager):
    """Takes the place of `urllib3.PoolManager`: all hosts are the hub."""

    def __init__(self, hub: Hub) -> None:
        super().__init__()
        self._pool = _Pool(hub)

    def connection_from_pool_key(
        self, *_: Any, **__: Any
    ) -> urllib3.HTTPConnectionPool:
        """The hub's pool."""
        return self._pool
