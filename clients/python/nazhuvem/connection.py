"""A connection of a hub: what was asked on it, and what was written on it."""

from __future__ import annotations

import json
import re
from dataclasses import dataclass
from typing import Any, Mapping, Optional, Union
from urllib.parse import urlencode

__tracebackhide__ = True

#: Parameters of a request, by name.
Query = Mapping[str, Union[str, int, bool]]

#: A value as compact JSON.
json_text = json.JSONEncoder(separators=(",", ":")).encode

_OBJECT = re.compile(r"/apis/[^/]+/[^/]+/namespaces/[^/]+/[^/]+(/[^/]+)(/status)?$")
_TIMEOUT = re.compile(r"[?&]timeoutSeconds=(\d+)")
_APPLY = "application/apply-patch+yaml"


@dataclass(frozen=True)
class Reply:
    """A whole reply: its status, and its body as JSON."""

    status: int
    value: Any


def target_of(path: str, query: Optional[Query]) -> str:
    """The path with these parameters behind it."""
    if not query:
        return path
    words = {name: _word(value) for name, value in query.items()}
    return path + ("&" if "?" in path else "?") + urlencode(words)


def _word(value: Union[str, int, bool]) -> str:
    return str(value).lower() if isinstance(value, bool) else str(value)


def request_text(method: str, target: str, body: Any = None, media: str = "") -> str:
    """A request's bytes as a text: a body that is no text is sent as JSON."""
    lines = [f"{method} {target} HTTP/1.1", "Host: hub"]
    content = ""
    if body is not None:
        content = body if isinstance(body, str) else json_text(body)
        media = media or (_APPLY if method == "PATCH" else "application/json")
        lines.append(f"Content-Type: {media}")
    if content or method in ("POST", "PUT", "PATCH"):
        lines.append(f"Content-Length: {len(content.encode())}")
    return "\r\n".join(lines) + "\r\n\r\n" + content


class Connection:
    """What the hub has written on a connection, and nobody has taken yet."""

    def __init__(self, number: int, method: str, target: str) -> None:
        self.number = number
        self.method = method
        self.target = target
        self.waiting = bytearray()
        self.ended = False
        self.is_cut = False
        #: Whether its reply goes on after the request.
        self.is_watch = False
        self._written: Optional[Chunks] = None
        self._text = b""

    @property
    def seconds(self) -> Optional[float]:
        """After how many seconds its watch ends."""
        found = _TIMEOUT.search(self.target)
        return float(found[1]) if found and found[1].strip("0") else None

    @property
    def is_over(self) -> bool:
        """Whether nothing more comes but what waits."""
        return self.ended or self.is_cut

    def take(self, most: int) -> bytes:
        """The next bytes, at most so many."""
        piece = bytes(self.waiting[:most])
        del self.waiting[:most]
        return piece

    def lines_of(self, data: bytes) -> list[bytes]:
        """The lines of a watch that its next bytes complete."""
        self._written = self._written or Chunks()
        *lines, self._text = (self._text + self._written.feed(data)).split(b"\n")
        return lines


def status_of(data: Union[bytes, bytearray]) -> int:
    """The status of a reply that begins with these bytes."""
    return int(data[9:12])


def reply_of(data: Union[bytes, bytearray]) -> Reply:
    """A whole reply whose body has a length."""
    _, _, body = bytes(data).partition(b"\r\n\r\n")
    return Reply(status_of(data), json.loads(body.decode()))


def is_write(method: str) -> bool:
    """Whether a request of this method may change an object."""
    return method in ("POST", "PUT", "PATCH", "DELETE")


def object_written(method: str, target: str, body: Any) -> Optional[str]:
    """The path of the object that a successful write left or, of a DELETE,
    took away; None where it is none of these."""
    path = target.partition("?")[0]
    if method == "POST":
        return _created(path, body)
    found = _OBJECT.match(path)
    if not is_write(method) or not found or found[2]:
        return None
    return path


def _created(path: str, body: Any) -> Optional[str]:
    try:
        value = json.loads(body) if isinstance(body, (str, bytes)) else body
        return f"{path}/{value['metadata']['name']}"
    except (ValueError, KeyError, TypeError):
        return None


class Chunks:
    """Reads the pieces of a chunked body, in whatever pieces they come."""

    def __init__(self) -> None:
        self._rest = b""

    def feed(self, data: bytes) -> bytes:
        """The contents of the chunks that these bytes complete."""
        self._rest += data
        found = b""
        while True:
            size, line_feed, behind = self._rest.partition(b"\r\n")
            if not line_feed:
                return found
            length = int(size, 16)
            if len(behind) < length + 2:
                return found
            found += behind[:length]
            self._rest = behind[length + 2 :]
