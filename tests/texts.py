"""Bytes as rows show them, in one line: a carriage return as `|`, a line feed as `$`, the byte 1 as `~`, `<N TEXT>` as TEXT
so many times, and `-` where there are none.
"""

from __future__ import annotations

from rows import Wrong

UNFOLDED = {ord("|"): "\r", ord("$"): "\n", ord("~"): "\x01"}


def unfolded(part: str) -> str:
    """What stands before a `<`, or `N TEXT>` behind one and what follows."""
    repeat, closed, rest = part.partition(">")
    if not closed:
        return part
    count, _, piece = repeat.partition(" ")
    return int(count) * piece + rest


def bytes_of(text: str) -> bytes:
    """The bytes that a text in one line shows."""
    all_of_it = "".join(unfolded(part) for part in text.split("<"))
    return all_of_it.translate(UNFOLDED).encode()


def line_of(data: bytes) -> str:
    """Bytes in one line."""
    if not data:
        return "-"
    try:
        return data.decode().replace("\r", "|").replace("\n", "$")
    except UnicodeDecodeError as error:
        raise Wrong(f"bytes that are no text came: {data[:100]!r}") from error


def between(text: str, before: str, after: str) -> str | None:
    """What stands between two texts, behind the last of the first."""
    _, found, rest = text.rpartition(before)
    between_them, ends, _ = rest.partition(after)
    return between_them if found and ends else None
