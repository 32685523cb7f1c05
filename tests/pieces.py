"""Requests that come in pieces, or not whole: cut at every place or at many, byte by byte, and every prefix of them.

They come to a fresh server, which then has to hold what the first one holds.
"""

from __future__ import annotations

from collections.abc import Iterable, Iterator
from contextlib import contextmanager
from itertools import islice
from typing import NamedTuple

from pipe import Event
from requests_and_replies import in_words, request_of
from rows import Wrong
from served import Served, bytes_come, expect_done, request_comes

# Up to so many bytes are cut at each place; more are so near to either end, and else at each place that APART divides.
WHOLE, NEAR, APART = 4096, 512, 16
# The events of so many connections are made at once.
MOST = 100
ALL = request_of("GET widgets")


@contextmanager
def beside(served: Served) -> Iterator[Served]:
    """A fresh server, which at the end has to hold what the first one holds."""
    with served.fresh() as fresh:
        yield fresh
        held, wanted = fresh.asked(ALL), served.asked(ALL)
    if held != wanted:
        raise Wrong(f"something was changed: {held[-200:]}")


def cuts_of(count: int) -> Iterator[int]:
    """Where so many bytes are cut; at 0 they are whole."""
    for place in range(count):
        is_near = place < NEAR or count - place < NEAR
        if count <= WHOLE or is_near or place % APART == 0:
            yield place


def decided(served: Served, id: int) -> str:
    """What a connection was answered, in words, or that it still waits."""
    if served.wants(id):
        return "undecided"
    return in_words(served.received(id), False)


def cut_at(served: Served, first: int, data: bytes, cuts: list[int]) -> Iterator[str]:
    """What comes of bytes that are cut at each of these places, on connections of their own."""
    events: list[Event] = []
    for cut in cuts:
        id = first + cut
        events += request_comes(id, data[:cut])
        events += [bytes_come(id, data[cut:]), {"gone": id}]
    done = served.each(events)
    for cut in cuts:
        expect_done(done, 3)
        yield decided(served, first + cut)
        expect_done(done, 1)


def cut_anywhere(served: Served, first: int, data: bytes) -> str:
    """What comes of bytes that come in two pieces, on connections from an id on: the same wherever they are cut."""
    answer = ""
    places = cuts_of(len(data))
    with beside(served) as fresh:
        while cuts := [*islice(places, MOST)]:
            for cut, came in zip(cuts, cut_at(fresh, first, data, cuts)):
                if cut and came != answer:
                    raise Wrong(f"cut at {cut}: {came}, and not {answer}")
                answer = came
    return answer


class Prefix(NamedTuple):
    """The first bytes of a request, and whether they are its head."""

    data: bytes
    is_head: bool


def prefixes(request: bytes) -> Iterator[Prefix]:
    """Every prefix of a request."""
    ends = request.find(b"\r\n\r\n")
    head = (len(request) if ends < 0 else ends) + 4
    for length in range(len(request)):
        yield Prefix(request[:length], length == head)


def is_refused(served: Served, id: int, prefix: Prefix, may_be: bool) -> bool:
    """Whether a prefix that came was refused, where it may be; nothing else may be answered."""
    if served.wants(id):
        return False
    reply = served.received(id)
    if may_be and reply.startswith("HTTP/1.1 4"):
        return True
    text = prefix.data[-60:].decode(errors="replace")
    raise Wrong(f"a prefix was answered: ..{text!r}: {reply[:100]}")


def prefixes_come(
    served: Served, some: list[tuple[int, Prefix]], was_refused: bool
) -> bool:
    """Prefixes come, each on the connection of its id: whether the last was refused."""
    events: list[Event] = []
    for id, prefix in some:
        events += [*request_comes(id, prefix.data), {"gone": id}]
    done = served.each(events)
    for id, prefix in some:
        expect_done(done, 2)
        may_be = prefix.is_head or (was_refused and prefix.data != b"")
        was_refused = is_refused(served, id, prefix, may_be)
        expect_done(done, 1)
    return was_refused


def prefixes_of(served: Served, requests: Iterable[bytes]) -> None:
    """Every prefix of these comes. A request that its head alone decides is refused with the head's last byte, and with
    more."""
    come = enumerate((it for request in requests for it in prefixes(request)), 1)
    was_refused = False
    with beside(served) as fresh:
        while some := [*islice(come, MOST)]:
            was_refused = prefixes_come(fresh, some, was_refused)


def byte_comes(served: Served, id: int, byte: int) -> None:
    """The next byte comes on a connection, on which nothing was written yet."""
    if not served.wants(id):
        raise Wrong(f"connection {id} doesn't wait")
    served.does(bytes_come(id, bytes([byte])))


def comes_by_bytes(served: Served, id: int, line: str) -> None:
    """A request comes byte by byte, on an open connection."""
    for byte in request_of(line):
        byte_comes(served, id, byte)


def comes_apart(served: Served, id: int, line: str) -> None:
    """A request comes byte by byte, and after each but the last a get of its target finds nothing."""
    *first, last = request_of(line)
    path, _, _ = line.split(" ")[1].partition("?")
    get = request_of(f"GET {path}")
    for byte in first:
        byte_comes(served, id, byte)
        reply = served.asked(get)
        if not reply.startswith("HTTP/1.1 404 "):
            raise Wrong(f"a get was answered: {reply[:100]}")
    byte_comes(served, id, last)
