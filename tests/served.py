"""A server of connections as rows see it, behind `ssa-pipe`: events, and the bytes that are out on each connection.

`ssa-pipe` takes all that is written at once. Here it is out until a row takes it, or until the peer goes.
"""

from __future__ import annotations

from collections.abc import Iterable, Iterator, Sequence
from dataclasses import dataclass
from itertools import islice

from pipe import MOST_AT_ONCE, Did, Event, Pipe
from programs import Programs
from rows import Wrong
from texts import line_of

# Why an event is refused, as `ssa-pipe` says it, and as rows do.
WHY = {
    "the id is not above all earlier ones": "IdNotAbove",
    "there is no connection of this id": "UnknownId",
    "a pump of no lines": "NoLines",
    "the tick is earlier than the last one": "TickBack",
    "the revision is compacted already, or still to come": "CompactionRefused",
    "not a lawful change of types": "NotLawful",
    "fewer revisions are left than objects change": "TooFewRevisions",
    "not the form of a types file": "NotTypes(NotTheForm)",
    "unknown type": "NotTypes(UnknownType)",
}


def bytes_come(id: int, data: bytes) -> Event:
    """The event of bytes that come on a connection."""
    try:
        return {"in": [id, data.decode()]}
    except UnicodeDecodeError:
        return {"bytes": [id, data.hex()]}


def request_comes(id: int, data: bytes) -> list[Event]:
    """The events of a connection that opens, and of bytes that come on it."""
    return [{"open": id}, bytes_come(id, data)]


def expect_done(done: Iterator[str | None], count: int | None = None) -> None:
    """The next so many events happen, or all, of which none may be refused."""
    for why in islice(done, count):
        if why is not None:
            raise Wrong(f"an event was refused: {why}")


@dataclass
class Connection:
    """A connection that was opened, and what is out on it."""

    out: bytes = b""
    is_answered: bool = False
    has_ended: bool = False
    is_gone: bool = False


class Served:
    """A server behind `ssa-pipe`. It is ended at the end of a `with`."""

    def __init__(
        self, programs: Programs, types: str, options: Sequence[str] = ()
    ) -> None:
        self.programs, self.types, self.options = programs, types, options
        self.pipe = Pipe(programs, types, options)
        self.connections: dict[int, Connection] = {}

    def __enter__(self) -> Served:
        return self

    def __exit__(self, *_: object) -> None:
        self.pipe.close()

    def fresh(self) -> Served:
        """Another one, without objects, that serves the types with which this one began."""
        return Served(self.programs, self.types, self.options)

    def on(self, event: Event) -> str | None:
        """An event happens: why it is refused, if it is."""
        return self.learns(event, self.pipe.on(event))

    def each(self, events: Iterable[Event]) -> Iterator[str | None]:
        """Events happen, one after another: why each is refused, if it is."""
        all_of_them = [*events]
        for first in range(0, len(all_of_them), MOST_AT_ONCE):
            some = all_of_them[first : first + MOST_AT_ONCE]
            for event, did in zip(some, self.pipe.all(some)):
                yield self.learns(event, did)

    def does(self, *events: Event) -> None:
        """Events happen, of which none may be refused."""
        expect_done(self.each(events))

    def learns(self, event: Event, did: Did) -> str | None:
        """Keeps what an event did: why it is refused, if it is."""
        if did.refused is None and "open" in event:
            self.connections[event["open"]] = Connection()
        for id, data in did.out.items():
            self.open_one(id, "is written on").out += data
            self.connections[id].is_answered = True
        for id in did.ended:
            self.open_one(id, "ends").has_ended = True
        if did.refused is None and "gone" in event:
            gone = self.connections[event["gone"]]
            gone.is_gone, gone.out = True, b""
        return did.refused and WHY.get(did.refused, did.refused)

    def open_one(self, id: int, does: str) -> Connection:
        """A connection that does something, as only an open one may."""
        found = self.connections.get(id)
        if found is None or found.has_ended or found.is_gone:
            raise Wrong(f"connection {id} {does}, and isn't open")
        return found

    def wants(self, id: int) -> bool:
        """Whether a connection is open and what it asks isn't decided."""
        it = self.connections.get(id, Connection(is_gone=True))
        return not (it.is_answered or it.has_ended or it.is_gone)

    def has_ended(self, id: int) -> bool:
        """Whether a connection has ended."""
        return self.connections.get(id, Connection()).has_ended

    def out(self, id: int) -> bytes:
        """What was written on a connection and not yet taken; nothing for an unknown id."""
        return self.connections.get(id, Connection()).out

    def take(self, id: int, count: int | None = None) -> bytes:
        """Takes the next so many bytes that are out on a connection, or all."""
        data = self.out(id)
        if data:
            self.connections[id].out = b"" if count is None else data[count:]
        return data[:count]

    def received(self, id: int) -> str:
        """The bytes that are out on a connection, in one line; they are taken."""
        return line_of(self.take(id))

    def next_id(self) -> int:
        """The id after those of all connections that were ever opened."""
        return max(self.connections, default=0) + 1

    def asked(self, request: bytes) -> str:
        """What a request is answered on a connection of its own, in one line."""
        id = self.next_id()
        self.does(*request_comes(id, request))
        return self.received(id)
