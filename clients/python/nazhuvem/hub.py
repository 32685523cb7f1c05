"""A hub: an API server of which the test chooses what happens next."""

from __future__ import annotations

import json
import shlex
import threading
from contextlib import contextmanager
from os import PathLike
from types import TracebackType
from typing import Any, Callable, Iterator, Mapping, Optional, TypeVar, Union

from nazhuvem.connection import (
    Connection,
    Query,
    Reply,
    json_text,
    reply_of,
    request_text,
    status_of,
    target_of,
)
from nazhuvem.definitions import Types
from nazhuvem.errors import (
    BegunAnew,
    EventRefusedError,
    NothingComesError,
    NotSettledError,
    RefusalError,
)
from nazhuvem.events import Event, Observer
from nazhuvem.pipe import Answer, Pipe
from nazhuvem.programs import words_of
from nazhuvem.telling import fight
from nazhuvem.watch import Watch

__tracebackhide__ = True

T = TypeVar("T")

_MOST_STEPS = 100
# So many events are looked at to say who keeps something from settling.
_MOST_WRITES = 200
# So many steps have to be quiet after the end of a watch: that in which it comes, and
# one each to see it, to list again and to reconcile.
_STEPS_AFTER_END = 4


# What a typo in a request is answered by, whatever objects are there.
_MISTAKES = (400, 405, 415, 422)

#: Whether a reply of a request raises.
Check = Callable[[Reply], bool]


def _none(_: Reply) -> bool:
    """The requests of a controller, which handles its refusals."""
    return False


def _refusals(reply: Reply) -> bool:
    """The requests of the test itself."""
    return reply.status >= 400


def _mistakes(reply: Reply) -> bool:
    """The requests of an action, whose objects may be gone."""
    is_no_path = reply.status == 404 and reply.value.get("message") == "no such path"
    return reply.status in _MISTAKES or is_no_path


class Hub:
    """An `ssa-pipe` of these types. It ends with the block.

        with Hub("widgets.json") as hub:
            hub.apply("alice", WIDGETS + "/w1", {**NAMES, "spec": {"image": "a"}})
            watch = hub.watch(WIDGETS)
            assert [line["type"] for line in watch.pump()] == ["ADDED"]

    Nothing happens by itself: lines of watches come when they are pumped, time
    passes by `tick`. The same calls in the same order bring the same bytes.
    `page`, `selector`, `namespace`, `type` and `label` are those of the program's own
    client (`event` moves it); `options` are further words of its command line. A `pipe`
    is a program that was started before.

    A client that reads bytes (`PoolManager` of `nazhuvem.urllib3_pool`) and waits
    for a watch's line gets it so: in the thread that made the hub, the watch is
    pumped by one line, or time passes up to the client's or the watch's timeout;
    in another thread it waits until the hub's own thread pumps, ticks or cuts.
    """

    def __init__(
        self,
        types: Types,
        *options: str,
        observer: Optional[Observer] = None,
        pipe: Optional[Pipe] = None,
        discovery: bool = True,
        page: Optional[int] = None,
        selector: Optional[str] = None,
        namespace: Optional[str] = None,
        type: Optional[str] = None,
        label: Optional[str] = None,
    ) -> None:
        named = {"discovery": discovery, "page": page, "selector": selector}
        named |= {"namespace": namespace, "type": type, "label": label}
        self._pipe = pipe or Pipe(types, words_of(options, named), waits=False)
        self._pipe.begin()
        self._observer = observer
        self._lock = threading.RLock()
        self._moved = threading.Condition(self._lock)
        self._thread = threading.get_ident()
        self._script: list[str] = []
        self._highest = 0
        self._open: dict[int, Connection] = {}
        self._held = 0
        self._held_back = 0
        self._is_running = False
        self._checks: Check = _refusals
        self._events = 0
        self._recent: Optional[list[Event]] = None
        self._event_now: Optional[Event] = None
        self._heard: Optional[list[bytes]] = None
        self._has_ended = False
        #: How often `run` did work that asked nothing of the hub.
        self.idle_runs: int = 0
        #: What the schedule may let happen, by name.
        self.actions: dict[str, Callable[[], object]] = {}
        #: Milliseconds of the hub's time since its start.
        self.milliseconds: int = 0

    # Requests

    def request(
        self,
        method: str,
        path: str,
        body: Any = None,
        *,
        query: Optional[Query] = None,
        media: str = "",
        check: Optional[bool] = None,
    ) -> Reply:
        """The reply to a request: its status, and its body as JSON.

        A refusal raises `RefusalError`, unless the controller asks (within `run` or
        `settle`), which gets it as its reply; `check=False` or `True` says otherwise.
        A body that is no text is sent as JSON. Its media type is that of an
        apply for PATCH, else that of JSON, where none is given.
        """
        target = target_of(path, query)
        checks = self._checks
        with self._event(Event("request", method, target, body)) as event:
            text = request_text(method, target, body, media)
            connection = self._send(method, target, text)
            if not connection.ended:
                self.leave(connection)
                raise ValueError(f"{target} is a watch: Hub.watch opens one")
            event.reply = bytes(connection.waiting)
            reply = reply_of(event.reply)
            event.status = reply.status
        if checks(reply) if check is None else check and _refusals(reply):
            raise RefusalError(reply, f"{method} {target}")
        return reply

    def apply(
        self,
        manager: str,
        path: str,
        body: Mapping[str, Any],
        force: bool = False,
        *,
        check: Optional[bool] = None,
    ) -> Reply:
        """Server-Side Apply of a body by a manager to the object of this path.

        `apiVersion` and `kind` of the body are needed, as everywhere. A refusal
        raises `RefusalError`, as `request` says.
        """
        query: dict[str, Union[str, bool]] = {"fieldManager": manager}
        if force:
            query["force"] = True
        return self.request("PATCH", path, body, query=query, check=check)

    def get(self, path: str) -> Any:
        """The object of this path, or None where there is none."""
        reply = self.request("GET", path, check=False)
        if _mistakes(reply):
            raise RefusalError(reply, f"GET {path}")
        return reply.value if reply.status == 200 else None

    def watch(self, path: str, *, query: Optional[Query] = None) -> Watch:
        """A watch of the list of this path, `query={"resourceVersion": 2}` say.

        A `RefusalError` is raised where the server refuses it.
        """
        target = target_of(path, {**(query or {}), "watch": True})
        with self._event(Event("watch", "GET", target)) as event:
            connection = self._send("GET", target, request_text("GET", target))
            event.status = status_of(connection.waiting)
            return Watch(self, connection)

    def revision(self) -> int:
        """The server's current version."""
        one = self._pipe.first_type
        target = f"/apis/{one['group']}/{one['version']}/{one['plural']}?limit=1"
        listed = self._send("GET", target, request_text("GET", target))
        return int(reply_of(listed.waiting).value["metadata"]["resourceVersion"])

    # What the test lets happen

    def pump(self, most: int = 500, connection: Optional[Connection] = None) -> None:
        """Lets this watch, or each of them in the order in which they opened,
        write at most so many lines."""
        with self._event(Event("pump")) as event:
            if self._held > 0:
                event.is_held = True
                self._held -= 1
                self._held_back += 1
                return
            for one in [connection] if connection else list(self._open.values()):
                if not one.is_over:
                    self.event({"pump": [one.number, most]})

    def tick(self, milliseconds: int = 1000) -> None:
        """So much time passes: bookmarks are written, and watches end whose
        time is over."""
        self.milliseconds += milliseconds
        self.event({"tick": self.milliseconds})

    def leave_trace(self, namespace: str) -> None:
        """Creates an object in this namespace and deletes it: two versions pass."""
        one = self._pipe.first_type
        version = f"{one['group']}/{one['version']}"
        path = f"/apis/{version}/namespaces/{namespace}/{one['plural']}"
        names = {"name": namespace}
        self.request(
            "POST",
            path,
            {"apiVersion": version, "kind": one["kind"], "metadata": names},
        )
        self.request("DELETE", f"{path}/{namespace}")

    def compact(self, revision: Optional[int] = None) -> None:
        """The server forgets the changes up to this version, or to the current
        one."""
        self.event({"compact": self.revision() if revision is None else revision})

    def cut(self, connection: Optional[Connection] = None) -> None:
        """Cuts the connection of this watch, or of all."""
        for one in [connection] if connection else list(self._open.values()):
            self._has_ended |= not one.is_over
            self.leave(one)

    def serve_types(self, types: Mapping[str, Any]) -> None:
        """Another types file, `{"types": [..]}`, takes the place of the one
        served."""
        self.event({"types": types})

    def event(self, line: Mapping[str, Any]) -> Answer:
        """Any line of a script, `{"client": "send"}` say, and what it brought.

        `EventRefusedError` is raised where it changed nothing.
        """
        with self._lock:
            answer = self._play(json_text(line))[0]
        if answer.opened is not None:
            self._highest = max(self._highest, answer.opened)
        if why := answer.bad or answer.refused:
            raise EventRefusedError(why)
        return answer

    def script(self) -> str:
        """All that has happened, as a script that `ssa-replay` plays."""
        return "".join(line + "\n" for line in self._script)

    def replay_command(self, script: str) -> str:
        """The command that plays a script of this hub again; a types file of its own
        is kept beside the script."""
        return shlex.join(["ssa-replay", *self._pipe.words(script), "--script", script])

    def save(self, path: Union[str, PathLike[str]]) -> None:
        """Writes the script to a file."""
        with open(path, "w", encoding="utf-8") as file:
            file.write(self.script())

    # The controller under test

    def run(self, work: Callable[[], T]) -> T:
        """Does this work as the controller: what `explore` disturbs are the
        hub's events while it is done. Where the schedule begins the controller
        anew, its watches are cut and the work is done from its beginning: what was
        made outside of the work is kept. It may be called several times, for phases
        of which each has settled before the next."""
        before, self._is_running = self._is_running, True
        events = self._events
        try:
            with self._checking(_none):
                done = self._begun_again(work)
        finally:
            self._is_running = before
        self.idle_runs += self._events == events
        return done

    def _begun_again(self, work: Callable[[], T]) -> T:
        """Does the work, from its beginning where it is begun anew."""
        while True:
            try:
                return work()
            except BegunAnew:
                self.cut()

    def meanwhile(self, name: str, action: Callable[[], object]) -> None:
        """The schedule may let this happen at a place, `another candidate steps`
        say. Without a schedule of `explore` it doesn't. That an object is gone or
        another than the action expects (404, 409) is no error there."""
        self.actions[name] = action

    def act(self, name: str) -> None:
        """Lets happen what `meanwhile` named so."""
        with self._checking(_mistakes):
            self.actions[name]()

    def settle(self, step: Callable[[], object]) -> None:
        """Does this step again until it changes no object, no watch brings a new
        line and none is held back. After a hundred times that is `NotSettledError`.

        A line is new that the step before didn't bring, too: one whose watch begins
        without a version hears of all objects in each step. Where a watch has ended
        or was cut since the last time that all had settled, all that has to be so
        four times one after another: a controller may see it in one step, list again
        in the next and reconcile in another.
        """
        before = self._heard, self._recent
        try:
            with self._checking(_none):
                self._settle(step)
        finally:
            self._heard, self._recent = before

    def _settle(self, step: Callable[[], object]) -> None:
        quiet = 0
        lines: list[bytes] = []
        standing = self.revision(), self._held_back
        writes: list[Event] = []
        for _ in range(_MOST_STEPS):
            self._heard, writes = [], writes[-_MOST_WRITES:]
            self._recent = writes
            step()
            before, standing = standing, (self.revision(), self._held_back)
            is_new = self._heard not in ([], lines)
            is_quiet = standing == before and not is_new and not self.is_held
            quiet, lines = quiet + 1 if is_quiet else 0, self._heard
            if quiet >= (_STEPS_AFTER_END if self._has_ended else 1):
                self._has_ended = False
                return
        said = f"nothing has settled after {_MOST_STEPS} steps"
        who = fight(writes)
        raise NotSettledError(f"{said}: {who}" if who else said)

    @property
    def is_held(self) -> bool:
        """Whether lines of watches are held back by the schedule."""
        return self._held > 0

    def hold(self, pumps: int = 1) -> None:
        """The next so many pumps bring no line."""
        self._held += pumps

    @property
    def watches(self) -> int:
        """How many watches are open."""
        return len(self._open)

    # For streams and disturbances

    @contextmanager
    def unobserved(self) -> Iterator[None]:
        """What happens in the block is told to no observer."""
        observer, self._observer = self._observer, None
        try:
            with self._checking(_none):
                yield
        finally:
            self._observer = observer

    @contextmanager
    def _checking(self, checks: Check) -> Iterator[None]:
        """In the block requests that say nothing of it are checked so."""
        before, self._checks = self._checks, checks
        try:
            yield
        finally:
            self._checks = before

    @contextmanager
    def _event(self, event: Event) -> Iterator[Event]:
        """The event happens in the block, which notes its status."""
        observer = self._observer
        self._events += 1
        if self._recent is not None:
            self._recent.append(event)
        if observer is None:
            yield event
            return
        event.is_controllers = self._is_running
        observer.before(self, event)
        self._event_now = event
        try:
            yield event
        finally:
            self._event_now = None
        observer.after(self, event)

    def ask(self, text: str) -> Connection:
        """The connection on which these bytes of a client were sent, which
        begin with the line of a request."""
        method, target, _ = text.split(" ", 2)
        body = text.partition("\r\n\r\n")[2]
        with self._event(Event("request", method, target, body)) as event:
            connection = self._send(method, target, text)
            if connection.waiting:
                event.status = status_of(connection.waiting)
            if connection.ended:
                event.reply = bytes(connection.waiting)
            return connection

    def leave(self, connection: Connection) -> None:
        """The client of this connection goes, where it isn't over."""
        if not connection.is_over:
            self.event({"gone": connection.number})
            connection.is_cut = True
            self._open.pop(connection.number, None)
        with self._moved:
            self._moved.notify_all()

    def wait(self, connection: Connection, seconds: Optional[float]) -> None:
        """Waits until bytes are there on the connection, or it is over.

        `TimeoutError` is raised after so many seconds: of the hub's time in the
        thread that made the hub, else of the clock's.
        """
        if threading.get_ident() == self._thread:
            self._move(connection, seconds)
            return
        with self._moved:
            if not self._moved.wait_for(lambda: _has_news(connection), seconds):
                raise TimeoutError("no line came")

    def _move(self, connection: Connection, seconds: Optional[float]) -> None:
        """The watch writes a line, or so much time passes that it ends or that
        its client waits no longer."""
        if _has_news(connection):
            return
        was_held = self.is_held
        self.pump(1, connection)
        if was_held and not _has_news(connection):
            self.pump(1, connection)
        if _has_news(connection):
            return
        limits = [it for it in (seconds, connection.seconds) if it is not None]
        if not limits:
            raise NothingComesError("a watch without a timeout waits for a line")
        self.tick(round(1000 * min(limits)))
        if not _has_news(connection):
            raise TimeoutError("no line came")

    def _send(self, method: str, target: str, text: str) -> Connection:
        """These bytes come in one piece on a connection that is opened."""
        with self._lock:
            number = self._highest + 1
            self._highest = number
            connection = Connection(number, method, target)
            self._open[number] = connection
            self._play(
                f'{{"open":{number}}}', f'{{"in":[{number},{json.dumps(text)}]}}'
            )
            connection.is_watch = not connection.ended
            return connection

    def _play(self, *lines: str) -> list[Answer]:
        """Plays these lines of a script."""
        answers = self._pipe.ask(*lines)
        for line, answer in zip(lines, answers):
            if answer.bad is None:
                self._script.append(line)
            for number, data in answer.out:
                if connection := self._open.get(number):
                    connection.waiting += data
                    if connection.is_watch:
                        self._hear(connection.lines_of(data))
            for number in answer.ended:
                if ended := self._open.pop(number, None):
                    ended.ended = True
                    self._has_ended |= ended.is_watch
        self._moved.notify_all()
        return answers

    def _hear(self, lines: list[bytes]) -> None:
        """Notes which lines watches bring."""
        if self._heard is not None:
            self._heard += lines
        if self._event_now is not None:
            self._event_now.lines += lines

    def close(self) -> None:
        """Ends the program."""
        self._pipe.close()

    def __enter__(self) -> Hub:
        return self

    def __exit__(
        self,
        kind: Optional[type[BaseException]],
        error: Optional[BaseException],
        trace: Optional[TracebackType],
    ) -> None:
        self.close()


def _has_news(connection: Connection) -> bool:
    return bool(connection.waiting) or connection.is_over
