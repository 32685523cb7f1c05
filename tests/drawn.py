"""Runs of events of all kinds, drawn from a number, in which every report is compared with what the server answered."""

from __future__ import annotations

import json
from collections.abc import Iterator

from pipe import Did
from programs import Programs
from rows import Wrong
from worlds import Report, Request, Run, events_of, place_of, text_of

# What each event is drawn from: `#` is a number below 8, `^` the place among all events, `%` a number below a quarter of it.
# `!` is an id that is opened, twenty times the place, `*` the last of these, and `@` that or one of those behind it, which
# requests and the client get.
STEPS = """create w# web
create w# db
create a/w#
change w# web
change w# db
change a/w#
delete w#
delete a/w#
ask PATCH /apis/demo.example/v1/namespaces/default/widgets/w#?fieldManager=m#&force=true {"apiVersion":"demo.example/v1","kind":"Widget","spec":{"replicas":%}}
ask PATCH /apis/demo.example/v1/namespaces/default/widgets/w#?fieldManager=m#&force=true {"apiVersion":"demo.example/v1","kind":"Widget","spec":{"ports":[{"name":"p#","port":%}]}}
ask GET /apis/demo.example/v1/widgets?limit=#&resourceVersion=%
ask GET /apis/demo.example/v1/widgets?watch=true&resourceVersion=%&allowWatchBookmarks=true&timeoutSeconds=#
ask GET /apis/demo.example/v1/namespaces/a/widgets/w#
send
send
send
server
server
server %
client
client
client
client %
cut
restart
reconcile
open !
in * GET /apis/demo.example/v1/widgets?limit=# HTTP/1.1|$
in * Host: a|$|$
gone @
pump @ #
pump @ 3
pump @ 10
tick ^
tick ^
compact %""".split(
    "\n"
)

LISTS = "ask GET /apis/demo.example/v1/widgets"
# A client that catches up needs so many moves at most: the list has at most eight pages.
MOST = 44


class Draws:
    """Numbers that follow from a first one."""

    def __init__(self, first: int) -> None:
        self.last = first
        self.opened = 0

    def below(self, limit: int) -> int:
        """The next number, below a limit."""
        next_one = self.last * 6_364_136_223_846_793_005 + 1_442_695_040_888_963_407
        self.last = next_one % 2**64
        return (self.last >> 33) % limit

    def letter(self, letter: str, place: int) -> str:
        """What a letter of a step stands for at a place among all events."""
        if letter == "!":
            self.opened = place * 20
        match letter:
            case "#":
                return str(self.below(8))
            case "%":
                return str(self.below(place // 4 + 2))
            case "^":
                return str(place)
            case "@":
                return str(self.opened + self.below(16))
            case "*" | "!":
                return str(self.opened)
        return letter


def drawn_steps(first: int, count: int) -> Iterator[str]:
    """So many steps that are drawn from a number. Amid them the list of ports becomes atomic."""
    draws = Draws(first)
    for place in range(count):
        if place == count // 2:
            yield "types atomic"
        step = STEPS[draws.below(len(STEPS))]
        yield "".join(draws.letter(it, place) for it in step)


def reply_in(data: bytes) -> tuple[int, bytes]:
    """The status and the body of a reply."""
    head, _, body = data.partition(b"\r\n\r\n")
    return int(head.split(b" ")[1]), body


class Followed:
    """A run, and a plain list of the changes of widgets that its server answered: of each the version, the place and the text,
    or that it was deleted."""

    def __init__(self, run: Run) -> None:
        self.run = run
        self.changes: dict[int, tuple[tuple[str, str], str | None]] = {}
        self.checked = 0

    def state_at(self, revision: int) -> dict[tuple[str, str], str]:
        """The widgets at a version, by the list."""
        state: dict[tuple[str, str], str | None] = {}
        for number in sorted(it for it in self.changes if it <= revision):
            place, text = self.changes[number]
            state[place] = text
        return {place: text for place, text in state.items() if text is not None}

    def notes(self, step: str, did: Did | None) -> None:
        """Keeps the change that a request of this step made, by its reply."""
        method = {"create": "POST", "change": "PUT", "delete": "DELETE"}.get(
            step.partition(" ")[0], step.split(" ")[1] if step[:4] == "ask " else "GET"
        )
        if did is None or method == "GET" or not did.out:
            return
        status, body = reply_in(did.out[self.run.requested[-1]])
        if status not in (200, 201):
            return
        found = json.loads(body)
        text = None if method == "DELETE" else text_of(found)
        self.keeps(int(found["metadata"]["resourceVersion"]), place_of(found), text)

    def keeps(self, revision: int, place: tuple[str, str], text: str | None) -> None:
        """Keeps a change. What was answered of a version before is answered again."""
        if self.changes.setdefault(revision, (place, text)) != (place, text):
            raise Wrong(f"version {revision} was answered otherwise before")

    def lists(self) -> int:
        """Another peer lists: the changes that were answered to nobody are kept, and the list is that of them all. Returns its
        version."""
        (event,) = events_of(LISTS)
        did = self.run.takes(event)
        if did is None:
            raise Wrong("no id is left")
        _, body = reply_in(did.out[self.run.requested[-1]])
        found = json.loads(body)
        for one in found["items"]:
            self.keeps(
                int(one["metadata"]["resourceVersion"]), place_of(one), text_of(one)
            )
        revision = int(found["metadata"]["resourceVersion"])
        listed = {place_of(it): text_of(it) for it in found["items"]}
        if listed != self.state_at(revision):
            raise Wrong(f"event {self.run.count}: the list isn't that of the changes")
        return revision

    def takes(self, step: str) -> None:
        """The next event, of this step."""
        for event in events_of(step):
            did = self.run.takes(event)
            if isinstance(event, Request):
                self.notes(step, did)
            elif "types" in event and did is not None and did.refused is None:
                self.lists()
        self.checks()

    def checks(self) -> None:
        """The reports that came are right."""
        for report in self.run.reports[self.checked :]:
            self.check(report)
        self.checked = len(self.run.reports)

    def check(self, report: Report) -> None:
        """A report has just the objects of its version, in their order, and their counts."""
        wanted = self.state_at(report.revision)
        where = f"event {report.event}, version {report.revision}"
        if [*report.objects.items()] != sorted(wanted.items()):
            raise Wrong(f"{where}: {sorted(report.objects)} isn't {sorted(wanted)}")
        counts: dict[str, int] = {}
        for text in wanted.values():
            tier = json.loads(text)["metadata"].get("labels", {}).get("tier")
            if tier is not None:
                counts[tier] = counts.get(tier, 0) + 1
        if [*report.counts.items()] != sorted(counts.items()):
            raise Wrong(f"{where}: counts {report.counts} aren't {counts}")


def drawn(programs: Programs, first: int, count: int) -> str:
    """So many events that are drawn from a number, and then a list for the client and one for another peer."""
    with Run(programs, "page=500") as run:
        followed = Followed(run)
        for step in drawn_steps(first, count):
            followed.takes(step)
        before = run.count
        followed.takes("restart; send; server; client")
        if not run.reports or run.reports[-1].event <= before:
            raise Wrong("the last list wasn't reported")
        if run.reports[-1].revision != followed.lists():
            raise Wrong("the last list is of another version")
        return "right"


def catches_up(programs: Programs, first: int, count: int, every: int) -> str:
    """So many events that are drawn from a number; after every so many the client catches up."""
    with Run(programs, "page=2") as run:
        followed = Followed(run)
        for number, step in enumerate(drawn_steps(first, count), 1):
            followed.takes(step)
            if number % every:
                continue
            run.catches_up(MOST)
            followed.checks()
            if run.next_move() is not None:
                raise Wrong(f"event {run.count}: the client isn't where the server is")
            if run.reports[-1].revision != followed.lists():
                raise Wrong(f"event {run.count}: another peer gets another version")
        return "right"
