"""Answers the rows of runs of a server and a client.

Each example begins with `from WORDS` (`worlds.Run`). The other steps:

| step | what comes |
|---|---|
| events with `; ` between them | the reports of these, or why the run can't begin |
| `connection K` | what was written on it |
| `written K` | how many bytes were written on each connection from K |
| `reports` | all reports since `from` |
| `requested` | the connections of requests of other peers |
| `text NAME` | the text of the object in the last report |
| `moves N` | no event; at most N moves of a world of its own after the events since `from`, by which its client comes to the current version, and their reports: `MOVES -> REPORTS` |
| `cuts WORD M N FRONT <- BACK` | no event; of runs of their own: the reports behind the events of FRONT, with `WORD M` to `WORD N` between these and those of BACK, each where it first comes |
| `fronts NAME` | no event; every prefix of each request of the examples of NAME.rows comes, in runs of their own, and none is answered nor changes anything: how many different requests there are |
| `drawn FIRST N` | no event; of a run of its own, N events drawn from FIRST, in which every report is compared with the changes that the server answered: `right` (`drawn`) |
| `catches up FIRST N M` | no event; the same, and after every M events the client comes to the version of a list that another peer gets: `right` |

Events:

| words | event |
|---|---|
| `open K`, `gone K`, `pump K N`, `tick MS`, `compact C` | of the server |
| `in K TEXT` | of the server; in the text `|` is a carriage return, `$` a line feed, `^` a byte that is no UTF-8 |
| `types atomic` | of the server: the list of ports becomes atomic |
| `opens A B` | of the server: each connection from A to B opens |
| `create W TIER`, `change W TIER`, `delete W` | a POST, PUT or DELETE of the widget W comes |
| `ask METHOD TARGET BODY` | this request comes; in the body `<N TEXT>` is TEXT so many times |
| `send`, `cut`, `restart`, `reconcile` | of the client |
| `server N`, `client N` | N bytes come to the server, or to the client; without N all |

W is `NAME` in the namespace `default`, or `NAMESPACE/NAME`. Without TIER the widget has no label `tier`. A report is
`EVENT REVISION [OBJECT@REVISION ..] {VALUE=COUNT ..}`, the event by its place among all since `from`. Bytes have `|` for a
carriage return and `$` for a line feed; where nothing is to be shown it is `-`.
"""

from __future__ import annotations

import os
from collections.abc import Iterator

from drawn import catches_up, drawn
from pipe import Event
from programs import Programs
from rows import Example, Wrong, examples_of
from worlds import Request, Run, events_of, line_of, told

# So many prefixes come in one run.
AT_ONCE = 100
# What only looks, or is a run of its own.
LOOKS = "from connection written reports requested text moves cuts fronts drawn catches".split()


def in_words(move: Event) -> str:
    """A move as the words of a row say it."""
    ((name, value),) = move.items()
    if name == "client":
        return str(value)
    words = {"toServer": "server", "toClient": "client"}.get(name, name)
    numbers = value if isinstance(value, list) else [value]
    return " ".join([words, *map(str, numbers)])


def moves(programs: Programs, words: str, steps: list[str], most: int) -> str:
    """At most so many moves behind the events of steps, and their reports."""
    with Run(programs, words) as run:
        for some in steps:
            run.goes_on(some)
        before = run.count
        made = run.catches_up(most)
        moved = "; ".join(map(in_words, made)) or "-"
        return f"{moved} -> {told(run.reports, before)}"


def cut_at(programs: Programs, words: str, cut: str, steps: list[str]) -> str:
    """The reports behind the events of the first steps, between which and the last ones this event comes."""
    with Run(programs, words) as run:
        run.goes_on(steps[0])
        before = run.count
        run.goes_on(cut)
        run.goes_on(steps[1])
        return told(run.reports, before)


def cuts(programs: Programs, words: str, rest: str) -> str:
    """Of `WORD M N FRONT <- BACK` the reports with each number of bytes, each where it first comes."""
    word, least, most, rest = rest.split(" ", 3)
    steps = rest.split(" <- ")
    shown, last = "", ""
    for number in range(int(least), int(most) + 1):
        came = cut_at(programs, words, f"{word} {number}", steps)
        shown += f"; {number}: {came}" if came != last else ""
        last = came
    return shown


def brought(step: str) -> bytes:
    """The bytes that a step's event brings from a peer."""
    for event in events_of(step):
        if isinstance(event, Request):
            return event.data
        if "in" in event:
            return str(event["in"][1]).encode()
        return bytes.fromhex(event["bytes"][1]) if "bytes" in event else b""
    return b""


def fronts_come(programs: Programs, request: bytes, lengths: range) -> None:
    """Prefixes of these lengths come, each on a connection of its own, and the client lists."""
    with Run(programs, "page=500") as run:
        run.goes_on("create w1; create w2")
        some: list[Event] = []
        for connection, length in enumerate(lengths, 3):
            prefix = request[:length].hex()
            some += [{"open": connection}, {"bytes": [connection, prefix]}]
            some += [{"gone": connection}]
        run.takes_all(some)
        for connection, length in enumerate(lengths, 3):
            if run.written[connection]:
                raise Wrong(f"a front of {length} bytes was answered")
        came = run.goes_on("send; server; client")
        if not came.endswith(" 3 [w1@2 w2@3] {}") or len(run.reports) != 1:
            raise Wrong(f"fronts of {request[:60]!r} changed something: {came}")


def fronts(programs: Programs, path: str) -> str:
    """Every prefix of each request of a file's examples comes: how many different requests there are."""
    steps = [
        step
        for example in examples_of(path)
        for row in example.rows
        if row.step.partition(" ")[0] not in LOOKS
        for step in row.step.split("; ")
    ]
    requests = {step: brought(step) for step in steps}
    found = [it for it in requests.values() if it]
    for request in found:
        for first in range(0, len(request), AT_ONCE):
            last = min(first + AT_ONCE, len(request))
            fronts_come(programs, request, range(first, last))
    return str(len(found))


def shown(run: Run, word: str, rest: str) -> str:
    """What a step shows of a run."""
    if word == "connection":
        return line_of(run.written[int(rest)])
    if word == "written":
        lengths = [
            f"{it}:{len(data)}" for it, data in run.written.items() if it >= int(rest)
        ]
        return " ".join(lengths)
    if word == "reports":
        return told(run.reports, 0)
    if word == "requested":
        return " ".join(map(str, run.requested))
    named = [it for (_, name), it in run.reports[-1].objects.items() if name == rest]
    return named[0] if named else "-"


def alone(
    programs: Programs, example: Example, words: str, steps: list[str], step: str
) -> str | None:
    """What comes of a step that is a run of its own, if it is."""
    word, _, rest = step.partition(" ")
    if word == "moves":
        return moves(programs, words, steps, int(rest))
    if word == "cuts":
        return cuts(programs, words, rest)
    if word == "fronts":
        return fronts(programs, f"{os.path.dirname(example.path)}/{rest}.rows")
    if word == "drawn":
        return drawn(programs, *map(int, rest.split()))
    if word == "catches":
        return catches_up(programs, *map(int, rest.split()[1:]))
    return None


def play(programs: Programs, example: Example) -> Iterator[str]:
    """What comes at each row of an example."""
    words = ""
    steps: list[str] = []
    run: Run | None = None
    try:
        for row in example.rows:
            word, _, rest = row.step.partition(" ")
            came = alone(programs, example, words, steps, row.step)
            if came is not None:
                yield came
            elif word == "from":
                if run is not None:
                    run.pipe.close()
                words, steps, run = rest, [], Run(programs, rest)
                yield run.refusal() or "-"
            elif run is None:
                raise Wrong("nothing was begun")
            elif word in LOOKS:
                yield shown(run, word, rest)
            else:
                steps.append(row.step)
                yield run.goes_on(row.step)
    finally:
        if run is not None:
            run.pipe.close()
