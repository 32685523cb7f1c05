"""Drawn changes of a server's objects and looks at them, compared with a plain list of the changes.

`drawn FROM ROUNDS CHANGES LOOKS`: numbers that follow from FROM draw so many rounds, each of fewer changes than so many at a
time and then so many looks. A change writes or erases one of five objects in two namespaces; a text may be long, so that
four are more bytes than may wait to be written. What comes is `as in a plain list`.

| look | what must come |
|---|---|
| `list`, `kept` | the objects at a revision; those of them with a short text, by a selector |
| `changes` | the first ten lines of a watch of `default` from a revision |
| `before` | the same of a watch by that selector, which looks at what stood before each change, in one of the namespaces |
| `get` | the object |
| `both` | an object is written in both namespaces |
| `compact` | a compaction, or its refusal |
"""

from __future__ import annotations

import json
from collections.abc import Iterator
from typing import Any, NamedTuple

from asking import API_VERSION, Asked, Reply
from pipe import Did
from programs import Programs
from rows import Example, Wrong

# What looks are drawn from: what follows one meets what it left, so some are also changes of several.
LOOKS = "list kept changes before get list kept changes before get both compact".split()
# The keys in their order: so many of them are in `default`.
KEYS = [
    (space, name)
    for space, names in (("default", "abc"), ("other", "ab"))
    for name in names
]
IN_DEFAULT = 3
LONG = 70000
FILL = "x" * 64
LINES = 10
SHORT = "labelSelector=short"
WIDGETS = f"/apis/{API_VERSION}/widgets"


class Change(NamedTuple):
    """A change: the place of its key in the order, and its text; a deletion has none."""

    place: int
    text: str | None


class Stood(NamedTuple):
    """What stands under a key: since which revision, and its text."""

    revision: int
    text: str


def text_of(revision: int, length: int) -> str:
    """A text of one byte, or its revision and so many that it has about this length."""
    number = str(revision) if length > 1 else ""
    return "t" + number + FILL * (length // 64) + "x" * max(length % 64 - 4, 0)


class Plain:
    """All changes from revision 2 on, oldest first, and numbers that follow from a first one."""

    def __init__(self, first: int) -> None:
        self.changes: list[Change] = []
        self.compacted, self.last = 1, first

    @property
    def current(self) -> int:
        """The last revision."""
        return len(self.changes) + 1

    def below(self, limit: int) -> int:
        """The next number that is drawn."""
        self.last = (self.last * 6364136223846793005 + 1442695040888963407) % 2**64
        return (self.last >> 33) % limit

    def stood(self, place: int, revision: int) -> Stood | None:
        """What stood under a key at a revision."""
        for at in range(min(revision, self.current), 1, -1):
            change = self.changes[at - 2]
            if change.place == place:
                return None if change.text is None else Stood(at, change.text)
        return None


def seen(value: dict[str, Any]) -> tuple[str, str, int, str]:
    """What an object says: namespace, name, version and text."""
    it = value["metadata"]
    return (
        it["namespace"],
        it["name"],
        int(it["resourceVersion"]),
        value["spec"]["image"],
    )


def expect(came: object, wanted: object) -> None:
    """Says where another thing came than is wanted."""
    if came != wanted:
        raise Wrong(f"came {str(came)[:400]}, wanted {str(wanted)[:400]}")


class Drawn:
    """A server, and the plain list of its changes."""

    def __init__(self, programs: Programs, first: int) -> None:
        self.plain, self.hub = Plain(first), Asked(programs)

    def write(self, place: int, length: int) -> None:
        """An object is written, at the next revision."""
        plain, (namespace, name) = self.plain, KEYS[place]
        revision = plain.current + 1
        text = text_of(revision, length)
        metadata = {"labels": {"short": ""}} if len(text) == 1 else {}
        value = {"apiVersion": API_VERSION, "kind": "Widget", "metadata": metadata}
        # (the annotation makes each write a change)
        metadata["annotations"] = {"revision": str(revision)}
        body = json.dumps({**value, "spec": {"image": text}})
        target = f"{self.hub.path(name, namespace)}?fieldManager=m&force=1"
        reply = self.hub.ask("PATCH", target, body)
        expect(seen(reply.value or {}), (namespace, name, revision, text))
        plain.changes.append(Change(place, text))

    def erase(self, place: int) -> None:
        """An object is deleted, if it is there."""
        plain, (namespace, name) = self.plain, KEYS[place]
        is_there = plain.stood(place, plain.current) is not None
        reply = self.hub.ask("DELETE", self.hub.path(name, namespace))
        expect(reply.status, 200 if is_there else 404)
        if is_there:
            plain.changes.append(Change(place, None))

    def change(self, in_round: int) -> None:
        """Draws a change: one in eight is a deletion where the round has some, and one in eight is long where it has some."""
        place, kind = self.plain.below(len(KEYS)), self.plain.below(8)
        if kind == 0 and in_round & 1 == 1:
            self.erase(place)
        elif kind == 1 and in_round & 7 == 2:
            self.write(place, LONG)
        else:
            self.write(place, self.plain.below(9) + 1)

    def numbers(self) -> None:
        """The current revision, and the compacted one where an older one is refused."""
        plain = self.plain
        reply = self.hub.ask("GET", WIDGETS)
        assert reply.value is not None
        expect(reply.value["metadata"]["resourceVersion"], str(plain.current))
        if plain.compacted > 1:
            self.objects(plain.compacted - 1, "")

    def refused(self, reply: Reply, revision: int) -> bool:
        """Whether a revision is refused, as it must be."""
        plain = self.plain
        if revision < plain.compacted:
            text = f"too old resource version: {revision} ({plain.compacted})"
            expect((reply.status, reply.message), (410, text))
            return True
        if reply.value is not None and revision > plain.current:
            text = f"Too large resource version: {revision}, current: {plain.current}"
            expect((reply.status, reply.message), (504, text))
            return True
        expect(reply.status, 200)
        return False

    def objects(self, revision: int, selector: str) -> None:
        """The objects at a revision, or those with a short text."""
        query = f"resourceVersion={revision}&resourceVersionMatch=Exact"
        reply = self.hub.ask("GET", f"{WIDGETS}?{query}&limit={LINES}&{selector}")
        if self.refused(reply, revision):
            return
        assert reply.value is not None
        wanted = []
        for place, key in enumerate(KEYS):
            stood = self.plain.stood(place, revision)
            if stood and (not selector or len(stood.text) == 1):
                wanted.append((*key, *stood))
        expect([seen(it) for it in reply.value["items"]], wanted)

    def watch(self, after: int, selector: str, places: range) -> None:
        """The first lines of a watch of these objects, which are a namespace's."""
        namespace = KEYS[places[0]][0]
        query = f"watch=1&resourceVersion={after}&{selector}"
        reply = self.hub.ask("GET", f"{self.hub.path('', namespace)}?{query}")
        if self.refused(reply, after):
            return
        watch = self.hub.last
        did = self.hub.on({"pump": [watch, LINES]})
        self.hub.on({"gone": watch})
        expect(lines_of(did, watch), self.lines(after, selector, places))

    def lines(self, after: int, selector: str, places: range) -> list[Any]:
        """What the first lines of a watch must say."""
        wanted: list[Any] = []
        for revision in range(after + 1, self.plain.current + 1):
            place, text = self.plain.changes[revision - 2]
            old = self.plain.stood(place, revision - 1)
            is_new = text is not None and (not selector or len(text) == 1)
            is_old = old is not None and (not selector or len(old.text) == 1)
            if place not in places or not (is_new or is_old):
                continue
            kind = "DELETED" if not is_new else "MODIFIED" if is_old else "ADDED"
            shown = text if is_new else old and old.text
            wanted.append((kind, (*KEYS[place], revision, shown)))
        return wanted[:LINES]

    def get(self, place: int) -> None:
        """The object."""
        stood, (namespace, name) = (
            self.plain.stood(place, self.plain.current),
            KEYS[place],
        )
        reply = self.hub.ask("GET", self.hub.path(name, namespace))
        if stood is None:
            expect(reply.status, 404)
        else:
            expect(seen(reply.value or {}), (namespace, name, *stood))

    def compact(self, revision: int) -> None:
        """A compaction, or its refusal."""
        plain = self.plain
        is_refused = not plain.compacted <= revision <= plain.current
        did = self.hub.on({"compact": revision})
        expect(did.refused is not None, is_refused)
        if not is_refused:
            plain.compacted = revision

    def look(self) -> None:
        """Draws a look: at one of the last revisions, or at any."""
        plain = self.plain
        call = LOOKS[plain.below(len(LOOKS))]
        place = plain.below(2 if call == "both" else len(KEYS))
        following = plain.current + 1
        reach = plain.below(2) * following + 20
        # (a list of no version, or of version 0, is another question)
        revision = max(following - plain.below(reach), 1)
        if call in ("list", "kept"):
            self.objects(revision, SHORT if call == "kept" else "")
        elif call == "changes":
            self.watch(revision, "", range(IN_DEFAULT))
        elif call == "before":
            places = (
                range(IN_DEFAULT)
                if place < IN_DEFAULT
                else range(IN_DEFAULT, len(KEYS))
            )
            self.watch(max(revision - 1, 1), SHORT, places)
        elif call == "compact":
            self.compact(revision)
        elif call == "both":
            self.write(place, 1)
            self.write(place + IN_DEFAULT, 1)
        else:
            self.get(place)


def lines_of(did: Did, watch: int) -> list[Any]:
    """What the lines of a watch say."""
    text = did.out.get(watch, b"").decode()
    lines = [json.loads(it) for it in text.splitlines() if it.startswith('{"type"')]
    return [(it["type"], seen(it["object"])) for it in lines]


def answer(programs: Programs, step: str) -> str:
    """What comes at a step."""
    word, *numbers = step.split(" ")
    first, rounds, changes, looks = map(int, numbers)
    if word != "drawn":
        raise Wrong(f"no step begins with {word}")
    drawn = Drawn(programs, first)
    with drawn.hub:
        for in_round in range(rounds):
            for _ in range(drawn.plain.below(changes)):
                drawn.change(in_round)
            drawn.numbers()
            for _ in range(looks):
                drawn.look()
    return "as in a plain list"


def play(programs: Programs, example: Example) -> Iterator[str]:
    """What comes at each row of an example."""
    for row in example.rows:
        yield answer(programs, row.step)
