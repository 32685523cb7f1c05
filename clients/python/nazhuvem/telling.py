"""Events as lines for people: what each brought, with rounds that repeat folded."""

from __future__ import annotations

import json
import re
from dataclasses import dataclass
from functools import lru_cache
from typing import TYPE_CHECKING, Any, Iterator, Optional, Sequence
from urllib.parse import parse_qs

from nazhuvem.connection import is_write
from nazhuvem.events import Event

if TYPE_CHECKING:
    from nazhuvem.hub import Hub

__tracebackhide__ = True

# A schedule is shown in so many lines at most; so many of them stand at its begin, and
# around a disturbance.
_MOST_ROWS, _FIRST_ROWS, _LAST_ROWS, _AROUND = 24, 3, 8, 2
_DISTURBANCE, _ROUNDS = 1, 2
# Rounds of so many events at most are folded, where there are so many.
_LONGEST_ROUND, _FEWEST_ROUNDS = 60, 3
_MOST_LINES = 4
_VERSION = re.compile(r"resourceVersion=\d+")


@dataclass(frozen=True)
class Row:
    """An event with its number, or a disturbance, which has none."""

    number: int
    event: Event

    @property
    def key(self) -> str:
        """What events of rounds that repeat have in common."""
        return _VERSION.sub("", str(self.event)) if self.number else ""

    def __str__(self) -> str:
        if not self.number:
            return f"      > {self.event.kind}"
        mark = "*" if self.event.is_controllers else " "
        return f"{self.number:>5} {mark} {told(self.event)}"


class Rows:
    """An observer that notes all events."""

    def __init__(self) -> None:
        self._rows: list[Row] = []

    def before(self, _: Hub, event: Event) -> None:
        """Notes an event."""
        self._rows.append(Row(len(self._rows) + 1, event))

    def after(self, _: Hub, event: Event) -> None:
        """Does nothing: the event says itself what came of it."""

    def shown(self) -> list[str]:
        """The events as lines, not too many."""
        return shown(self._rows)


def told(event: Event) -> str:
    """An event with what came of it."""
    if event.kind == "pump":
        return f"pump: {'held back' if event.is_held else _brought(event.lines)}"
    version = _version_of(event)
    return f"{event}, version {version}" if version else str(event)


def _brought(lines: Sequence[bytes]) -> str:
    said = [_line_told(json.loads(line)) for line in lines[:_MOST_LINES]]
    more = len(lines) - len(said)
    return "; ".join([*said, *([f"{more} more"] if more else [])]) or "nothing"


def _line_told(line: Any) -> str:
    one = line["object"]
    if line["type"] == "ERROR":
        return f"ERROR {one.get('code')}"
    metadata = one["metadata"]
    name = f" {metadata['name']}" if "name" in metadata else ""
    return f"{line['type']}{name}, version {metadata.get('resourceVersion')}"


def value_of(event: Event) -> Any:
    """The object that a successful write left, or took away."""
    is_done = is_write(event.method) and event.status in (200, 201)
    if not is_done or not event.reply:
        return None
    value = json.loads(event.reply.partition(b"\r\n\r\n")[2])
    return value if "name" in value.get("metadata", {}) else None


def _version_of(event: Event) -> Optional[str]:
    value = value_of(event) if event.method != "DELETE" else None
    return str(value["metadata"].get("resourceVersion")) if value else None


# Rounds


def shown(rows: Sequence[Row]) -> list[str]:
    """These rows as lines, not too many: with rounds folded, and some left out."""
    keys = [row.key for row in rows]
    lines: list[tuple[str, int]] = []
    at = 0
    while at < len(rows):
        length, count = _round_at(keys, at)
        end = at + length * count
        lines += [
            (str(row), 0 if row.number else _DISTURBANCE)
            for row in rows[at : at + length]
        ]
        if count > 1:
            what = fight([row.event for row in rows[:end]], at)
            said = f"{count} rounds, to event {rows[end - 1].number}"
            told_of = f"        {said}: {what}" if what else f"        {said}"
            lines.append((told_of, _ROUNDS))
        at = end
    return _shortened(lines)


def _round_at(keys: Sequence[str], at: int) -> tuple[int, int]:
    """How long the round is that begins here, and how often it comes."""
    best = 1, 1
    longest = min(_LONGEST_ROUND, (len(keys) - at) // _FEWEST_ROUNDS)
    for length in range(1, longest + 1):
        first = keys[at : at + length]
        count, end = 1, at + length
        while first == keys[end : end + length]:
            count, end = count + 1, end + length
        is_repeated = count >= _FEWEST_ROUNDS and "" not in first
        if is_repeated and length * count > best[0] * best[1]:
            best = length, count
    return best


def _shortened(lines: Sequence[tuple[str, int]]) -> list[str]:
    """The first and the last lines, and those around disturbances and rounds."""
    if len(lines) <= _MOST_ROWS:
        return [text for text, _ in lines]
    near: set[int] = set()
    for kind in (_DISTURBANCE, _ROUNDS):
        for at in (it for it, (_, its) in enumerate(lines) if its == kind):
            more = near | set(range(at - _AROUND, at + _AROUND + 1))
            if len(more) <= _MOST_ROWS - _FIRST_ROWS - _LAST_ROWS:
                near = more
    last = len(lines) - (_MOST_ROWS - _FIRST_ROWS - len(near))
    kept: list[str] = []
    left = 0
    for at, (text, _) in enumerate(lines):
        if at < _FIRST_ROWS or at >= last or at in near:
            kept += [f"      .. {left} more"] * (left > 0)
            kept.append(text)
            left = 0
        else:
            left += 1
    return kept


# Who changes what


def fight(events: Sequence[Event], begin: int = 0) -> str:
    """Who changes which fields again and again from the event of this index on:
    `a and b change .spec.replicas`. Nothing where nobody does."""
    objects: dict[tuple[str, str, str], Any] = {}
    changed: dict[str, list[str]] = {}
    for at, event in enumerate(events):
        value = value_of(event)
        if value is None:
            continue
        metadata = value["metadata"]
        key = value["kind"], metadata.get("namespace", ""), metadata["name"]
        before = objects.get(key)
        objects[key] = None if event.method == "DELETE" else value
        if at >= begin:
            for field in _changes(before, objects[key], metadata["name"]):
                changed.setdefault(field, []).append(manager_of(event))
    return _fight_told(changed)


def _fight_told(changed: dict[str, list[str]]) -> str:
    often = {it: by for it, by in changed.items() if len(by) > 1}
    several = {it: by for it, by in often.items() if len(set(by)) > 1}
    by_whom: dict[tuple[str, ...], list[str]] = {}
    for field, by in (several or often).items():
        by_whom.setdefault(tuple(sorted(set(by))), []).append(field)
    said = []
    for whom, fields in by_whom.items():
        more = f" and {len(fields) - 3} more" if len(fields) > 3 else ""
        verb = "change" if len(whom) > 1 else "changes"
        said.append(f"{' and '.join(whom)} {verb} {', '.join(fields[:3])}{more}")
    return "; ".join(said[:3])


def manager_of(event: Event) -> str:
    """Who made a write, as far as it says so."""
    query = parse_qs(event.target.partition("?")[2])
    return query.get("fieldManager", ["a client"])[0]


def _changes(before: Any, after: Any, name: str) -> list[str]:
    """The paths of the fields that a write changed; the name of an object that it
    made or deleted."""
    if before is None or after is None:
        return [name]
    return list(_different(before, after, ""))


def _different(before: Any, after: Any, path: str) -> Iterator[str]:
    if path in (".metadata.managedFields", ".metadata.resourceVersion"):
        return
    if isinstance(before, dict) and isinstance(after, dict):
        for name in {**before, **after}:
            yield from _different(before.get(name), after.get(name), f"{path}.{name}")
    elif before != after:
        yield path


@lru_cache(maxsize=None)
def slug(text: str) -> str:
    """A text in letters that a shell and a test's name take as they are."""
    short = re.sub(r"/apis/[^/]+/[^/]+/namespaces/", "", text)
    return re.sub(r"[^A-Za-z0-9_.]+", "-", short).strip("-")
