"""What a types file loses, or has otherwise than the definition that it is made of."""

from __future__ import annotations

import collections
import dataclasses
import json

# In the order in which they are told: what can't be asked for at all stands first.
KINDS = ("type", "field", "rule", "warning")
WIDTH = 100


@dataclasses.dataclass(frozen=True)
class Note:
    """One loss (`type`, `field`, `rule`) or difference (`warning`) with its place."""

    kind: str
    place: str
    reason: str
    # Whether it is one of a types file, which the server would refuse.
    is_fault: bool = False

    def __str__(self) -> str:
        return f"{self.kind:7} {self.place}: {self.reason}"

    @property
    def is_unserved(self) -> bool:
        """Whether something can't be asked for, a type or a field, or the file itself
        can't be served as it is."""
        return self.is_fault or self.kind in ("type", "field")


def shown(value: object) -> str:
    """A value in JSON, cut where it is long."""
    text = json.dumps(value, ensure_ascii=False)
    return text if len(text) <= WIDTH else text[: WIDTH - 2] + ".."


def ordered(notes: list[Note]) -> list[Note]:
    """The notes by kind, each kind in the order of the definitions."""
    return sorted(notes, key=lambda note: KINDS.index(note.kind))


def summed(notes: list[Note]) -> list[Note]:
    """The notes with the rules of each type as one, which counts them by keyword."""
    rules: dict[str, collections.Counter[str]] = {}
    for note in notes:
        if note.kind == "rule" and not note.is_fault:
            counts = rules.setdefault(note.place.split(" ")[0], collections.Counter())
            counts[note.reason.partition(":")[0]] += 1
    others = [note for note in notes if note.kind != "rule" or note.is_fault]
    for place, counts in rules.items():
        told = ", ".join(f"{word} {count}" for word, count in counts.most_common())
        others.append(Note("rule", place, told))
    return others


def counted(notes: list[Note]) -> str:
    """How many notes there are of each kind, as `2 fields, 1 rule`."""
    counts = collections.Counter(note.kind for note in notes)
    found = [(kind, counts[kind]) for kind in KINDS if counts[kind]]
    return ", ".join(f"{n} {kind}{'s' if n > 1 else ''}" for kind, n in found)
