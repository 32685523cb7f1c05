"""Schedules: which disturbance happens before which event, and their words."""

from __future__ import annotations

from dataclasses import dataclass, field, replace
from typing import Callable, Iterator, Optional, Sequence

from nazhuvem.disturbances import Disturbance, Kind, Place
from nazhuvem.events import Event
from nazhuvem.hub import Hub
from nazhuvem.telling import slug

__tracebackhide__ = True

#: A test: what the controller does, what others do, and what has to hold.
Scenario = Callable[[Hub], object]

UNDISTURBED = "undisturbed"


@dataclass(frozen=True)
class Schedule:
    """A disturbance before the event of a number; none at 0."""

    place: int = 0
    disturbance: Optional[Disturbance] = None
    #: The events without a disturbance, which those before its place have to be.
    events: Sequence[Event] = field(default=(), compare=False, repr=False)
    #: How many schedules before it have the same word.
    twins: int = field(default=0, compare=False, repr=False)
    #: A second disturbance, at this place or later.
    then: Optional[Schedule] = None

    @property
    def steps(self) -> list[Schedule]:
        """Its disturbances, one by one."""
        return [self, *(self.then.steps if self.then else [])]

    @property
    def word(self) -> str:
        """The word by which it is played again: `NAZHUVEM_SCHEDULE=7-cut+9-hold-1`."""
        if self.disturbance is None:
            return UNDISTURBED
        twin = f".{self.twins + 1}" if self.twins else ""
        then = f"+{self.then.word}" if self.then else ""
        return f"{self.place}-{slug(str(self.disturbance))}{twin}{then}"

    def __str__(self) -> str:
        if self.disturbance is None:
            return "no disturbance"
        then = f"; {self.then}" if self.then else ""
        return f"before event {self.place}: {self.disturbance}{then}"


def singles(places: Sequence[Place], kinds: Sequence[Kind]) -> Iterator[Schedule]:
    """All schedules of one disturbance: before the controller's events, or before
    each where the scenario doesn't tell which are the controller's."""
    events = [place.event for place in places]
    is_told = any(event.is_controllers for event in events)
    for place in places:
        if is_told and not place.event.is_controllers:
            continue
        seen: dict[str, list[Disturbance]] = {}
        for kind in kinds:
            for disturbance in kind(place):
                schedule = Schedule(place.number, disturbance, events)
                twins = seen.setdefault(schedule.word, [])
                if disturbance not in twins:
                    yield replace(schedule, twins=len(twins))
                    twins.append(disturbance)
