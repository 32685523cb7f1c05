"""Plays a scenario again and again, each time with one disturbance at one place."""

from __future__ import annotations

import itertools
import json
import os
import random
import re
import tempfile
import time
from contextlib import closing
from dataclasses import replace
from os import PathLike
from types import TracebackType
from typing import Any, Callable, Iterator, Optional, Sequence, Union

from nazhuvem.connection import is_write, object_written
from nazhuvem.definitions import Types
from nazhuvem.disturbances import EVERY, Kind, Kinds, Place, kinds_of
from nazhuvem.errors import NazhuvemError, ScenarioError
from nazhuvem.events import Event
from nazhuvem.hub import Hub
from nazhuvem.pipe import Pipe
from nazhuvem.schedule import Scenario, Schedule, singles
from nazhuvem.telling import Row, shown

__tracebackhide__ = True

#: The variable whose word names the one schedule that is played.
WORD = "NAZHUVEM_SCHEDULE"

#: The variable that says which part of the schedules is played: `2/8`.
SHARD = "NAZHUVEM_SHARD"
#: The variable of the seed by which schedules are chosen for a budget.
SEED = "NAZHUVEM_SEED"

#: The folder of the scripts of failures; the system's where it is None.
folder: Callable[[], Optional[str]] = lambda: None

#: The file of a failure's script.
Keep = Union[str, "PathLike[str]", None]

# So many lines of an error's own text are shown.
_MOST_LINES = 8
# After so many schedules of one disturbance a budget goes to pairs, too; after so many
# that were played already nothing new is looked for.
_FIRST_SINGLES, _MOST_MISSES = 200, 1000


class ScheduleFailedError(NazhuvemError, AssertionError):
    """The scenario failed under a schedule."""

    def __init__(
        self, said: str, schedule: Schedule, script: str, events: Sequence[str] = ()
    ) -> None:
        super().__init__(said)
        #: The schedule, which `play` takes.
        self.schedule: Schedule = schedule
        #: The path of the script of all that happened.
        self.script: str = script
        #: All that happened, a line each, of which the text shows some.
        self.events: Sequence[str] = events


ScheduleFailed = ScheduleFailedError


class _Player:
    """Lets the disturbance of a schedule happen at its place, and notes all
    places and events."""

    def __init__(self, schedule: Schedule) -> None:
        self._is_disturbed = schedule.disturbance is not None
        self._steps = schedule.steps
        self._number = 0
        self._writes = 0
        # What is there, shared by the places until a write changes it.
        self._kinds: dict[str, dict[str, Any]] = {}
        self._objects: tuple[str, ...] = ()
        self.rows: list[Row] = []
        self.places: list[Place] = []
        #: How the play is another than that without a disturbance was.
        self.differs = ""

    def before(self, hub: Hub, event: Event) -> None:
        """Notes the place before an event."""
        self._number += 1
        if (was := self._was()) and event.asked != was.asked:
            self._differ(event.asked, was.asked)
        self._writes = self._writes if event.is_controllers else 0
        self.places.append(
            Place(
                self._number,
                event,
                self._objects,
                self._kinds,
                hub.watches,
                self._writes,
                tuple(hub.actions),
            )
        )
        for step in self._steps:
            if self._number == step.place and step.disturbance:
                self.rows.append(Row(0, Event(str(step.disturbance))))
                with hub.unobserved():
                    step.disturbance.happen(hub)
        self.rows.append(Row(self._number, event))

    def after(self, hub: Hub, event: Event) -> None:
        """Notes which objects are there after an event."""
        is_before = all(self._number != step.place for step in self._steps)
        if is_before and (was := self._was()) and str(event) != str(was):
            self._differ(str(event), str(was))
        if event.status not in (200, 201) or not is_write(event.method):
            return
        self._writes += event.is_controllers
        if path := object_written(event.method, event.target, event.body):
            self._kinds = dict(self._kinds)
            if event.method == "DELETE":
                self._kinds.pop(path, None)
            else:
                self._kinds[path] = _kind_of(event.body)
            self._objects = tuple(self._kinds)

    def _was(self) -> Optional[Event]:
        """The event of this number, as it was without the next disturbance."""
        for step in self._steps:
            if step.events and self._number <= (step.place or self._number):
                at = self._number - 1
                return step.events[at] if at < len(step.events) else Event("none")
        return None

    def _differ(self, told: str, was: str) -> None:
        """Notes that an event before a disturbance is another than it was."""
        if not self.differs:
            self.differs = f"event {self._number} was {was}, and now is {told}"

    def end(self, hub: Hub) -> None:
        """Raises where a whole play shows that the scenario tests nothing."""
        if not self._number:
            raise ScenarioError("nothing happens in the scenario")
        if hub.idle_runs and not self._is_disturbed:
            raise ScenarioError("the work of a hub.run asks nothing of the hub")
        last = self._steps[-1]
        missing = (last.place or len(last.events)) - self._number
        if missing > 0 and not self.differs:
            self.differs = f"it ended {missing} events before the place or the end"
        self.check()

    def check(self) -> None:
        """Raises where the play was another than that without a disturbance."""
        if self.differs:
            raise ScenarioError(
                f"the scenario isn't the same each time: {self.differs} "
                "(one thread, no clock but the hub's, no chance)"
            )


def _kind_of(body: Any) -> dict[str, Any]:
    value = json.loads(body) if isinstance(body, (str, bytes)) else body
    return {name: value[name] for name in ("apiVersion", "kind") if name in value}


def _kept(hub: Hub, keep: Keep) -> str:
    """The path of the file that has the hub's script."""
    path = os.fspath(keep) if keep is not None else ""
    if not path:
        descriptor, path = tempfile.mkstemp(".jsonl", "nazhuvem-", folder())
        os.close(descriptor)
    hub.save(path)
    return path


def _failed(
    error: BaseException,
    schedule: Schedule,
    player: _Player,
    hub: Hub,
    keep: Keep,
    found_by: str,
) -> ScheduleFailedError:
    """What is said of a scenario that failed."""
    script = _kept(hub, keep)
    said = f"{type(error).__name__}: {error}".rstrip().split("\n")
    lines = [
        str(schedule),
        *shown(player.rows),
        *said[:_MOST_LINES],
        *([".."] if len(said) > _MOST_LINES else []),
        *([found_by] if found_by else []),
        f"again: {WORD}={schedule.word}",
        f"script: {script}",
        f"replay: {hub.replay_command(script)}",
    ]
    events = [str(row) for row in player.rows]
    return ScheduleFailedError("\n".join(lines), schedule, script, events)


def _is_failure(error: BaseException) -> bool:
    """Whether an error says that the test failed, as pytest.fail() does by one that is
    no `Exception`; to skip a test, or to end the program, is none."""
    is_skip = type(error).__name__ in ("SkipTest", "Skipped", "XFailed")
    is_fail = isinstance(error, Exception) or type(error).__name__ == "Failed"
    return is_fail and not is_skip


def _own_frames(trace: Optional[TracebackType]) -> Optional[TracebackType]:
    """The frames of a traceback that aren't the package's; all, where all are."""
    found = None
    for frame in reversed(list(_frames(trace))):
        if "__tracebackhide__" not in frame.tb_frame.f_globals:
            one = frame.tb_frame, frame.tb_lasti, frame.tb_lineno
            found = TracebackType(found, *one)
    return found or trace


def _frames(trace: Optional[TracebackType]) -> Iterator[TracebackType]:
    while trace is not None:
        yield trace
        trace = trace.tb_next


def play(
    scenario: Scenario,
    types: Types,
    schedule: Schedule = Schedule(),
    keep: Keep = None,
) -> list[Place]:
    """Plays the scenario under this schedule, and tells the places before its
    events.

    Where it raises an error, `ScheduleFailedError` is raised of it, and the script of
    what happened is written to `keep`, or to a temporary file. A scenario that tests
    nothing, or isn't the same each time, is a `ScenarioError`.
    """
    return _play(scenario, types, schedule, keep)


def _play(
    scenario: Scenario,
    types: Types,
    schedule: Schedule,
    keep: Keep,
    found_by: str = "",
    pipe: Optional[Pipe] = None,
) -> list[Place]:
    player = _Player(schedule)
    with Hub(types, observer=player, pipe=pipe) as hub:
        try:
            scenario(hub)
            player.end(hub)
        except ScenarioError:
            raise
        except BaseException as error:
            if not _is_failure(error):
                raise
            player.check()
            failed = _failed(error, schedule, player, hub, keep, found_by)
            raise failed from error.with_traceback(_own_frames(error.__traceback__))
    return player.places


def explore(
    scenario: Scenario,
    types: Types,
    kinds: Kinds = EVERY,
    keep: Keep = None,
    *,
    budget: Optional[float] = None,
    seed: Optional[int] = None,
) -> int:
    """Plays the scenario without a disturbance, then under each schedule of one
    disturbance of these kinds, each time on a hub of its own. Returns how many
    schedules were played.

    With a budget it goes on for so many seconds, and ends after them: once the first
    two hundred schedules have passed, the others come in an order by the seed, among
    them schedules of two disturbances. The seed is 1 where neither it nor the variable
    `NAZHUVEM_SEED` says another, so that the same test plays the same schedules.

    The first that fails ends it by `ScheduleFailedError`, whose text shows the
    schedule with all events (the controller's with a star). The word of a failure
    in the variable `NAZHUVEM_SCHEDULE` plays this one alone, and `NAZHUVEM_SHARD=2/8`
    the second of eight parts of them. The scenario has to do the same each time: one
    thread, no clock, no chance; it is played twice without a disturbance to see that,
    else it is a `ScenarioError`.
    """
    chosen, by = kinds_of(kinds), seed_of(seed)
    with closing(Exploration(scenario, types, chosen, keep)) as exploration:
        exploration.begin()
        if word := os.environ.get(WORD):
            exploration.play(exploration.named(word))
            return 1
        return exploration.explore(budget, by)


def schedules(scenario: Scenario, types: Types, kinds: Kinds = EVERY) -> list[Schedule]:
    """The schedules that `explore` plays, for pytest's `parametrize`: a test each.

        @pytest.mark.parametrize("schedule", schedules(scenario, "widgets.json"))
        def test_controller(schedule):
            play(scenario, "widgets.json", schedule)

    The id of a test is its schedule's word, so `-k`, `--lf` and xdist work. A scenario
    that fails without a disturbance has this one alone, and its test says how.
    """
    word = os.environ.get(WORD, "")
    with closing(Exploration(scenario, types, kinds_of(kinds))) as exploration:
        try:
            exploration.begin()
        except (ScheduleFailedError, ScenarioError):
            return [Schedule()]
        if "+" in word:
            return [exploration.named(word)]
    if word:
        return [it for it in exploration.schedules if it.word == word]
    shard, shards = shard_of()
    return exploration.schedules[shard::shards]


def seed_of(seed: Optional[int]) -> int:
    """The seed: the one given, else that of the variable."""
    text = os.environ.get(SEED) or "1"
    if seed is None and not re.fullmatch(r"\d+", text):
        raise ScenarioError(f"{SEED} is {text}: a whole number is wanted")
    return int(text) if seed is None else seed


def shard_of() -> tuple[int, int]:
    """Which part of the schedules, from 0, of how many."""
    text = os.environ.get(SHARD) or "1/1"
    found = re.fullmatch(r"(\d+)/(\d+)", text)
    if not found or not 1 <= int(found[1]) <= int(found[2]):
        raise ScenarioError(f"{SHARD} is {text}: 2/8 is the second of eight parts")
    return int(found[1]) - 1, int(found[2])


class Exploration:
    """A scenario with its schedules."""

    def __init__(
        self,
        scenario: Scenario,
        types: Types,
        kinds: Sequence[Kind],
        keep: Keep = None,
    ) -> None:
        self._scenario = scenario
        self._types = types
        self._kinds = kinds
        self._keep = keep
        self._found_by = ""
        self._count = 0
        self._places: dict[str, list[Place]] = {}
        self._words: set[str] = set()
        self._spare: Optional[Pipe] = None
        #: The undisturbed one, and those of one disturbance.
        self.schedules: list[Schedule] = []

    def begin(self) -> None:
        """Finds the schedules by a play without a disturbance."""
        places = self.play(Schedule())
        events = [place.event for place in places]
        self.schedules = [Schedule(events=events), *singles(places, self._kinds)]

    def play(self, schedule: Schedule) -> list[Place]:
        """The places of a play."""
        self._count += 1
        self._words.add(schedule.word)
        pipe, self._spare = self._spare or self._started(), self._started()
        return _play(
            self._scenario, self._types, schedule, self._keep, self._found_by, pipe
        )

    def _started(self) -> Pipe:
        """The program of the next play, which starts while this one is played."""
        return Pipe(self._types, ["--discovery"], waits=False)

    def close(self) -> None:
        """Ends the program that waits for the next play."""
        if self._spare:
            self._spare.close()

    def explore(self, budget: Optional[float], seed: int) -> int:
        """Plays the schedules, and tells how many they were."""
        end = None if budget is None else time.monotonic() + budget
        shard, shards = shard_of()
        first = len(self.schedules) if end is None else 1 + _FIRST_SINGLES
        self.play(self.schedules[0])
        self._count = 1
        for at, schedule in enumerate(self.schedules[1:first], 1):
            if end is not None and time.monotonic() >= end:
                return self._count
            if at % shards == shard:
                self._places[schedule.word] = self.play(schedule)
        if end is not None:
            self._found_by = f"seed: {seed}"
            self._explore_by(seed, end, self.schedules[first:])
        return self._count

    def _explore_by(self, seed: int, end: float, others: list[Schedule]) -> None:
        """Plays other schedules and pairs in an order by the seed, until the end."""
        shard, shards = shard_of()
        random.Random(seed).shuffle(others)
        misses = 0
        for number in itertools.count():
            if time.monotonic() >= end or misses >= _MOST_MISSES:
                return
            if number % shards != shard:
                continue
            is_pair = number % 2 or number // 2 >= len(others)
            chance = random.Random(f"{seed}/{number}")
            chosen = self._pair(chance) if is_pair else others[number // 2]
            if chosen is None or chosen.word in self._words:
                misses += 1
                continue
            misses = 0
            self.play(chosen)

    def _pair(self, chance: random.Random) -> Optional[Schedule]:
        """Two disturbances, the second where the first left it possible."""
        if len(self.schedules) < 2:
            return None
        first = chance.choice(self.schedules[1:])
        if first.word not in self._places:
            self._places[first.word] = self.play(first)
        found = self._second_of(first)
        return replace(first, then=chance.choice(found)) if found else None

    def _second_of(self, first: Schedule) -> list[Schedule]:
        """What may happen after a disturbance, or at its place."""
        after = singles(self._places[first.word], self._kinds)
        return [it for it in after if it.place >= first.place and it != first]

    def named(self, word: str) -> Schedule:
        """The schedule of this word."""
        head, _, tail = word.partition("+")
        for schedule in self.schedules:
            if schedule.word == head:
                if not tail:
                    return schedule
                self._places[head] = self.play(schedule)
                for second in self._second_of(schedule):
                    if second.word == tail:
                        return replace(schedule, then=second)
        raise ScenarioError(
            f"no schedule of this scenario is {word}: "
            "run the one test whose failure said it, with the same kinds"
        )
