"""Schedules of an object API server in a test's hands.

`Hub` is a server of which the test chooses what happens next, `explore` plays a
scenario under each disturbance at each place (`schedules` as a test each), `Server` is
a server on a port. All three take types files and CustomResourceDefinitions. What they
raise is a `NazhuvemError`.
"""

from nazhuvem.connection import Reply
from nazhuvem.definitions import TypesWarning
from nazhuvem.disturbances import (
    EVERY,
    Disturbance,
    Place,
    actions,
    changes,
    changes_by,
    cuts,
    deletions,
    expiries,
    holds,
    recreations,
    restarts,
    unseen_changes,
    unseen_creations,
    unseen_deletions,
)
from nazhuvem.errors import (
    BegunAnew,
    EventRefused,
    EventRefusedError,
    NazhuvemError,
    NothingComes,
    NothingComesError,
    NotSettledError,
    PipeFailed,
    PipeFailedError,
    ProgramNotFound,
    ProgramNotFoundError,
    Refusal,
    RefusalError,
    ScenarioError,
    ServerFailed,
    ServerFailedError,
    TypesError,
)
from nazhuvem.exploring import (
    ScheduleFailed,
    ScheduleFailedError,
    explore,
    play,
    schedules,
)
from nazhuvem.hub import Hub
from nazhuvem.pipe import Answer
from nazhuvem.programs import find
from nazhuvem.schedule import Schedule
from nazhuvem.server import Server
from nazhuvem.watch import Watch

__all__ = [
    "EVERY",
    "Answer",
    "BegunAnew",
    "Disturbance",
    "EventRefused",
    "EventRefusedError",
    "Hub",
    "NazhuvemError",
    "NotSettledError",
    "NothingComes",
    "NothingComesError",
    "PipeFailed",
    "PipeFailedError",
    "Place",
    "ProgramNotFound",
    "ProgramNotFoundError",
    "Refusal",
    "RefusalError",
    "Reply",
    "ScenarioError",
    "Schedule",
    "ScheduleFailed",
    "ScheduleFailedError",
    "Server",
    "ServerFailed",
    "ServerFailedError",
    "TypesError",
    "TypesWarning",
    "Watch",
    "actions",
    "changes",
    "changes_by",
    "cuts",
    "deletions",
    "expiries",
    "explore",
    "find",
    "holds",
    "play",
    "recreations",
    "restarts",
    "schedules",
    "unseen_changes",
    "unseen_creations",
    "unseen_deletions",
]
