"""What may go wrong. All of it is a `NazhuvemError`; the names of 1.2 without `Error`
at their end are the same classes."""

from __future__ import annotations

from typing import TYPE_CHECKING, Any

if TYPE_CHECKING:
    from nazhuvem.connection import Reply


class NazhuvemError(Exception):
    """What the package raises."""


class TypesError(NazhuvemError, ValueError):
    """The types can't be had: a file that isn't there, or declares none."""


class ProgramNotFoundError(NazhuvemError, FileNotFoundError):
    """No folder that is looked in has the program."""


class PipeFailedError(NazhuvemError, RuntimeError):
    """The hub's program ended, or the hub was closed; the text is what it said."""


class ServerFailedError(NazhuvemError, RuntimeError):
    """The server ended before it listened; the text is what it said."""


class RefusalError(NazhuvemError):
    """A reply that is a refusal."""

    def __init__(self, reply: Reply, request: str = "") -> None:
        said = f"{reply.status} {reply.value.get('message', '')}"
        super().__init__(f"{said}, of {request}" if request else said)
        self.status: int = reply.status
        self.value: Any = reply.value


class EventRefusedError(NazhuvemError):
    """An event that can't happen; it changed nothing."""


class NothingComesError(NazhuvemError):
    """A client waits for what can't come while it waits."""


class NotSettledError(NazhuvemError, AssertionError):
    """Step after step something has changed."""


class ScenarioError(NazhuvemError):
    """A scenario that can't be explored: its controller does nothing, or it isn't
    the same each time."""


class BegunAnew(BaseException):
    """Ends the work of `Hub.run`, which is then begun anew. It is no `Exception`, so
    that a controller doesn't handle it as an error."""


Refusal = RefusalError
EventRefused = EventRefusedError
NothingComes = NothingComesError
PipeFailed = PipeFailedError
ProgramNotFound = ProgramNotFoundError
ServerFailed = ServerFailedError
