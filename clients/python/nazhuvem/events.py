"""What happens on a hub, as those see it who disturb it."""

from __future__ import annotations

from dataclasses import dataclass, field
from typing import TYPE_CHECKING, Any, Protocol

if TYPE_CHECKING:
    from nazhuvem.hub import Hub

__tracebackhide__ = True


@dataclass
class Event:
    """A request, the begin of a watch, or a pump."""

    kind: str
    method: str = ""
    target: str = ""
    body: Any = None
    #: Whether the controller under test does it, within `Hub.run`.
    is_controllers: bool = False
    #: The status of the reply, where there is one.
    status: int = 0
    #: The whole reply of a request.
    reply: bytes = b""
    #: The lines that watches brought.
    lines: list[bytes] = field(default_factory=list)
    #: Whether a pump was held back.
    is_held: bool = False

    @property
    def asked(self) -> str:
        """What is asked, without what came of it."""
        return f"{self.method} {self.target}" if self.method else self.kind

    def __str__(self) -> str:
        return f"{self.asked} {self.status}" if self.status else self.asked


class Observer(Protocol):
    """Who is told of each event before and after it happens."""

    def before(self, hub: Hub, event: Event) -> None:
        """The event is about to happen."""

    def after(self, hub: Hub, event: Event) -> None:
        """The event has happened."""
