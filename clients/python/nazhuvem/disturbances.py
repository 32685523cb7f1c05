"""What may happen to a controller between two of its events.

What Sieve (OSDI 2022) calls an intermediate state is `BegunAnew`, a stale state
`Held`, an unobserved state `Deleted`, `Changed`, `Cut` and `Expired`.
"""

from __future__ import annotations

import json
from dataclasses import dataclass
from typing import TYPE_CHECKING, Any, Callable, Mapping, Protocol, Sequence, Union

from nazhuvem.connection import is_write
from nazhuvem import errors
from nazhuvem.events import Event

if TYPE_CHECKING:
    from nazhuvem.hub import Hub

__tracebackhide__ = True

#: The manager of a change that nobody of the test makes.
MANAGER = "disturbance"


@dataclass(frozen=True)
class Place:
    """A place before an event of the controller, as it was seen in the play
    without a disturbance."""

    #: The number of the event, from 1.
    number: int
    event: Event
    #: The paths of the objects that are there.
    objects: tuple[str, ...]
    #: The `apiVersion` and `kind` of each of them.
    kinds: Mapping[str, Mapping[str, Any]]
    #: How many watches are open.
    watches: int
    #: How many writes the controller has made since it began.
    writes: int
    #: What else may happen, by `Hub.meanwhile`.
    actions: tuple[str, ...] = ()


class Disturbance(Protocol):
    """Something that happens at a place."""

    def happen(self, hub: Hub) -> None:
        """Lets it happen."""


#: All that may happen at a place.
Kind = Callable[[Place], list[Disturbance]]
#: Kinds, or names of those here: `(deletions, "cuts")`.
Kinds = Union[str, Sequence[Union[Kind, str]]]


@dataclass(frozen=True)
class Deleted:
    """An object is deleted."""

    path: str

    def happen(self, hub: Hub) -> None:
        """Deletes it, where it is there."""
        hub.request("DELETE", self.path, check=False)

    def __str__(self) -> str:
        return f"delete {self.path}"


@dataclass(frozen=True)
class Changed:
    """An object is changed by another manager, by force."""

    path: str
    #: What is applied, as JSON.
    text: str

    def happen(self, hub: Hub) -> None:
        """Changes it, where it is there."""
        if hub.request("GET", self.path, check=False).status == 200:
            body = json.loads(self.text)
            hub.apply(_manager_of(body), self.path, body, force=True, check=False)

    def __str__(self) -> str:
        told = json.dumps(_without_names(json.loads(self.text)))
        return f"change {self.path} {told}"


@dataclass(frozen=True)
class Annotated(Changed):
    """An object gets an annotation by another manager."""

    def __str__(self) -> str:
        return f"annotate {self.path}"


def _without_names(body: Mapping[str, Any]) -> dict[str, Any]:
    return {it: body[it] for it in body if it not in ("apiVersion", "kind")}


def _manager_of(body: Mapping[str, Any]) -> str:
    """Who makes a change: one for all changes of the same fields, as an apply by the
    same manager takes away what it doesn't repeat."""
    return "-".join([MANAGER, *_leaves(_without_names(body), "")])[:100]


def _leaves(value: Any, path: str) -> list[str]:
    if not isinstance(value, dict) or not value:
        return [path]
    return [it for name in value for it in _leaves(value[name], f"{path}.{name}")]


@dataclass(frozen=True)
class Cut:
    """The connections of all watches are cut."""

    def happen(self, hub: Hub) -> None:
        """Cuts them."""
        hub.cut()

    def __str__(self) -> str:
        return "cut"


@dataclass(frozen=True)
class Held:
    """The lines of all watches are held back for so many pumps."""

    pumps: int = 1

    def happen(self, hub: Hub) -> None:
        """Holds them back."""
        hub.hold(self.pumps)

    def __str__(self) -> str:
        return f"hold {self.pumps}"


@dataclass(frozen=True)
class Expired:
    """Watches are cut, and the version that they would go on from is compacted:
    the next watch is refused by 410."""

    def happen(self, hub: Hub) -> None:
        """Changes an object of a namespace of its own, and compacts."""
        hub.leave_trace(MANAGER)
        hub.compact()
        hub.cut()

    def __str__(self) -> str:
        return "expire"


@dataclass(frozen=True)
class Recreated:
    """An object is deleted and made again by who had made it, without its status."""

    path: str

    def happen(self, hub: Hub) -> None:
        """Deletes it and makes it again, where it is there."""
        value = hub.get(self.path)
        if value is None:
            return
        hub.request("DELETE", self.path)
        _make(hub, self.path, value)

    def __str__(self) -> str:
        return f"delete and make again {self.path}"


@dataclass(frozen=True)
class Copied:
    """Another object of the same content is made."""

    path: str

    def happen(self, hub: Hub) -> None:
        """Makes it, where the first is there."""
        value = hub.get(self.path)
        if value is not None:
            _make(hub, f"{self.path}-copy", value)

    def __str__(self) -> str:
        return f"make {self.path}-copy"


def _make(hub: Hub, path: str, value: Mapping[str, Any]) -> None:
    """Applies what an object has, but for its status, by the manager that applied it
    first."""
    kept = {
        name: it for name, it in value.items() if name not in ("metadata", "status")
    }
    metadata = value["metadata"]
    own = {it: metadata[it] for it in ("labels", "annotations") if it in metadata}
    managers = [it["manager"] for it in metadata.get("managedFields", [])]
    manager = managers[0] if managers else MANAGER
    hub.apply(manager, path, {**kept, "metadata": own}, force=True)


@dataclass(frozen=True)
class Unseen:
    """Something happens behind a 410: watches are cut, and what happened since is
    compacted, so that only a list shows it."""

    what: Disturbance

    def happen(self, hub: Hub) -> None:
        """Lets it happen, compacts, and cuts the watches."""
        self.what.happen(hub)
        Expired().happen(hub)

    def __str__(self) -> str:
        return f"{self.what}, behind a 410"


@dataclass(frozen=True)
class BegunAnew:
    """The controller is begun anew."""

    def happen(self, hub: Hub) -> None:
        """Ends its work."""
        raise errors.BegunAnew

    def __str__(self) -> str:
        return "begin anew"


@dataclass(frozen=True)
class Meanwhile:
    """What the scenario says may happen."""

    name: str

    def happen(self, hub: Hub) -> None:
        """Lets it happen."""
        hub.act(self.name)

    def __str__(self) -> str:
        return self.name


def deletions(place: Place) -> list[Disturbance]:
    """The deletion of each object, by another client."""
    return [Deleted(path) for path in place.objects]


def changes(place: Place) -> list[Disturbance]:
    """A new annotation of each object, by another manager."""
    body = {"metadata": {"annotations": {MANAGER: str(place.number)}}}
    return [Annotated(path, text) for path, text in _texts(place, body)]


def changes_by(body: Mapping[str, Any]) -> Kind:
    """This change of each object, by another manager: `{"spec": {"replicas":
    1}}`, say. The controller's objects get it, too."""

    def all_of(place: Place) -> list[Disturbance]:
        return [Changed(path, text) for path, text in _texts(place, body)]

    return all_of


def _texts(place: Place, body: Mapping[str, Any]) -> list[tuple[str, str]]:
    """The objects of a place, each with what changes it so."""
    return [
        (path, json.dumps({**place.kinds[path], **body}))
        for path in place.objects
        if path in place.kinds
    ]


def cuts(place: Place) -> list[Disturbance]:
    """A cut of all watches, where some are open."""
    return [Cut()] if place.watches else []


def holds(place: Place) -> list[Disturbance]:
    """Lines held back at a pump, for one pump and for three."""
    return [Held(1), Held(3)] if place.event.kind == "pump" else []


def expiries(place: Place) -> list[Disturbance]:
    """A compaction by which watches end, where some are open."""
    return [Expired()] if place.watches else []


def recreations(place: Place) -> list[Disturbance]:
    """Each object deleted and made again, between two events of the controller."""
    return [Recreated(path) for path in place.objects]


def unseen_deletions(place: Place) -> list[Disturbance]:
    """The deletion of each object behind a 410, where watches are open: a cache that
    only adds after a list keeps it."""
    return [Unseen(it) for it in deletions(place)] if place.watches else []


def unseen_changes(place: Place) -> list[Disturbance]:
    """A new annotation of each object behind a 410, where watches are open."""
    return [Unseen(it) for it in changes(place)] if place.watches else []


def unseen_creations(place: Place) -> list[Disturbance]:
    """A copy of each object (`NAME-copy`) behind a 410, where watches are open. It is
    none of `EVERY`, for the scenario has to expect it."""
    return [Unseen(Copied(it)) for it in place.objects] if place.watches else []


def restarts(place: Place) -> list[Disturbance]:
    """The controller begun anew between two of its writes."""
    is_between = place.writes > 0 and is_write(place.event.method)
    return [BegunAnew()] if is_between and place.event.is_controllers else []


def actions(place: Place) -> list[Disturbance]:
    """What the scenario says may happen, by `Hub.meanwhile`."""
    return [Meanwhile(name) for name in place.actions]


#: All kinds that a scenario needn't expect.
EVERY: tuple[Kind, ...] = (
    actions,
    deletions,
    changes,
    cuts,
    holds,
    expiries,
    restarts,
    recreations,
    unseen_deletions,
    unseen_changes,
)


def kinds_of(kinds: Kinds) -> list[Kind]:
    """These kinds, of which some are called by their names: `"deletions"`."""
    known = {getattr(kind, "__name__"): kind for kind in (*EVERY, unseen_creations)}
    found: list[Kind] = []
    for kind in [kinds] if isinstance(kinds, str) else kinds:
        if isinstance(kind, str) and kind not in known:
            names = ", ".join(known)
            raise errors.ScenarioError(f"no kind of disturbances is {kind!r}: {names}")
        found.append(known[kind] if isinstance(kind, str) else kind)
    return found
