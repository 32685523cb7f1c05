#!/usr/bin/env python3
"""The test of a leader election by a Lease, whose clock the test moves.

    PYTHONPATH=clients/python examples/lease.py

Two candidates never lead at once: `explore` lets the second step at each place among
the requests of the first. Of candidates that don't say which version they replace it
finds how both lead; the others pass, also two disturbances at once.
"""
from __future__ import annotations

import sys
from typing import Any, Callable, Optional

from nazhuvem import Hub, ScheduleFailed, actions, changes, explore

LEASES = "/apis/coordination.k8s.io/v1/namespaces/default/leases"
NAMES = {"apiVersion": "coordination.k8s.io/v1", "kind": "Lease"}
SPEC = {"holderIdentity": "string", "renewTime": "string"}
TYPES = {
    "types": [
        {
            "group": "coordination.k8s.io",
            "version": "v1",
            "kind": "Lease",
            "plural": "leases",
            "schema": {
                "type": "object",
                "properties": {
                    "spec": {
                        "type": "object",
                        "properties": {name: {"type": of} for name, of in SPEC.items()},
                    }
                },
            },
        }
    ]
}
LEASE, DEADLINE = 15_000, 10_000  # milliseconds: others wait so long, a leader less


class Candidate:
    """Leads while it renews the lease, which it takes once it has stood still."""

    says_version = True

    def __init__(self, hub: Hub, name: str) -> None:
        self.hub, self.name = hub, name
        self.seen: Optional[str] = None
        self.seen_at = 0
        self.renewed: Optional[int] = None

    @property
    def leads(self) -> bool:
        """Whether it takes itself for the leader."""
        return (
            self.renewed is not None and self.hub.milliseconds < self.renewed + DEADLINE
        )

    def step(self) -> None:
        """Takes or renews the lease, where it may."""
        found = self.hub.get(LEASES + "/leader")
        version = found["metadata"]["resourceVersion"] if found else None
        if version != self.seen:
            self.seen, self.seen_at = version, self.hub.milliseconds
        is_own = found and found["spec"]["holderIdentity"] == self.name
        is_still = self.hub.milliseconds >= self.seen_at + LEASE
        if not version or is_own or is_still:
            self.write(version)

    def write(self, version: Optional[str]) -> None:
        """Writes the lease in place of the one of this version."""
        spec = {"holderIdentity": self.name, "renewTime": str(self.hub.milliseconds)}
        lease: dict[str, Any] = {**NAMES, "metadata": {"name": "leader"}, "spec": spec}
        if version and self.says_version:
            lease["metadata"]["resourceVersion"] = version
        call = ("PUT", LEASES + "/leader") if version else ("POST", LEASES)
        written = self.hub.request(*call, lease, check=False)
        is_written = written.status in (200, 201)
        self.renewed = self.hub.milliseconds if is_written else None


class Careless(Candidate):
    """Replaces the lease, whatever its version has become."""

    says_version = False


def scenario(candidate: type[Candidate]) -> Callable[[Hub], None]:
    """The first leads, stands still for as long as a lease lasts, and goes on."""

    def play(hub: Hub) -> None:
        first, second = candidate(hub, "first"), candidate(hub, "second")
        for step in (first.step, second.step):
            step()
            hub.tick(2_000)
        assert first.leads and not second.leads
        hub.tick(LEASE)
        assert not first.leads, "it leads without a renewal"
        hub.meanwhile("the second candidate steps", second.step)
        hub.run(first.step)
        assert not (first.leads and second.leads), "two lead"
        for _ in range(10):
            hub.tick(2_000)
            second.step()
        assert second.leads and not first.leads, "the second leads at last"

    return play


def main() -> None:
    try:
        explore(scenario(Careless), TYPES)
        sys.exit("nothing was found")
    except ScheduleFailed as found:
        assert "two lead" in str(found)
        print(f"Careless: {found}\n")
    count = explore(scenario(Candidate), TYPES, (actions, changes), budget=10)
    print(f"Candidate: {count} schedules")


if __name__ == "__main__":
    if len(sys.argv) > 1:
        sys.exit(__doc__)
    main()
