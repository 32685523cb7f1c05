#!/usr/bin/env python3
"""Times Python's package over the program ssa-pipe that it finds: hubs from nothing,
events and requests one after another, and the schedules of examples/reconcile.py. Each
by the clock, and by the processor time of Python and of ssa-pipe, which says more where
others use the machine.

    bench/clients.py

`go test -run xxx -bench .` in clients/go times Go's.
"""
import os
import resource
import sys
import time
from typing import Callable

TOP = os.path.dirname(os.path.dirname(os.path.realpath(__file__)))
sys.path[:0] = [f"{TOP}/clients/python", f"{TOP}/examples"]

import reconcile  # noqa: E402
from nazhuvem import Disturbance, Hub, Place, explore  # noqa: E402
from nazhuvem.disturbances import Held  # noqa: E402


def processor_times() -> tuple[float, float]:
    """Seconds of this process, and of programs that have ended."""
    ended = resource.getrusage(resource.RUSAGE_CHILDREN)
    return time.process_time(), ended.ru_utime + ended.ru_stime


def timed(name: str, work: Callable[[], int]) -> None:
    """Prints what each of the things that this does takes; it returns how many."""
    began, before = time.perf_counter(), processor_times()
    count = work()
    clock, after = time.perf_counter() - began, processor_times()
    python, program = (1e6 * (b - a) / count for a, b in zip(before, after))
    each = f"{1e6 * clock / count:.0f} us by the clock"
    print(f"{name}: {each}, {python:.0f} us of Python, {program:.0f} us of ssa-pipe")


def hubs(count: int = 20) -> int:
    """Hubs from nothing to their first answer."""
    for _ in range(count):
        with Hub(reconcile.TYPES) as hub:
            hub.tick(0)
    return count


def ticks(count: int = 20000) -> int:
    """Events of one hub."""
    with Hub(reconcile.TYPES) as hub:
        for _ in range(count):
            hub.tick(1)
    return count


def requests(count: int) -> int:
    """GETs of one hub, each on a connection of its own."""
    with Hub(reconcile.TYPES) as hub:
        body = {**reconcile.NAMES, "spec": {"replicas": 2}}
        hub.apply("alice", reconcile.WIDGETS + "/w", body)
        for _ in range(count):
            hub.request("GET", reconcile.WIDGETS + "/w")
    return count


def schedules() -> int:
    """Schedules of examples/reconcile.py."""
    scenario = reconcile.scenario(reconcile.Mended)
    return explore(scenario, reconcile.TYPES, reconcile.KINDS)


def long_schedules() -> int:
    """A thousand schedules of 50 events, that disturb nothing."""
    widget = reconcile.WIDGETS + "/w"

    def scenario(hub: Hub) -> None:
        hub.apply("alice", widget, {**reconcile.NAMES, "spec": {"replicas": 2}})
        hub.run(lambda: [hub.request("GET", widget) for _ in range(49)])

    def kind(_: Place) -> list[Disturbance]:
        return [Held(pumps) for pumps in range(1, 22)]

    return explore(scenario, reconcile.TYPES, (kind,))


def main() -> None:
    timed("a hub from nothing", hubs)
    timed("an event", ticks)
    timed("a request, of the first 50", lambda: requests(50))
    timed("a request, of the first 1000", lambda: requests(1000))
    timed("a schedule", schedules)
    timed("a schedule of 50 events", long_schedules)


if __name__ == "__main__":
    if len(sys.argv) > 1:
        sys.exit(__doc__)
    main()
