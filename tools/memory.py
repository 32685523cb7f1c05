"""The memory that runs side by side share: when the next one may begin.

The first in line is let in where it fits: where what is free, less what those inside
may still come to take, holds what it takes at most and some to spare; or where nothing
runs, whatever is free. The largest one, which takes longest, is first.

A run of `rt try` holds its most for some seconds of two minutes, while clang reads the
module and instruments it, and then lets go of nearly half.
"""

from __future__ import annotations

import contextlib
import os
import re
import threading
from collections.abc import Callable, Iterator
from dataclasses import dataclass, field

import gate_cost

# What stays free for the programs and tools that run beside.
SPARE = 500_000_000
# A run that has held this part of its most, and now holds this part of what it held,
# is past its most: it takes no more than this beside what it holds.
MOST_OF_IT, REST = 0.8, 0.7
LATER = 300_000_000
SECONDS_BETWEEN = 1.0
PAGE = os.sysconf("SC_PAGE_SIZE")


def held(top: int) -> int:
    """The bytes of memory of a process and those below it, but for mapped files."""
    all_of = gate_cost.processes()
    found = 0
    for number in all_of:
        if gate_cost.is_below(number, top, all_of):
            # (it may have ended meanwhile)
            with contextlib.suppress(OSError):
                with open(f"/proc/{number}/statm", encoding="ascii") as it:
                    _, resident, of_files = map(int, it.read().split()[:3])
                found += PAGE * (resident - of_files)
    return found


def killed() -> int:
    """How many processes the system has killed for want of memory since its start."""
    with open("/proc/vmstat", encoding="ascii") as it:
        found = re.search(r"^oom_kill (\d+)$", it.read(), re.M)
    return int(found[1]) if found else 0


@dataclass(eq=False)
class Share:
    """What a run takes at most, in bytes, and its topmost process, once it has one."""

    most: int
    is_first: bool
    top: int | None = None
    has_held: int = 0
    is_in: threading.Event = field(default_factory=threading.Event)


class Shares:
    """The shares of the runs that are inside, and the line of those that wait."""

    def __init__(
        self, lanes: int, free: Callable[[], int], held: Callable[[int], int] = held
    ) -> None:
        self.lanes, self._free, self._held = lanes, free, held
        self._inside: list[Share] = []
        self._line: list[Share] = []
        self._lock = threading.Lock()
        self._ended = threading.Event()

    def watch(self) -> None:
        """Lets runs in, until the end."""
        while not self._ended.wait(SECONDS_BETWEEN):
            self.let_in()

    @contextlib.contextmanager
    def taken(self, most: int, is_first: bool = False) -> Iterator[Share]:
        """Waits until a run is let in, which is inside until the context ends."""
        share = self.in_line(most, is_first)
        share.is_in.wait()
        if self._ended.is_set():
            raise InterruptedError("no more runs are let in")
        try:
            yield share
        finally:
            self.leave(share)

    def in_line(self, most: int, is_first: bool = False) -> Share:
        """Puts a run in the line, where some come before others, however large."""
        share = Share(most, is_first)
        with self._lock:
            self._line.append(share)
            self._line.sort(key=lambda it: (not it.is_first, -it.most))
        return share

    def let_in(self) -> None:
        """Lets in the first of the line, as long as there are room and a processor."""
        with self._lock:
            more = sum([self._more(it) for it in self._inside])
            room = self._free() - more - SPARE
            while self._line and len(self._inside) < self.lanes:
                if self._inside and self._line[0].most > room:
                    break
                share = self._line.pop(0)
                self._inside.append(share)
                room -= share.most
                share.is_in.set()

    def _more(self, share: Share) -> int:
        """What a run that is inside may come to take beside what it holds."""
        holds = self._held(share.top) if share.top else 0
        share.has_held = max(share.has_held, holds)
        if share.has_held > MOST_OF_IT * share.most and holds < REST * share.has_held:
            return LATER
        return max(share.most - holds, 0)

    def leave(self, share: Share) -> None:
        """Takes note that a run has ended."""
        with self._lock:
            self._inside.remove(share)

    def end(self) -> None:
        """Lets no more runs in; those that wait end."""
        self._ended.set()
        with self._lock:
            for share in self._line:
                share.is_in.set()
