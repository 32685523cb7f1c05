"""Which wrong bodies the gate tries, and when: the listed ones of `must-fail/` as soon as their crate is proved and a
processor is idle, and then, for some minutes, others of `more-edits/`.

A trial takes the lowest priority, and the system ends it first where memory runs out: it is then made again once the
proofs have ended.
"""

from __future__ import annotations

import hashlib
import json
import os
import re
import signal
import subprocess
import sys
import threading
import time
from collections.abc import Callable, Iterable
from dataclasses import dataclass, field
from types import ModuleType

import edits
import needs
import repository
from gate_cost import Watch

# What is left free beside a trial while crates are proved.
SPARE_MEMORY = 2_000_000_000
# How long a check over built libraries is thought to take, until one of its crate has ended.
SECONDS_OF_A_CHECK = 20.0
# How long after the time given an edit that a first check left open may still be tried by a check of its own.
SECONDS_MORE = 60.0
LAST = 'echo 1000 >/proc/self/oom_score_adj; exec nice -n 19 "$@"'


@dataclass
class Job:
    """Edits of a crate that are tried one after another, or together."""

    crate: str
    edits: list[str]
    is_listed: bool
    was_killed: bool = False
    process: subprocess.Popen[str] | None = None
    open: set[str] = field(default_factory=set)


def processors() -> int:
    """How many processors there are to use."""
    return len(os.sched_getaffinity(0))


class Trials:
    """Trials in processes of their own, over the libraries of a tree in which `rt ci` runs or has run."""

    def __init__(
        self,
        rt: ModuleType,
        room: str,
        watch: Watch,
        tell: Callable[[edits.Tried, bool], None],
    ) -> None:
        self.rt, self.room, self.watch, self.tell = rt, room, watch, tell
        self.is_proving = True
        self.deadline: float | None = None
        self.seconds: dict[str, float] = {}
        self.noted = needs.read()
        self._waiting: list[Job] = []
        self._running: list[Job] = []
        self._lock = threading.RLock()
        self._thread = threading.Thread(target=self._work, daemon=True)
        self._ended = threading.Event()
        self._thread.start()

    def add(self, crate: str, paths: list[str], is_listed: bool) -> None:
        """Has edits of a crate tried, whose libraries below are built."""
        if paths:
            with self._lock:
                self._waiting.append(Job(crate, paths, is_listed))

    def finish(self, seconds: float | None = None) -> None:
        """Waits until all is tried, or for some time: what then isn't is left out; what a first check left open has a minute more."""
        with self._lock:
            self.is_proving = False
            self.deadline = time.monotonic() + seconds if seconds is not None else None
        while True:
            with self._lock:
                for job in self._running:
                    if self._is_late(job) and job.process:
                        job.process.send_signal(signal.SIGTERM)
                self._waiting = [it for it in self._waiting if self._has_time(it)]
                if not self._waiting and not self._running:
                    return
            time.sleep(0.2)

    def end(self) -> None:
        """Ends all trials."""
        self._ended.set()
        with self._lock:
            for job in self._running:
                if job.process:
                    job.process.terminate()

    def _work(self) -> None:
        """Starts what can be started, until the end."""
        while not self._ended.wait(0.5):
            with self._lock:
                job = next((it for it in self._waiting if self._fits(it)), None)
                if job:
                    self._waiting.remove(job)
                    self._running.append(job)
                    threading.Thread(target=self._try, args=(job,), daemon=True).start()

    def _fits(self, job: Job) -> bool:
        """Whether there is a processor, memory and time for a trial."""
        if (
            any(it.crate == job.crate for it in self._running)
            or self.is_proving
            and job.was_killed
        ):
            return False
        room = self.watch.idle() if self.is_proving else processors()
        if len(self._running) >= room:
            return False
        if not self._has_time(job):
            return False
        folder = f"{self.room}/tree/crates/{job.crate}"
        guess = self.rt.need(self.rt.Crate(folder, f"{self.room}/tree", {}))
        need = needs.planned(self.noted, (job.crate, needs.EDITS), guess)
        spare = SPARE_MEMORY if self.is_proving else 0
        return self.rt.free() > need + spare or not (self._running or self.is_proving)

    def _is_late(self, job: Job) -> bool:
        """Whether a trial that runs has no time left."""
        more = SECONDS_MORE if job.open else 0
        return self.deadline is not None and time.monotonic() > self.deadline + more

    def _has_time(self, job: Job) -> bool:
        """Whether a trial is likely to end in time."""
        seconds = self.seconds.get(job.crate, SECONDS_OF_A_CHECK)
        return self.deadline is None or time.monotonic() + seconds < self.deadline

    def _try(self, job: Job) -> None:
        """Tries the edits of a job, and tells how each ended."""
        began = time.monotonic()
        kept = f"{self.room}/kept/{job.crate}"
        words = [
            sys.executable,
            edits.__file__,
            f"{self.room}/tree",
            job.crate,
            edits.NOTHING if job.is_listed else kept,
            *job.edits,
        ]
        command = [*self.rt.rtlib.guarded(), "sh", "-c", LAST, "", *words]
        said, left = "", set(job.edits)
        try:
            with repository.started(command) as job.process:
                for line in job.process.stdout or ():
                    said = self._take(job, line, left) or said
        finally:
            if not job.is_listed:
                self.seconds[job.crate] = time.monotonic() - began
            self._end(job, sorted(left), said)

    def _take(self, job: Job, line: str, left: set[str]) -> str:
        """Takes what a trial says of an edit; returns what else it says."""
        try:
            tried = edits.Tried(*json.loads(line))
        except (ValueError, TypeError):
            return line.strip()
        if tried.kind == edits.TOLD:
            if job.is_listed:
                print(f"gate: {tried.text}", flush=True)
        elif tried.kind == edits.OPEN:
            job.open.add(tried.edit)
        else:
            left.discard(tried.edit)
            job.open.discard(tried.edit)
            self.tell(tried, job.is_listed)
        return ""

    def _end(self, job: Job, left: list[str], said: str) -> None:
        """Has a killed trial made again, or tells of what it left."""
        with self._lock:
            self._running.remove(job)
            if not left or self._is_late(job) or self._ended.is_set():
                return
            was_killed = job.process and job.process.returncode == edits.KILLED
            if was_killed and not job.was_killed:
                again = Job(job.crate, left, job.is_listed, was_killed=True)
                self._waiting.append(again)
                return
        if was_killed:
            said = "the system killed its check twice, most likely for memory"
        why = f"its trial ended without a word of it: {said[:300]}"
        for edit in left:
            self.tell(edits.Tried(edit, edits.BAD, why), job.is_listed)


def base() -> str | None:
    """The commit that this tree is compared with: where its line left origin/main, or the commit before the last."""
    head = (repository.git("rev-parse", "HEAD") or "").strip()
    met = (repository.git("merge-base", "HEAD", "origin/main") or "").strip()
    if met and met != head:
        return met
    return (
        repository.git("rev-parse", "--verify", "-q", "HEAD~1") or ""
    ).strip() or None


def changed_lines() -> dict[str, list[range]]:
    """The lines of the crates' files that changed since then, by path."""
    since = base()
    diff = (
        repository.git("diff", "-U0", "--no-color", since, "--", "crates")
        if since
        else None
    )
    found: dict[str, list[range]] = {}
    path = ""
    for line in (diff or "").split("\n"):
        if line.startswith("+++ "):
            path = line[4:].removeprefix("b/")
        at = re.match(r"@@ -\S+ \+(\d+)(?:,(\d+))? @@", line)
        if at:
            first = int(at[1])
            found.setdefault(path, []).append(
                range(first, first + max(int(at[2] or 1), 1))
            )
    return found


def sum_of(paths: Iterable[str]) -> bytes:
    """A sum of files."""
    whole = hashlib.sha256()
    for path in paths:
        with open(f"{repository.TOP}/{path}", "rb") as it:
            whole.update(hashlib.sha256(path.encode() + b"\0" + it.read()).digest())
    return whole.digest()


def sample(
    top: str, by_crate: dict[str, list[str]], is_changed_alone: bool
) -> list[tuple[str, list[str]]]:
    """Rounds of edits, by crate, in the order in which they are tried: first those of functions that changed, then, unless these
    alone are asked for, those of files that changed, and the others, in an order that is drawn from a sum of all crates' sources.
    """
    changed = changed_lines()
    drawn = sum_of(
        path
        for path in repository.files()
        if re.match(r"crates/\w+/(src|specs|proofs)/", path)
    )
    found = []
    for crate, paths in by_crate.items():
        ranks = {}
        for edit in paths:
            turned = edits.turned_by(edit, f"{top}/crates/{crate}") or set()
            near = [
                (it, changed[f"crates/{crate}/{it.path}"])
                for it in turned
                if f"crates/{crate}/{it.path}" in changed
            ]
            is_changed = any(
                it.first < lines.stop and lines.start <= it.last
                for it, of in near
                for lines in of
            )
            number = hashlib.sha256(drawn + edits.label(edit).encode()).digest()
            ranks[edit] = (0 if is_changed else 1 if near else 2), number
        wanted = [it for it in paths if not is_changed_alone or ranks[it][0] == 0]
        for together in edits.rounds_of(
            sorted(wanted, key=ranks.__getitem__), f"{top}/crates/{crate}"
        ):
            found.append((min(ranks[it] for it in together), crate, together))
    return [(crate, together) for _, crate, together in sorted(found)]
