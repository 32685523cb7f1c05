"""What passed and what failed, and the last line that counts it."""

from __future__ import annotations

import re
import subprocess
import sys
import threading

import repository

LAST_LINE = re.compile(r"(\d+) passed, (\d+) failed")


class Results:
    """What passed and what failed."""

    def __init__(self) -> None:
        self._passed = 0
        self._failed: list[str] = []
        self._lock = threading.Lock()
        self._running: set[subprocess.Popen[str]] = set()

    def counted_in_all(self) -> int:
        """How many there are."""
        with self._lock:
            return self._passed + len(self._failed)

    def passed(self, count: int = 1) -> None:
        """Counts what passed."""
        with self._lock:
            self._passed += count

    def failed(self, name: str, why: str) -> None:
        """Counts and tells what failed."""
        with self._lock:
            self._failed.append(name)
            print(f"FAILED: {name}: {why}", flush=True)

    def told(self, name: str, is_well: bool, text: str) -> None:
        """Counts something, and tells what is to be said of it."""
        if not is_well:
            self.failed(name, text)
            return
        with self._lock:
            self._passed += 1
            print(f"{name}: {text}", flush=True)

    def counted(self, name: str, last: str, status: int, failed: list[str]) -> None:
        """Counts what a command counted in its last line; a status or a line that says that it failed is a failure."""
        found = LAST_LINE.fullmatch(last)
        if found:
            self.passed(int(found[1]))
        count = max(int(found[2]) if found else 0, len(failed))
        for it in (failed + [name] * count)[:count]:
            self.failed(it, f"see what {name} says above")
        if not count and (status != 0 or not found):
            ended = (
                f"status {status}"
                if found
                else f"status {status}, and no line that counts what passed"
            )
            self.failed(name, f"it ended with {ended}")

    def run(
        self,
        name: str,
        command: list[str],
        where: str = repository.TOP,
        is_beside: bool = False,
    ) -> None:
        """Runs a command and tells what it says, at its end where others run beside it. It counts as its last line does, or by its status as one."""
        said, kept = "", ""
        try:
            with repository.started(command, where) as started:
                self._running.add(started)
                for line in started.stdout or ():
                    said = line.strip() or said
                    if LAST_LINE.fullmatch(said):
                        continue
                    if is_beside:
                        kept += line
                    else:
                        print(line, end="", flush=True)
                print(kept, end="", flush=True)
            self._running.discard(started)
        except OSError as error:
            self.failed(name, f"{command[0]} doesn't start: {error}")
            return
        if LAST_LINE.fullmatch(said):
            self.counted(name, said, started.returncode, [])
        elif started.returncode == 0:
            self.passed()
        else:
            self.failed(name, f"status {started.returncode}")

    def kill(self) -> None:
        """Kills the commands that run beside."""
        for it in list(self._running):
            it.kill()

    def close(self) -> int:
        """Says what failed and how much passed, and returns the status."""
        with self._lock:
            if self._failed:
                print(f"FAILED: {', '.join(self._failed)}")
            print(f"{self._passed} passed, {len(self._failed)} failed", flush=True)
            sys.stderr.flush()
            return int(bool(self._failed))
