"""The programs that rows are played over, and what a run of one came to."""

from __future__ import annotations

import os
import subprocess
import sys
from collections.abc import Sequence
from typing import NamedTuple

TOP = os.path.dirname(os.path.dirname(os.path.realpath(__file__)))
# After so many seconds a run has ended.
SECONDS = 120


class Ran(NamedTuple):
    """How a program ended, and what it printed."""

    status: int
    out: bytes
    err: bytes


class Programs:
    """The programs in a folder, as a release names them, or, with no folder, those that were built here or released."""

    def __init__(self, folder: str = "") -> None:
        self.folder = os.path.abspath(folder) if folder else ""

    def path(self, name: str) -> str:
        """The path of a program, as `ssa-pipe`."""
        if self.folder:
            return f"{self.folder}/{name}"
        file = name.replace("-", "_")
        # (the gate links it beside the program that it is)
        crate = "ssa_replay" if name == "ssa-pipe" else file
        built = f"{TOP}/crates/{crate}/out/{file}"
        if os.path.isfile(built):
            return built
        found = subprocess.run(
            [sys.executable, f"{TOP}/tools/released.py", name],
            capture_output=True,
            text=True,
            check=True,
        )
        return found.stdout.strip()

    def run(
        self, name: str, words: Sequence[str], given: bytes = b"", where: str = "."
    ) -> Ran:
        """Runs a program to its end, in a folder."""
        ran = subprocess.run(
            [self.path(name), *words],
            input=given,
            cwd=where,
            capture_output=True,
            timeout=SECONDS,
            check=False,
        )
        return Ran(ran.returncode, ran.stdout, ran.stderr)
