#!/usr/bin/env python3
"""Runs the tests of the packages in clients/ and their examples, over the programs that the packages find (NAZHUVEM_BIN names
another folder); part of the gate.

    tools/clients_test.py

What needs something that isn't installed is told as skipped: Go (Debian's `golang-go`) and its checker (`go-staticcheck`), the packages `kubernetes` and `pytest`
(Debian's `python3-kubernetes` and `python3-pytest`), `mypy`, `black`, `pyflakes`, and client-go, which is taken from the GOPATH that CLIENT_GO names (examples/go.md says how to make one).
The last line counts what passed and what failed; the status is 1 where something fails.
"""
from __future__ import annotations

import concurrent.futures
import glob
import os
import shutil
import subprocess
import sys
import tempfile
import time
from collections.abc import Iterator

from running import TOP, begun, has_client_go

PYTHON = f"{TOP}/clients/python"
GO = f"{TOP}/clients/go"
# Tests that need a package of others.
OF_OTHERS = {"test_kubernetes": "kubernetes", "test_pytest": "pytest"}
# What checks the package's types, form and names, with words.
CHECKERS = {"mypy": ("--cache-dir", os.devnull), "black": ("--check", "-q"), "pyflakes": ()}
# What a step may take; the first build of client-go takes some minutes.
SECONDS = 900


class Step:
    """A command with its folder and what is set for it, or why it is skipped."""

    def __init__(self, name: str, folder: str, *command: str, skipped: str = "", **variables: str) -> None:
        self.name = name
        self.folder = folder
        self.command = command
        self.skipped = skipped
        self.variables = variables

    def run(self) -> bool:
        """Runs it, and tells whether it passed; what it printed is shown where it didn't."""
        began = time.monotonic()
        with begun(["timeout", str(SECONDS), *self.command], self.folder, self.variables) as started:
            output = started.communicate()[0]
        passed = started.returncode == 0
        said = "" if passed else output
        print(f"{said}{'passed' if passed else 'FAILED'}: {self.name}, {time.monotonic() - began:.1f} s\n", end="", flush=True)
        return passed


def python_with(package: str) -> str:
    """A Python that has this package: this one, or Debian's; empty where there is none."""
    pythons = (it for it in (sys.executable, "/usr/bin/python3") if os.access(it, os.X_OK))
    return next((it for it in pythons if not subprocess.run([it, "-c", f"import {package}"], stderr=subprocess.DEVNULL).returncode), "")


def python_steps() -> Iterator[Step]:
    for path in sorted(glob.glob(f"{PYTHON}/tests/test_*.py")):
        name = os.path.basename(path).removesuffix(".py")
        package = OF_OTHERS.get(name, "")
        python = python_with(package) if package else sys.executable
        strictly = () if name == "test_kubernetes" else ("-W", "error::ResourceWarning")
        yield Step(f"clients/python, {name}", PYTHON, python or sys.executable, *strictly, "-m", "unittest", "-q", f"tests.{name}",
                   skipped="" if python else f"python3-{package} isn't installed")
    for name, words in CHECKERS.items():
        python = python_with(name)
        yield Step(f"clients/python, {name}", PYTHON, python or sys.executable, "-m", name, *words, "nazhuvem", "tests",
                   skipped="" if python else f"{name} isn't installed")
    for name in ("first_test.py", "reconcile.py", "lease.py"):
        yield Step(f"examples/{name}", f"{TOP}/examples", sys.executable, name, PYTHONPATH=PYTHON)


def go_steps(room: str) -> Iterator[Step]:
    missing = "" if shutil.which("go") and shutil.which("gofmt") else "golang-go isn't installed"
    first = f"{TOP}/examples/ten_minutes/go"
    sources = [os.path.join(folder, name) for folder in (GO, f"{TOP}/examples/reconcile_go", first, f"{first}/testdata")
               for name in sorted(os.listdir(folder)) if name.endswith(".go")]
    yield Step("the form of the Go sources", TOP, "sh", "-c", 'test -z "$(gofmt -l "$@" | tee /dev/stderr)"', "sh", *sources, skipped=missing)
    yield Step("clients/go, vet", GO, "go", "vet", ".", skipped=missing)
    no_check = missing or ("" if shutil.which("go-staticcheck") else "go-staticcheck isn't installed")
    yield Step("clients/go, staticcheck", GO, "go-staticcheck", "./...", skipped=no_check)
    yield Step("clients/go", GO, "go", "test", "-count=1", ".", skipped=missing)
    yield Step("examples/ten_minutes/go, vet", first, "go", "vet", ".", skipped=missing)
    client_go = os.environ.get("CLIENT_GO", "")
    if not missing and not has_client_go(client_go):
        missing = "CLIENT_GO names no GOPATH with client-go"
    os.makedirs(f"{room}/src/nazhuvem.example")
    os.symlink(GO, f"{room}/src/nazhuvem.example/nazhuvem")
    yield Step("examples/reconcile_go", f"{TOP}/examples/reconcile_go", "go", "test", "-count=1", ".", skipped=missing,
               GO111MODULE="off", CGO_ENABLED="0", GOPATH=f"{client_go}:{room}")


def main() -> int:
    processors = len(os.sched_getaffinity(0))
    with tempfile.TemporaryDirectory() as room, concurrent.futures.ThreadPoolExecutor(processors) as pool:
        steps = [*python_steps(), *go_steps(room)]
        for step in steps:
            if step.skipped:
                print(f"skipped: {step.name}: {step.skipped}", flush=True)
        ended = list(pool.map(Step.run, [step for step in steps if not step.skipped]))
    print(f"clients: {len(steps) - len(ended)} skipped")
    print(f"{ended.count(True)} passed, {ended.count(False)} failed")
    return int(False in ended)


if __name__ == "__main__":
    if len(sys.argv) > 1:
        sys.exit(__doc__)
    sys.exit(main())
