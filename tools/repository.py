"""What the tools share: the repository, its crates, copies of its files, and the kit's `rt` as a module."""

from __future__ import annotations

import contextlib
import importlib.machinery
import os
import re
import shutil
import subprocess
import sys
from collections.abc import Iterable, Iterator
from types import ModuleType
from typing import NoReturn

TOP = os.path.dirname(os.path.dirname(os.path.realpath(__file__)))


def stop(why: str) -> NoReturn:
    """Ends the program and says why."""
    sys.exit(f"{os.path.basename(sys.argv[0])}: {why}")


def crates(top: str = TOP) -> dict[str, list[str]]:
    """The crates of crates.txt, lowest first, each with the ones of this repository that its line names."""
    near: dict[str, list[str]] = {}
    with open(f"{top}/crates.txt", encoding="utf-8") as lines:
        for line in lines:
            name, colon, words = line.partition("#")[0].partition(":")
            if colon:
                near[name.split()[0]] = [word for word in words.split() if word in near]
    return near


def below(name: str, near: dict[str, list[str]]) -> set[str]:
    """All crates of this repository that a crate stands on."""
    return {it for word in near[name] for it in (word, *below(word, near))}


def is_program(name: str, top: str = TOP) -> bool:
    """Whether the crate is a program."""
    return os.path.isfile(f"{top}/crates/{name}/src/main.rt")


def has_tests(name: str, top: str = TOP) -> bool:
    """Whether a source of the crate has a test."""
    for folder, _, files in os.walk(f"{top}/crates/{name}/src"):
        for file in files:
            with open(f"{folder}/{file}", encoding="utf-8") as it:
                if re.search(r"#\s*\[[^]]*\btest\b", it.read()):
                    return True
    return False


@contextlib.contextmanager
def started(command: list[str], where: str = TOP) -> Iterator[subprocess.Popen[str]]:
    """A command that runs; all that it says comes on its standard output. It is killed where what reads that ends early."""
    with subprocess.Popen(
        command,
        cwd=where,
        stdin=subprocess.DEVNULL,
        stdout=subprocess.PIPE,
        stderr=subprocess.STDOUT,
        text=True,
        errors="replace",
    ) as it:
        try:
            yield it
        except BaseException:
            it.kill()
            raise


def git(*words: str) -> str | None:
    """What a command of git prints here, or None where it fails."""
    try:
        ran = subprocess.run(["git", *words], cwd=TOP, capture_output=True, check=False)
    except OSError:
        return None
    return ran.stdout.decode(errors="replace") if ran.returncode == 0 else None


def walked() -> Iterator[str]:
    """The files of the working folder, but for what was built and what git keeps for itself."""
    for at, folders, names in os.walk(TOP):
        folders[:] = [it for it in folders if it not in ("out", ".git")]
        yield from (os.path.relpath(f"{at}/{name}", TOP) for name in names)


def files() -> list[str]:
    """The files of the working folder, but for those that git ignores, or, where git lists none, for what was built."""
    listed = git("ls-files", "-z", "--cached", "--others", "--exclude-standard")
    paths = listed.split("\0") if listed else walked()
    found = sorted({path for path in paths if path})
    return [path for path in found if os.path.lexists(f"{TOP}/{path}")]


def copy(to: str, paths: Iterable[str]) -> None:
    """Copies files of the repository to the same places below a folder; links stay links."""
    for path in paths:
        os.makedirs(os.path.dirname(f"{to}/{path}"), exist_ok=True)
        shutil.copy2(f"{TOP}/{path}", f"{to}/{path}", follow_symlinks=False)


def program(name: str) -> str:
    """The path of a program."""
    return shutil.which(name) or stop(
        f"there is no {name}: put the kit's folder bin on the PATH"
    )


def kit() -> ModuleType:
    """The program `rt` as a module: with its functions the gate and these tools try edits."""
    path = os.path.realpath(program("rt"))
    sys.path.insert(0, os.path.dirname(path))
    words, sys.argv = sys.argv, ["rt"]
    loader = importlib.machinery.SourceFileLoader("rt", path)
    rt = ModuleType("rt")
    rt.__file__ = path
    loader.exec_module(rt)
    sys.argv = words
    os.environ.pop(rt.rtlib.ALLOW_C, None)
    rt.rtlib.Crate = rt.Crate
    rt.rtlib.guarded()
    return rt
