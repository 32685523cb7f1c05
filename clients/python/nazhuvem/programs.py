"""Where the programs of Nazhuvem are found, and how one is started."""

from __future__ import annotations

import os
import shutil
import subprocess
from functools import lru_cache
from pathlib import Path
from typing import Mapping, Optional, Sequence

from nazhuvem.errors import ProgramNotFoundError

__tracebackhide__ = True

_PACKAGE = Path(__file__).resolve().parent


def _is_program(path: Path) -> bool:
    return path.is_file() and os.access(path, os.X_OK)


def _of_repository(top: Path, name: str) -> Optional[Path]:
    """The program that was built at the top of a repository, or the released one.

    A server that is neither is compiled for one run; other programs would print
    only once they have ended.
    """
    file = name.replace("-", "_")
    crate = "ssa_replay" if name == "ssa-pipe" else file
    built = top / "crates" / crate / "out" / crate
    called = built.with_name(file)
    if _is_program(built):
        # (what starts it at the top calls it by its name)
        is_linked = called.is_file() and called.samefile(built)
        return called if is_linked else top / name
    if (top / "MANIFEST").is_file() and _is_program(top / name):
        return top / name
    released = top / "tools" / "released.py"
    if _is_program(released) and (top / "release").is_dir():
        done = subprocess.run([str(released), name], stdout=subprocess.PIPE, text=True)
        if done.returncode == 0:
            return Path(done.stdout.strip())
    return top / name if name == "ssa-server" and _is_program(top / name) else None


@lru_cache(maxsize=None)
def _found(name: str, folder: str) -> Optional[str]:
    for path in (Path(folder) / name, _PACKAGE / "bin" / name):
        if path.is_absolute() and _is_program(path):
            return str(path)
    if len(_PACKAGE.parents) > 2:
        if path_of := _of_repository(_PACKAGE.parents[2], name):
            return str(path_of)
    return shutil.which(name)


def find(name: str) -> str:
    """The path of a program, `ssa-pipe` or `ssa-server` say.

    Looked for in the folder that `NAZHUVEM_BIN` names; without it in the package's
    own `bin/`, at the top of the repository or of the release that the package stands
    in, and in `PATH`, in this order.
    """
    folder = os.environ.get("NAZHUVEM_BIN")
    if folder and not _is_program(Path(folder) / name):
        raise ProgramNotFoundError(f"NAZHUVEM_BIN is {folder}, which has no {name}")
    if found := _found(name, os.path.abspath(folder) if folder else ""):
        return found
    raise ProgramNotFoundError(
        f"{name} is neither in {_PACKAGE / 'bin'}, where a wheel has it, nor in PATH: "
        "install the wheel, or set NAZHUVEM_BIN to the folder of the programs (in a "
        "clone `tools/released.py --all` prints one)"
    )


@lru_cache(maxsize=None)
def itself(path: str) -> str:
    """The program that a script of this path starts in a release, else the path: a hub
    is sooner there without the script."""
    beside = Path(path).parent / "programs" / Path(path).name
    return str(beside) if _is_program(beside) else path


def environment() -> dict[str, str]:
    """The environment of a program: the C library keeps the small pieces of
    memory that objects free."""
    tunables = "glibc.malloc.tcache_count=2000"
    return {"GLIBC_TUNABLES": tunables, **os.environ}


def words_of(options: Sequence[str], named: Mapping[str, object]) -> list[str]:
    """The words of a command line: those given, and named options that they don't
    have."""
    words = list(options)
    for name, value in named.items():
        if value is not None and value is not False and f"--{name}" not in options:
            words += [f"--{name}"] if value is True else [f"--{name}", _word(value)]
    return words


def _word(value: object) -> str:
    return str(os.fspath(value) if isinstance(value, os.PathLike) else value)
