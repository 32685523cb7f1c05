"""The command `nazhuvem`: a server, an exploration, and a script, without a test."""

from __future__ import annotations

import argparse
import importlib.util
import os
import signal
import subprocess
import sys
import tempfile
import time
from pathlib import Path
from types import FrameType, ModuleType
from typing import Any, Optional, Sequence

from nazhuvem.definitions import TypesFile, tool
from nazhuvem.errors import NazhuvemError, ScenarioError
from nazhuvem.exploring import WORD, explore, seed_of
from nazhuvem.programs import environment, find
from nazhuvem.server import Server

__tracebackhide__ = True

_MARK = "# Written by `nazhuvem serve`.\n"
_KUBECONFIG = """\
apiVersion: v1
kind: Config
clusters:
- name: nazhuvem
  cluster:
    server: {url}
users:
- name: nazhuvem
  user: {{}}
contexts:
- name: nazhuvem
  context:
    cluster: nazhuvem
    user: nazhuvem
    namespace: default
current-context: nazhuvem
"""
_TYPES = "a types file, CustomResourceDefinitions, or a folder of them"


def write_kubeconfig(path: str, url: str) -> None:
    """Writes a kubeconfig of a server; a file that has another isn't overwritten."""
    file = Path(path)
    if file.exists() and not file.read_text(encoding="utf-8").startswith(_MARK):
        raise NazhuvemError(f"{path} is there already: name another file")
    file.write_text(_MARK + _KUBECONFIG.format(url=url), encoding="utf-8")


def _serve(asked: argparse.Namespace, command: Sequence[str]) -> int:
    """Serves until a signal comes, or until a command has ended."""
    types = asked.types[0] if len(asked.types) == 1 else asked.types
    names = ", ".join(TypesFile(types).names)
    options = {"keep": asked.keep, "objects": asked.objects, "record": asked.record}
    options["disturb"] = asked.disturb
    with tempfile.TemporaryDirectory(prefix="nazhuvem-") as folder, Server(
        types, port=asked.port, log=False, **options
    ) as server:
        path = asked.kubeconfig or (f"{folder}/kubeconfig" if command else "")
        how = f"kubectl --server {server.url} get {names.partition(',')[0]}"
        if path:
            write_kubeconfig(path, server.url)
            how = f"export KUBECONFIG={os.path.abspath(path)}"
        # Behind the command it stands apart from what that prints.
        out = sys.stderr if command else sys.stdout
        print(f"serving {names} at {server.url}: {how}", file=out, flush=True)
        if not command:
            return server.wait()
        return _run(command, {"KUBECONFIG": os.path.abspath(path)})


def _run(command: Sequence[str], variables: dict[str, str]) -> int:
    """The status of a command with these variables."""
    try:
        with subprocess.Popen(command, env={**os.environ, **variables}) as process:
            status = _status_of(process)
    except OSError as error:
        raise NazhuvemError(f"{command[0]}: {error.strerror}") from None
    return status if status >= 0 else 128 - status


def _status_of(process: subprocess.Popen[bytes]) -> int:
    """How a command ends, which a signal reaches, too."""
    while True:
        try:
            return process.wait()
        except KeyboardInterrupt:
            continue
        except SystemExit:
            process.terminate()


def _module_of(path: str) -> ModuleType:
    """The module of a test file."""
    found = importlib.util.spec_from_file_location(Path(path).stem, path)
    if not os.path.isfile(path) or not found or not found.loader:
        raise ScenarioError(f"{path}: no file of Python")
    sys.path.insert(0, os.path.dirname(os.path.abspath(path)))
    module = importlib.util.module_from_spec(found)
    sys.modules[found.name] = module
    found.loader.exec_module(module)
    return module


def _explore(asked: argparse.Namespace) -> int:
    """Explores the scenario of a test file."""
    module = _module_of(asked.file)
    scenario = getattr(module, asked.scenario, None)
    if not callable(scenario):
        raise ScenarioError(f"{asked.file} has no function {asked.scenario}(hub)")
    types: Any = asked.types or getattr(module, "TYPES", None)
    if types is None:
        raise ScenarioError(f"which types? --types PATH, or TYPES in {asked.file}")
    if asked.schedule:
        os.environ[WORD] = asked.schedule
    began = time.monotonic()
    options = {"kinds": asked.kinds} if asked.kinds else {}
    seed = seed_of(asked.seed)
    try:
        count = explore(scenario, types, budget=asked.budget, seed=seed, **options)
    except AssertionError as failed:
        print(failed)
        return 1
    said = "schedule passes" if count == 1 else "schedules pass"
    by = "" if asked.budget is None else f", by seed {seed}"
    print(f"{count} {said}, in {time.monotonic() - began:.1f} s{by}")
    return 0


def _replay(asked: argparse.Namespace) -> int:
    """Plays a script by `ssa-replay`."""
    beside = f"{os.path.splitext(asked.script)[0]}.types.json"
    types = asked.types or (beside if os.path.exists(beside) else None)
    if types is None:
        raise NazhuvemError(f"which types? --types PATH, for there is no {beside}")
    file = TypesFile(types)
    one = file.first()
    words = [find("ssa-replay"), "--discovery", "--types", file.path]
    if one:
        words += ["--type", f"{one['group']}/{one['version']}/{one['plural']}"]
    return _run([*words, "--script", asked.script], environment())


def _arguments() -> argparse.ArgumentParser:
    parser = argparse.ArgumentParser(
        prog="nazhuvem", description="An object API server for tests of controllers."
    )
    commands = parser.add_subparsers(dest="command", required=True, metavar="COMMAND")
    serve = commands.add_parser(
        "serve", help="start a server, and run a command behind -- over it"
    )
    serve.add_argument("types", nargs="+", metavar="TYPES", help=_TYPES)
    serve.add_argument("--port", type=int, default=0, help="0 is a free one")
    serve.add_argument("--kubeconfig", metavar="FILE", help="write a kubeconfig")
    serve.add_argument("--keep", type=int, help="how many versions are kept")
    serve.add_argument(
        "--disturb", metavar="SEED[:KINDS]", help="disturb watches by a seed"
    )
    serve.add_argument("--objects", metavar="FILE", help="the objects to begin with")
    serve.add_argument(
        "--record", metavar="FILE", help="write a script of what happens"
    )
    test = commands.add_parser("explore", help="explore the scenario of a test file")
    test.add_argument("file", metavar="TEST_FILE")
    test.add_argument("--types", help=f"{_TYPES}; the file's TYPES without it")
    test.add_argument("--scenario", default="scenario", help="the function's name")
    test.add_argument("--kinds", nargs="+", help="kinds of disturbances: deletions ..")
    test.add_argument("--budget", type=float, help="go on for so many seconds")
    test.add_argument("--seed", type=int, help="the seed of their order; 1 without it")
    test.add_argument("--schedule", metavar="WORD", help="play this one alone")
    replay = commands.add_parser("replay", help="play a script by ssa-replay")
    replay.add_argument("script", metavar="SCRIPT")
    replay.add_argument("--types", help=f"{_TYPES}; those beside the script without it")
    commands.add_parser("crd", help="print a types file of definitions", add_help=False)
    return parser


def _ends(_: int, __: Optional[FrameType]) -> None:
    sys.exit(0)


def main(words: Optional[Sequence[str]] = None) -> int:
    """Does what the command line asks for. Returns the exit status."""
    given = list(sys.argv[1:] if words is None else words)
    at = given.index("--") if "--" in given else len(given)
    given, behind = given[:at], given[at + 1 :]
    signal.signal(signal.SIGTERM, _ends)
    try:
        if given[:1] == ["crd"]:
            return int(tool("command").main(given[1:], "nazhuvem crd"))
        asked = _arguments().parse_args(given)
        if asked.command == "serve":
            return _serve(asked, behind)
        return _explore(asked) if asked.command == "explore" else _replay(asked)
    except NazhuvemError as error:
        print(f"nazhuvem: {error}", file=sys.stderr)
        return 1
    except BrokenPipeError:
        os.dup2(os.open(os.devnull, os.O_WRONLY), sys.stdout.fileno())
        return 1
    except KeyboardInterrupt:
        return 130
