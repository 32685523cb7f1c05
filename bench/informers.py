#!/usr/bin/env python3
"""Has client-go's informers, unmodified, follow a server that disturbs watches while 20,000 writes come, and fails where one
doesn't hold the server's objects in the end, or where the record isn't played as it was.

    bench/informers.py [--server PROGRAM] [--replay PROGRAM] [--disturb SEED[:KINDS]]..
                       [--informers N] [--writes N] [--rate N]

GOPATH has client-go, as examples/go.md says; Go fetches nothing, and its first build takes some minutes. PROGRAM is
crates/NAME/out/NAME where none is named. So many writes a second are asked for (--rate), one after another, in turn
undisturbed and by each seed (default: 1). client-go waits by itself for 0.8 seconds and more before it lists again, after
a watch that was cut before its first line: what it is behind after the last write is that waiting, mostly.
"""

from __future__ import annotations

import argparse
import collections
import json
import os
import re
import subprocess
import sys
import tempfile
import urllib.request

HERE = os.path.dirname(os.path.realpath(__file__))
TOP = os.path.dirname(HERE)
sys.path.append(f"{TOP}/tools")

from running import Server, has_client_go  # noqa: E402

TYPES = f"{TOP}/examples/widgets.json"
WIDGETS = "/apis/demo.example/v1/namespaces/default/widgets"
CALL = re.compile(
    r"\S+ \d+ (?:GET|-) (\S*widgets\?\S*|-) (?:(\d\d\d) .*|disturbed: (.*))\n"
)
COLUMNS = (
    "`--disturb`",
    "cut",
    "held back",
    "expired",
    "watches",
    "lists",
    "410",
    "writes a second",
    "behind, seconds",
    "told an informer",
)


def built(name: str) -> str:
    """Where a program stands that was built here."""
    return f"{TOP}/crates/{name}/out/{name}"


def build(folder: str) -> str:
    """The program of Go."""
    program = f"{folder}/informers"
    its = {"GO111MODULE": "off", "GOFLAGS": "", "CGO_ENABLED": "0"}
    command = ["go", "build", "-o", program, "."]
    where = f"{HERE}/informers"
    subprocess.run(command, cwd=where, env={**os.environ, **its}, check=True)
    return program


def counted(log: str) -> collections.Counter[str]:
    """How often watches were disturbed, by kind, and what was asked of the informers' path, by a server's log."""
    found: collections.Counter[str] = collections.Counter()
    with open(log, encoding="utf-8") as lines:
        for line in lines:
            if its := CALL.fullmatch(line):
                target, status, how = its.groups()
                what = "watches" if "watch=true" in target else "lists"
                found[how or ("410" if status == "410" else what)] += 1
    return found


def is_replayed(replay: str, script: str, listed: bytes, folder: str) -> bool:
    """Whether the record, played again, ends well and has this list."""
    with open(script, "rb+") as record:
        # (a server that is killed may leave half a line)
        text = record.read()
        record.truncate(text.rfind(b"\n") + 1)
    with open(f"{folder}/played", "wb+") as out:
        words = [replay, "--types", TYPES, "--script", script]
        ran = subprocess.run(words, stdout=out, check=False)
        out.seek(0)
        return ran.returncode == 0 and listed in out.read()


def followed(given: argparse.Namespace, program: str, disturb: str) -> list[str]:
    """The cells of a run."""
    with tempfile.TemporaryDirectory() as folder:
        script, log = f"{folder}/script", f"{folder}/log"
        seed = ("--disturb", disturb) if disturb else ()
        options = ("--log", "--record", script, *seed)
        with open(log, "wb") as errors:
            with Server(given.server, TYPES, errors.fileno(), options) as server:
                counts = [given.informers, given.writes, given.rate]
                words = [program, server.base, *map(str, counts)]
                ran = subprocess.run(words, stdout=subprocess.PIPE, check=False)
                if ran.returncode:
                    sys.exit(
                        f"informers.py: by the seed {disturb}, status {ran.returncode}"
                    )
                with urllib.request.urlopen(server.base + WIDGETS) as reply:
                    listed = reply.read()
        its, found = json.loads(ran.stdout), counted(log)
        if not is_replayed(given.replay, script, listed, folder):
            sys.exit(
                f"informers.py: by the seed {disturb} the record isn't played as it was"
            )
    behind = [f"{it:.2f}" for it in sorted(its["behind"])]
    told = sorted(sum(it.values()) for it in its["told"])
    return [
        disturb or "none",
        *(f"{found[it]:,}" for it in COLUMNS[1:7]),
        f"{given.writes / its['seconds']:,.0f}",
        f"{behind[0]} to {behind[-1]}",
        f"{told[0]:,} to {told[-1]:,}",
    ]


def main() -> None:
    """Builds the program, and prints a row for each run."""
    how = argparse.RawDescriptionHelpFormatter
    parser = argparse.ArgumentParser(description=__doc__, formatter_class=how)
    parser.add_argument("--server", default=built("ssa_server"))
    parser.add_argument("--replay", default=built("ssa_replay"))
    parser.add_argument("--disturb", action="append", metavar="SEED[:KINDS]")
    parser.add_argument("--informers", type=int, default=5)
    parser.add_argument("--writes", type=int, default=20_000)
    parser.add_argument("--rate", type=int, default=200)
    given = parser.parse_args()
    if not has_client_go(os.environ.get("GOPATH", "")):
        sys.exit(
            "informers.py: GOPATH has no client-go: examples/go.md says how to make one"
        )
    with tempfile.TemporaryDirectory() as folder:
        program = build(folder)
        print("| " + " | ".join(COLUMNS) + " |\n" + "|---" * len(COLUMNS) + "|")
        for disturb in ("", *(given.disturb or ["1"])):
            print(
                "| " + " | ".join(followed(given, program, disturb)) + " |", flush=True
            )


if __name__ == "__main__":
    main()
