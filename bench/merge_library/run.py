#!/usr/bin/env python3
"""Plays the same scripts of applies by the merge library of Kubernetes and by ssa-replay, in turn, and prints how many applies
each makes a second: the first table of docs/PERFORMANCE.md.

    bench/merge_library/run.py [PROGRAM]     (default: crates/ssa_replay/out/ssa_replay; `rt run` in crates/ssa_replay builds it)

The library is structured-merge-diff as Debian packages it: `apt-get install golang-go golang-k8s-sigs-structured-merge-diff-dev`.
It keeps its objects in memory and reads and prints JSON; ssa-replay besides starts, reads its types file, and has its HTTP and
its store. Both use one processor; of each the fastest of three runs counts.
"""
import json
import os
import shutil
import subprocess
import sys
import tempfile
import time

HERE = os.path.dirname(os.path.realpath(__file__))
TOP = os.path.dirname(os.path.dirname(HERE))
RUNS = 3
TEXT, WHOLE = {"type": "string"}, {"type": "integer"}
SPEC = {
    "config": {"type": "object", "additionalProperties": TEXT},
    "ports": {"type": "array", "x-kubernetes-list-type": "map", "x-kubernetes-list-map-keys": ["name"],
              "items": {"type": "object", "properties": {"name": TEXT, "note": TEXT, "port": WHOLE}}},
    "replicas": WHOLE,
    "tags": {"type": "array", "x-kubernetes-list-type": "set", "items": TEXT},
}
TYPES = {"types": [{"group": "demo.example", "version": "v1", "kind": "Widget", "plural": "widgets", "schema": {
    "type": "object", "properties": {"spec": {"type": "object", "properties": SPEC}}}}]}

# what a row says, its field, its parts, how many lines, and how they differ
ROWS = [
    ("10 map entries", "config", 10, 4000, "changed"),
    ("100", "config", 100, 800, "changed"),
    ("1,000", "config", 1000, 80, "changed"),
    ("10 items of a list by key fields", "ports", 10, 1500, "changed"),
    ("100", "ports", 100, 150, "changed"),
    ("1,000", "ports", 1000, 15, "changed"),
    ("100 items of a set", "tags", 100, 400, "changed"),
    ("100 items by key fields, two managers", "ports", 100, 150, "two"),
    ("10 map entries, the same apply again", "config", 10, 4000, "same"),
    ("10 map entries, each line a new object", "config", 10, 4000, "new"),
]


def parts(field, numbers):
    if field == "config":
        return {f"key-{n:05d}": "v" for n in numbers}
    return [{"name": f"p{n:05d}", "note": "x", "port": n} if field == "ports" else f"tag-{n:05d}" for n in numbers]


def line(name, manager, field, numbers, replicas=None):
    spec = {field: parts(field, numbers)} | ({} if replicas is None else {"replicas": replicas})
    body = {"apiVersion": "demo.example/v1", "kind": "Widget", "metadata": {"name": name}, "spec": spec}
    target = f"/apis/demo.example/v1/namespaces/default/widgets/{name}"
    return json.dumps({"apply": {"body": body, "force": False, "manager": manager, "target": target}}, separators=(",", ":"))


def script(field, count, lines, how):
    """The lines: one number changes, or nothing does, or each has an object of its own; of two managers bob changes his half."""
    whole = range(count)
    if how == "two":
        first = line("w1", "alice", field, range(count // 2))
        return [first] + [line("w1", "bob", field, range(count // 2, count), turn) for turn in range(lines)]
    return [line(f"w{turn:06d}" if how == "new" else "w1", "alice", field, whole, turn if how == "changed" else 1) for turn in range(lines)]


def build(folder):
    """The library's program, built from Debian's packages alone: in a GOPATH, where a go.mod beside the source lets the path of
    an import name the library's major version."""
    source, program = os.path.join(folder, "src", "merge_library"), os.path.join(folder, "merge_library")
    os.makedirs(source)
    shutil.copy(os.path.join(HERE, "main.go"), source)
    with open(os.path.join(source, "go.mod"), "w", encoding="utf-8") as out:
        out.write("module merge_library\n")
    names = {**os.environ, "GO111MODULE": "off", "CGO_ENABLED": "0", "GOFLAGS": "", "GOPATH": f"{folder}:/usr/share/gocode",
             "GOCACHE": os.path.join(folder, "cache")}
    subprocess.run(["go", "build", "-o", program, "."], cwd=source, env=names, check=True)
    return program


def by_library(program, path):
    names = {**os.environ, "GOMAXPROCS": "1"}
    return float(subprocess.run([program, path], env=names, stdout=subprocess.PIPE, text=True, check=True).stdout)


def by_replay(program, types, path, lines):
    start = time.monotonic()
    subprocess.run([program, "--types", types, "--script", path], stdout=subprocess.DEVNULL, check=True)
    return lines / (time.monotonic() - start)


def main(words):
    replay = os.path.realpath(words[0]) if words else f"{TOP}/crates/ssa_replay/out/ssa_replay"
    if not os.access(replay, os.X_OK):
        sys.exit(f"run: {replay} isn't built: run `rt run` in crates/ssa_replay")
    os.environ.setdefault("GLIBC_TUNABLES", "glibc.malloc.tcache_count=2000")  # as the script ssa-replay does
    with tempfile.TemporaryDirectory() as folder:
        library = build(folder)
        types, path = os.path.join(folder, "types.json"), os.path.join(folder, "script.jsonl")
        with open(types, "w", encoding="utf-8") as out:
            json.dump(TYPES, out)
        print("| script | library | `ssa-replay` | times |\n|---|---|---|---|", flush=True)
        for what, field, count, lines, how in ROWS:
            text = script(field, count, lines, how)
            with open(path, "w", encoding="utf-8") as out:
                out.write("\n".join(text) + "\n")
            theirs = max(by_library(library, path) for _ in range(RUNS))
            ours = max(by_replay(replay, types, path, len(text)) for _ in range(RUNS))
            print(f"| {what} | {theirs:,.0f} | {ours:,.0f} | {ours / theirs:.1f} |", flush=True)


if __name__ == "__main__":
    if set(sys.argv[1:]) & {"-h", "--help"}:
        sys.exit(__doc__)
    main(sys.argv[1:])
