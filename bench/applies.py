#!/usr/bin/env python3
"""Times applies through the built program ssa_replay, text in and text out.

Usage: bench/applies.py [PROGRAM]   (default: crates/ssa_replay/out/ssa_replay; build it first by `rt run` in crates/ssa_replay)

For objects of 10, 100 and 1,000 map entries it writes scripts of apply lines, runs the program over them, each line a
request to its hub, and prints the processor time of one apply (one core), its growth from size to size, applies a second
and the peak memory of the run. Each line applies the whole object with one value changed, so each makes a new version. The
time of a run over one line is taken off.
"""
import json
import os
import subprocess
import sys
import tempfile

TYPES = {"types": [{"group": "demo.example", "version": "v1", "kind": "Widget", "plural": "widgets", "schema": {
    "type": "object", "properties": {"spec": {"type": "object", "properties": {
        "config": {"type": "object", "additionalProperties": {"type": "string"}},
        "image": {"type": "string"}, "replicas": {"type": "integer"}}}}}}]}
TARGET = "/apis/demo.example/v1/namespaces/default/widgets/w1"


def line(size, turn):
    config = {f"key-{n:05d}": f"value-{n}" for n in range(size)}
    config[f"key-{turn % size:05d}"] = f"changed-{turn}"
    body = {"apiVersion": "demo.example/v1", "kind": "Widget", "metadata": {"name": "w1"}, "spec": {"config": config}}
    return json.dumps({"apply": {"body": body, "force": False, "manager": "alice", "target": TARGET}}, separators=(",", ":"))


def run(program, folder, lines):
    script = os.path.join(folder, "script.jsonl")
    with open(script, "w") as out:
        out.write("\n".join(lines) + "\n")
    child = subprocess.Popen([program, "--types", os.path.join(folder, "types.json"), "--script", script], stdout=subprocess.DEVNULL)
    _, status, usage = os.wait4(child.pid, 0)
    took = usage.ru_utime + usage.ru_stime
    if status != 0:
        sys.exit(f"the program ended with status {status}")
    return took, usage.ru_maxrss / 1024


def main():
    top = os.path.dirname(os.path.dirname(os.path.abspath(__file__)))
    program = sys.argv[1] if len(sys.argv) > 1 else os.path.join(top, "crates/ssa_replay/out/ssa_replay")
    with tempfile.TemporaryDirectory() as folder:
        with open(os.path.join(folder, "types.json"), "w") as out:
            json.dump(TYPES, out)
        print(f"cores: {os.cpu_count()}")
        print("| entries | applies | time of one | growth per entry | applies a second | peak memory |")
        print("|---|---|---|---|---|---|")
        last = None
        for size, count in ((10, 5000), (100, 2000), (1000, 300)):
            lines = [line(size, turn) for turn in range(count)]
            base = min(run(program, folder, lines[:1])[0] for _ in range(3))
            took, peak = min(run(program, folder, lines) for _ in range(3))
            one = (took - base) / (count - 1)
            growth = "" if last is None else f"{(one / size) / (last[1] / last[0]):.2f}"
            print(f"| {size} | {count} | {one * 1e6:.0f} us | {growth} | {1 / one:.0f} | {peak:.0f} MiB |")
            last = (size, one)


if __name__ == "__main__":
    main()
