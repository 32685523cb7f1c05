#!/usr/bin/env python3
"""Times the layers by the programs of bench/build.py, and the hub by the built program ssa_replay, with the peak memory.

Usage: bench/layers.py [--layers PROGRAM] [--tables PROGRAM] [--connections PROGRAM] [--replay PROGRAM] [LAYER..]   (default:
                       all layers whose program is given, and the hub by the program that `rt run` leaves in crates/ssa_replay/out)

Runs each layer at 1,000, 10,000 and 100,000 (the reader at 1,000 and 10,000 lines, objects' texts over objects of 10, 100 and
1,000 fields) in a process of its own and prints what the program says of the processor time (one core) and the peak memory of
the process. `tables` and `connections` (1,000, 100,000 and 1,000,000 of them) are programs of their own; `layers` has the others. The layer `hub` are tables of scripts' times
(bench/scripts.py): applies, GETs on connections one after another, and requests in pieces.
"""
import argparse
import os
import re
import subprocess
import tempfile

from scripts import WIDGETS, Script, a_second, head, program_of, request, row, text_of, timed, widget

TOP = os.path.dirname(os.path.dirname(os.path.abspath(__file__)))
TABLES = "tables"
CONNECTIONS = "connections"
SIZES = {"selectors": (1000, 10000, 100000), "indexer": (1000, 10000, 100000), "reader": (1000, 10000),
         TABLES: (1000, 10000, 100000), CONNECTIONS: (1000, 100000, 1000000), "objects": (10, 100, 1000), "client": (5000, 100000)}
LIMIT = 120
OBJECT = WIDGETS + "/w1"
APPLY = OBJECT + "?fieldManager=alice"
PIECE = 64


def words_of(program, layer, size):
    """What runs a layer at a size: a program of its own has no other layer, so it takes sizes alone."""
    return [program, str(size)] if layer in (TABLES, CONNECTIONS) else [program, str(size), layer]


def run(program, layer, size):
    with open(os.devnull) as nothing:
        words = words_of(program, layer, size)
        child = subprocess.Popen(words, stdin=nothing, stdout=subprocess.DEVNULL, stderr=subprocess.PIPE, text=True)
    try:
        _, told = child.communicate(timeout=LIMIT)
    except subprocess.TimeoutExpired:
        child.kill()
        _, told = child.communicate()
        told += f"(stopped after {LIMIT} s)\n"
    return told


def peak_of(program, layer, size):
    child = subprocess.Popen(words_of(program, layer, size), stdout=subprocess.DEVNULL, stderr=subprocess.DEVNULL)
    _, _, usage = os.wait4(child.pid, 0)
    return usage.ru_maxrss / 1024


def with_rate(line):
    """A line of the program ("WHAT: COUNT in TOOK ns, ..") with how many that is in a second."""
    found = re.match(r".+: (\d+) in (\d+) ns", line)
    return f"{line}, {int(found[1]) * 10**9 // max(1, int(found[2]))} a second" if found else line


def run_layer(program, layer):
    for size in SIZES[layer]:
        told = run(program, layer, size)
        print(f"== {layer} {size}")
        for line in told.splitlines():
            print(with_rate(line))
        if "stopped" in told:
            break
        print(f"peak memory: {peak_of(program, layer, size):.0f} MiB", flush=True)


# ---- the hub

def applies(fields, count):
    """Applies of an object of so many fields, each with one value changed."""
    script = Script()
    for turn in range(count):
        script.request("PATCH", APPLY, widget("w1", fields, turn))
    return Script(), script


def looks(before, count):
    """GETs of an object of 1 KB, after so many others."""
    made = Script()
    made.send(apply_of_bytes(1000))
    for _ in range(before):
        made.request("GET", OBJECT)
    script = made.copy()
    for _ in range(count):
        script.request("GET", OBJECT)
    return made, script


def apply_of_bytes(size):
    """An apply of so many bytes, of which a quarter is its head."""
    def body(letters):
        return text_of({"apiVersion": "demo.example/v1", "kind": "Widget", "metadata": {"name": "w1"},
                        "spec": {"config": {"text": "x" * letters}}})

    def filled(letters):
        return request("PATCH", APPLY, content, f"X-Text: {'x' * letters}\r\n")

    content = body(size - size // 4 - len(body(0)))
    return filled(max(0, size - len(filled(0))))


def pieces(size, count):
    """The same apply of so many bytes again and again, in pieces."""
    script = Script()
    for _ in range(count):
        script.send(apply_of_bytes(size), PIECE)
    return Script(), script


def run_hub(program, folder):
    print("== hub\n\nApplies of an object of so many fields, each with one value changed, each on a connection of its own\n")
    head("fields", "applies", "time of one", "a second", "peak memory of the process")
    for fields, count in ((10, 2000), (100, 500), (1000, 200)):
        one, peak = timed(program, folder, *applies(fields, count), count)
        row(fields, count, f"{one / 1000:.1f} us", a_second(one), f"{peak:.0f} MiB")
    print("\nGETs of an object of 1 KB among 10,000 in one hub, each on a connection of its own\n")
    head("GETs", "time of one", "a second")
    for what, before in (("the first 1,000", 0), ("the last 1,000", 9000)):
        one, _ = timed(program, folder, *looks(before, 1000), 1000)
        row(what, f"{one / 1000:.1f} us", a_second(one))
    print(f"\nApplies that come in pieces of {PIECE} bytes, a quarter of the bytes head\n")
    head("bytes", "applies", "time of a byte")
    for size, count in ((64_000, 40), (6_400, 400)):
        one, _ = timed(program, folder, *pieces(size, count), count * size)
        row(size, count, f"{one:.1f} ns")


def main():
    words = argparse.ArgumentParser()
    words.add_argument("--layers", dest="program")
    words.add_argument("--tables")
    words.add_argument("--connections")
    words.add_argument("--replay", default=program_of(TOP))
    words.add_argument("layers", nargs="*", metavar="LAYER")
    given = words.parse_args()
    for layer in given.layers or [*SIZES, "hub"]:
        own = layer if layer in (TABLES, CONNECTIONS) else "layers"
        program = {TABLES: given.tables, CONNECTIONS: given.connections}.get(layer, given.program)
        if layer == "hub":
            with tempfile.TemporaryDirectory() as folder:
                run_hub(given.replay, folder)
        elif not program:
            print(f"== {layer}: left out, since its program isn't given (--{own})", flush=True)
        else:
            run_layer(program, layer)


if __name__ == "__main__":
    main()
