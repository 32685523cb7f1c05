#!/usr/bin/env python3
"""Times requests and watches through the hub: makes scripts, and plays them by the built program ssa_replay.

Usage: bench/serving.py [PROGRAM]   (default: crates/ssa_replay/out/ssa_replay; build it first by `rt run` in crates/ssa_replay)

How a script is timed stands in bench/scripts.py. Tables go to standard output.
"""
import os
import sys
import tempfile

from scripts import BASE, WIDGETS, Script, a_second, best, head, microseconds, program_of, row, text_of, timed, widget


def filled(name, size, turn):
    """An object of one field and about so many bytes as it is stored; every hundredth is labelled `app=rare`, the others `app=web`."""
    value = f"{turn:08d}" + "x" * max(0, size - 450)
    metadata = {"name": name, "labels": {"app": "web" if turn % 100 else "rare"}}
    return text_of({"apiVersion": "demo.example/v1", "kind": "Widget", "metadata": metadata, "spec": {"config": {"a": value}}})


def store_of(objects):
    """A script that makes so many objects of 1 KB; their names ascend from w000000."""
    made = Script()
    for n in range(objects):
        made.request("POST", WIDGETS, filled(f"w{n:06d}", 1024, n))
    return made


def requests_of(method, fields, count, made):
    """A script that goes on with so many requests of a method over objects of so many fields, and the one to compare it with."""
    before = made.copy()
    if method in ("GET", "PUT", "PATCH"):
        before.request("PATCH", WIDGETS + "/one?fieldManager=alice", widget("one", fields, 0))
    if method == "DELETE":
        for turn in range(count):
            before.request("POST", WIDGETS, widget(f"one{turn:05d}", fields, turn))
    after = before.copy()
    for turn in range(count):
        if method == "GET":
            after.request("GET", WIDGETS + "/one")
        elif method == "POST":
            after.request("POST", WIDGETS + "?fieldManager=alice", widget(f"one{turn:05d}", fields, turn))
        elif method == "DELETE":
            after.request("DELETE", WIDGETS + f"/one{turn:05d}")
        else:
            after.request(method, WIDGETS + "/one?fieldManager=alice", widget("one", fields, turn + 1))
    return before, after


def single_objects(program, folder):
    print("\nSingle objects, each request on a connection of its own; the objects beside it are of 1 KB\n")
    head("fields", "request", "requests", "in a store of 1", "a second", "in a store of 10,000", "a second")
    stores = store_of(0), store_of(10_000)
    for fields, many in ((10, 4000), (100, 1500), (1000, 250)):
        for method in ("GET", "POST", "PUT", "PATCH", "DELETE"):
            cells = []
            count = many * 4 if method == "GET" else many
            for made in stores:
                one, _ = timed(program, folder, *requests_of(method, fields, count, made), count)
                cells += [microseconds(one), a_second(one)]
            row(fields, "apply" if method == "PATCH" else method, count, *cells)


def small_gets(program, folder):
    print("\nGET of an object of 1 KB, and the memory of a store, its script and its replies held with it\n")
    head("objects", "time of one GET", "a second", "peak memory of the process")
    for objects in (1, 10_000):
        made = store_of(objects)
        script = made.copy()
        for _ in range(20_000):
            script.request("GET", WIDGETS + "/w000000")
        one, _ = timed(program, folder, made, script, 20_000)
        _, peak = best(program, folder, made)
        row(objects, f"{one / 1000:.1f} us", a_second(one), f"{peak:.0f} MiB")


def lists(program, folder):
    print("\nLists of objects of 1 KB\n")
    head("objects", "list", "lists", "time of one", "lists a second", "time of an item")
    middle = "?limit=500&continue={last}.default.w{half:06d}"
    for objects, count, queries in ((100, 200, (("", 100),)), (500, 100, (("", 500),)), (5000, 10, (("", 5000), ("?limit=500", 500))),
                                    (100_000, 20, (("?limit=500", 500), (middle, 500), ("?labelSelector=app%3Drare", 1000),
                                                   ("?labelSelector=app%3Drare&limit=500", 500)))):
        made = store_of(objects)
        for query, items in queries:
            query = query.format(last=objects + 1, half=objects // 2)
            script = made.copy()
            for _ in range(count):
                script.request("GET", WIDGETS + query)
            one, _ = timed(program, folder, made, script, count)
            row(objects, f"`{query}`" if query else "whole", count, f"{one / 1e6:.2f} ms", a_second(one),
                f"{one / items / 1000:.2f} us")


def followed(watches, changes, lines=100, asks=""):
    """Watches of one type that ask so (`{}` is the watch's number), and changes of an object of 1 KB; after each change each watch
    is pumped for so many lines."""
    made = Script()
    made.request("PATCH", WIDGETS + "/w1?fieldManager=alice", filled("w1", 1024, 0))
    ids = [made.request("GET", BASE + "widgets?watch=true&resourceVersion=2" + asks.format(watch)) for watch in range(watches)]
    script = made.copy()
    for turn in range(1, changes + 1):
        script.request("PATCH", WIDGETS + "/w1?fieldManager=alice", filled("w1", 1024, turn))
        for watch in ids:
            script.line({"pump": [watch, lines]})
    return made, script


def watches_that_follow(program, folder):
    print("\nWatches of one type that are pumped after each change of 1 KB\n")
    head("watches", "changes", "a change with its pumps", "a line, beside a pump of none", "lines a second", "peak memory")
    for watches, changes in ((0, 2000), (1, 2000), (10, 2000), (50, 2000)):
        made, script = followed(watches, changes)
        one, peak = timed(program, folder, made, script, changes)
        if watches == 0:
            row(watches, changes, microseconds(one), "", "", f"{peak:.0f} MiB")
            continue
        none, _ = timed(program, folder, *followed(watches, changes, 0), changes)
        line = max(1, one - none) / watches
        row(watches, changes, microseconds(one), f"{line / 1000:.2f} us", f"{1e9 / line:,.0f}", f"{peak:.0f} MiB")


def idle_watches(program, folder):
    print("\nIdle watches of another namespace, beside writes of 1 KB, ticks and pumps that find nothing\n")
    head("watches", "events", "how many", "time of them all", "of one watch more")
    zero = {}
    for watches in (0, 100, 1000):
        made = Script()
        ids = [made.request("GET", BASE + "namespaces/idle/widgets?watch=true&resourceVersion=1") for _ in range(watches)]
        writing, ticking, pumping, count = made.copy(), made.copy(), made.copy(), 500
        for turn in range(1, count + 1):
            writing.request("PATCH", WIDGETS + "/w1?fieldManager=alice", filled("w1", 1024, turn))
            ticking.line({"tick": turn})
            pumping.request("PATCH", WIDGETS + "/w1?fieldManager=alice", filled("w1", 1024, turn))
            for watch in ids:
                pumping.line({"pump": [watch, 100]})
        for what, script in (("a write", writing), ("a tick", ticking), ("a write, and a pump of each", pumping)):
            one, _ = timed(program, folder, made, script, count)
            zero.setdefault(what, one)
            more = f"{max(0, one - zero[what]) / watches / 1000:.2f} us" if watches else ""
            row(watches, what, count, f"{one / 1000:.1f} us", more)


def main():
    top = os.path.dirname(os.path.dirname(os.path.abspath(__file__)))
    program = sys.argv[1] if len(sys.argv) > 1 else program_of(top)
    print(f"cores: {os.cpu_count()}")
    with tempfile.TemporaryDirectory() as folder:
        for part in (small_gets, single_objects, lists, watches_that_follow, idle_watches):
            part(program, folder)


if __name__ == "__main__":
    main()
