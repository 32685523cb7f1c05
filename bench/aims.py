#!/usr/bin/env python3
"""Times what users feel, of several builds in turn, beside the aims that this project set itself: one table, a column a build.

Usage: bench/aims.py FOLDER..     e.g. bench/aims.py before now; each folder has the built programs ssa_replay and ssa_server

Times are processor time: through the hub as bench/scripts.py takes them, through the server as the system counts its process.
"""
import os
import sys
import tempfile
import time

import load
import scripts
import serving


def of_one(folder, play, before, after, count):
    """What one of so many events more takes, in microseconds."""
    return scripts.timed(os.path.join(folder, "ssa_replay"), play, before, after, count)[0] / 1000


def requests(method, fields, count):
    return lambda folder, play: of_one(folder, play, *serving.requests_of(method, fields, count, serving.store_of(0)), count)


def idle_pump(folder, play):
    """A pump of one of a hundred watches of another namespace, after each of so many writes."""
    made, count = scripts.Script(), 200
    ids = [made.request("GET", scripts.BASE + "namespaces/idle/widgets?watch=true&resourceVersion=1") for _ in range(100)]
    writing, pumping = made.copy(), made.copy()
    for turn in range(1, count + 1):
        for script in (writing, pumping):
            script.request("PATCH", scripts.WIDGETS + "/w1?fieldManager=alice", serving.filled("w1", 1024, turn))
        for watch in ids:
            writing.line({"pump": [watch, 0]})
            pumping.line({"pump": [watch, 100]})
    program = os.path.join(folder, "ssa_replay")
    return (scripts.best(program, play, pumping)[0] - scripts.best(program, play, writing)[0]) / (count * 100) / 1000


def quiet_pump(folder, play):
    """A pump of a watch after which nothing was written."""
    made = scripts.Script()
    watch = made.request("GET", scripts.BASE + "widgets?watch=true&resourceVersion=1")
    pumping, count = made.copy(), 20_000
    for _ in range(count):
        pumping.line({"pump": [watch, 100]})
    return of_one(folder, play, made, pumping, count)


def line_of_fifty(asks):
    """A line of a watch, of fifty that ask so and follow an object of 1 KB, beside a pump of no line."""
    def line(folder, play):
        none = of_one(folder, play, *serving.followed(50, 500, 0, asks), 500)
        return (of_one(folder, play, *serving.followed(50, 500, asks=asks), 500) - none) / 50
    return line


def write_through_server(folder, _):
    """An apply of 10 fields with --concurrent, a connection each, of fifty objects."""
    with load.Server(os.path.join(folder, "ssa_server"), ["--concurrent"]) as server:
        for turn in range(3000):
            if turn == 1000:
                before = server.spent()
            data = load.request("PATCH", f"{load.WIDGETS}/c{turn % 50}?fieldManager=alice", load.widget(f"c{turn % 50}", 10, turn))
            load.sent(server.port, data)
        return (server.spent() - before) / 2000 / 1000


def memory(objects):
    """What the server holds, in MiB."""
    def held(folder, _):
        with load.Server(os.path.join(folder, "ssa_server"), ["--concurrent"]) as server:
            load.sent(server.port, load.request("GET", load.WIDGETS))
            load.fill(server.port, objects)
            time.sleep(1.5)
            return server.memory("VmRSS")
    return held


ROWS = (
    ("a pump after which nothing was written, us", "0.5", quiet_pump),
    ("a pump that finds nothing, us", "0.5", idle_pump),
    ("a line to 50 watchers through the hub, us", "1", line_of_fifty("")),
    ("a line to 50 that ask for the same labels", "1", line_of_fifty("&labelSelector=app%3Dweb")),
    ("a line to 50 that ask for labels of their own", "1", line_of_fifty("&labelSelector=app%20in%20%28web%2Cx{}%29")),
    ("a GET of 10 fields through the hub, us", "4", requests("GET", 10, 16_000)),
    ("a GET of 100 fields", "", requests("GET", 100, 6000)),
    ("an apply of 10 fields through the hub, us", "", requests("PATCH", 10, 4000)),
    ("an apply of 100 fields", "", requests("PATCH", 100, 1500)),
    ("an apply of 1,000 fields", "", requests("PATCH", 1000, 250)),
    ("a create of 10 fields through the hub, us", "", requests("POST", 10, 4000)),
    ("an apply of 10 fields through the server, us", "60", write_through_server),
    ("the server at rest, MiB", "8", memory(0)),
    ("with 10,000 objects of 1 KB, MiB", "28", memory(10_000)),
)


def main(folders):
    scripts.head("what", "aim", *folders)
    with tempfile.TemporaryDirectory() as play:
        for what, aim, timed in ROWS:
            scripts.row(what, aim, *[f"{timed(folder, play):.2f}" for folder in folders])


if __name__ == "__main__":
    main(sys.argv[1:])
