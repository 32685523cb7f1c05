#!/usr/bin/env python3
"""Writes the stored run of ssa_loop: a client that lists objects in pages while they change and changes are forgotten,
and what it must print.

Usage: bench/expected_loop.py   (writes crates/ssa_loop/data/script.jsonl and crates/ssa_loop/stdout)

The program is not run here. Each step stands beside what the server writes and the client reports after it; heads,
lengths and versions are computed (by expected_replies.py). `rt ci` compares what the program prints with `stdout`.
"""
import os

from expected_replies import (API_VERSION, TOP, apply, body_of, compact, line, lines, next_id, refused, replies, reply, widget,
                              written)

PROGRAM = os.path.join(TOP, "crates", "ssa_loop")
ALL = 65536     # more bytes than a request or a reply has here
TIER = {"f:metadata": {"f:labels": {"f:tier": {}}}}

reports = []


def labelled(name, version, tier):
    return widget(name, version, [("alice", TIER)], labels={"tier": tier})


def created(name, version):
    apply(name, body_of(metadata={"name": name}), (201, widget(name, version, [])))


def updated(name, version, tier):
    apply(name, body_of(metadata={"name": name, "labels": {"tier": tier}}), (200, labelled(name, version, tier)))


def client(what):
    line({"client": what})


def asks(expected):
    """The client sends what is due, and gets this reply."""
    client("send")
    line({"toServer": ALL})
    line({"toClient": ALL})
    written[next_id()] = reply(*expected)


def page(items, version, after=None):
    """A page of the list at a version; with an object behind which the next one goes on."""
    metadata = {"resourceVersion": str(version)}
    if after is not None:
        metadata["continue"] = f"{version}.default.{after}"
    head, tail = compact({"apiVersion": API_VERSION, "items": [], "kind": "WidgetList", "metadata": metadata}).split("[]")
    return 200, head + "[" + ",".join(items) + "]" + tail


def reported(version, objects, counts):
    """After the last line the client reports this."""
    reports.append(f"report {len(lines)} {version} {objects} {compact(counts)}\n")


def paged_relist_over_compaction():
    first = [widget(f"w{n}", n + 1, []) for n in range(1, 6)]
    for n in range(1, 6):
        created(f"w{n}", n + 1)
    asks(page(first[:2], 6, "w2"))
    asks(page(first[2:4], 6, "w4"))
    asks(page(first[4:], 6))
    reported(6, 5, {})
    client("cut")
    updated("w5", 7, "web")
    line({"compact": 7})
    asks(refused("too old resource version: {} ({})", 6, 7))
    asks(page(first[:2], 7, "w2"))
    updated("w5", 8, "db")
    line({"compact": 8})
    asks(refused("too old resource version: {} ({})", 7, 8))
    asks(page(first[:2], 8, "w2"))
    asks(page(first[2:4], 8, "w4"))
    asks(page([labelled("w5", 8, "db")], 8))
    reported(8, 5, {"db": 1})


def main():
    paged_relist_over_compaction()
    with open(os.path.join(PROGRAM, "data", "script.jsonl"), "w") as out:
        out.write("".join(text + "\n" for text in lines))
    with open(os.path.join(PROGRAM, "stdout"), "w", newline="") as out:
        out.write("".join(replies))
        for connection, text in sorted(written.items()):
            out.write(f"connection {connection} {len(text)}\n{text}\n")
        out.write("".join(reports))


if __name__ == "__main__":
    main()
