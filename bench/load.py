#!/usr/bin/env python3
"""Loads the built server over loopback: requests a second in each of its modes, watchers, memory, and lists of a large store.

Usage: bench/load.py [PROGRAM [PART..]]   (default: crates/ssa_server/out/ssa_server and all parts; build it first by `rt run` there)

Parts: load, watchers, memory, large. Each request has a connection of its own, and the clients run on the same processors as
the server. What a request costs the server is the processor time of its process, as the system counts it. Tables go to
standard output.
"""
import json
import multiprocessing
import os
import socket
import subprocess
import sys
import tempfile
import time

BASE = "/apis/demo.example/v1/"
WIDGETS = BASE + "namespaces/default/widgets"
TYPES = {"types": [{"group": "demo.example", "version": "v1", "kind": "Widget", "plural": "widgets", "schema": {
    "type": "object", "properties": {"spec": {"type": "object", "properties": {
        "config": {"type": "object", "additionalProperties": {"type": "string"}}}}}}}]}
MODES = ("one after another", []), ("at once", ["--concurrent"])
MEDIA = {"PATCH": "application/apply-patch+yaml"}


# ---- the server and its peers

class Server:
    """A server of one type, on a free port."""

    def __init__(self, program, words=()):
        self.folder = tempfile.TemporaryDirectory()
        types = os.path.join(self.folder.name, "types.json")
        with open(types, "w", encoding="utf-8") as out:
            json.dump(TYPES, out)
        self.process = subprocess.Popen([program, "--types", types, "--port", "0", *words], stdout=subprocess.PIPE, text=True)
        said = self.process.stdout.readline()
        if not said.startswith("listening on "):
            sys.exit(f"the server said {said!r}")
        self.port = int(said.rpartition(":")[2])

    def __enter__(self):
        return self

    def __exit__(self, *_):
        self.process.kill()
        self.process.wait()
        self.folder.cleanup()

    def spent(self):
        """The processor time of the process, in nanoseconds."""
        with open(f"/proc/{self.process.pid}/schedstat", encoding="utf-8") as it:
            return int(it.read().split()[0])

    def memory(self, field):
        """What the system says of the process's memory, in MiB: VmRSS is what it holds, VmHWM the most that it held."""
        with open(f"/proc/{self.process.pid}/status", encoding="utf-8") as it:
            return next(int(line.split()[1]) for line in it if line.startswith(field + ":")) / 1024


def request(method, target, body=None):
    head = f"{method} {target} HTTP/1.1\r\nHost: localhost\r\n"
    if body is not None:
        head += f"Content-Type: {MEDIA.get(method, 'application/json')}\r\nContent-Length: {len(body)}\r\n"
    return (head + "\r\n" + (body or "")).encode()


def sent(port, data):
    """What is answered to a request on a connection of its own."""
    with socket.create_connection(("127.0.0.1", port)) as peer:
        peer.sendall(data)
        parts = []
        while part := peer.recv(1 << 20):
            parts.append(part)
    return b"".join(parts)


def is_served(reply):
    return reply[9:11] == b"20"


def widget(name, fields, turn):
    """An object of so many fields, of which one has another value at each turn."""
    config = {f"key-{n:05d}": f"value-{n}" for n in range(fields)}
    config[f"key-{turn % fields:05d}"] = f"changed-{turn}"
    return json.dumps({"apiVersion": "demo.example/v1", "kind": "Widget", "metadata": {"name": name}, "spec": {"config": config}},
                      separators=(",", ":"))


def filled(name, turn):
    """An object of one field and about 1 KB as it is stored; every hundredth is labelled `app=rare`, the others `app=web`."""
    metadata = {"name": name, "labels": {"app": "web" if turn % 100 else "rare"}}
    spec = {"config": {"a": f"{turn:08d}" + "x" * 574}}
    return json.dumps({"apiVersion": "demo.example/v1", "kind": "Widget", "metadata": metadata, "spec": spec}, separators=(",", ":"))


def fill(port, objects):
    for n in range(objects):
        if not is_served(sent(port, request("POST", WIDGETS, filled(f"w{n:06d}", n)))):
            sys.exit("an object was refused")


def row(*cells):
    print("| " + " | ".join(str(cell) for cell in cells) + " |", flush=True)


def head(*cells):
    row(*cells)
    row(*["---"] * len(cells))


# ---- requests a second

def request_of(what, client, turn):
    if what == "GET of 1 KB":
        return request("GET", WIDGETS + "/w000000")
    if what == "list of 500 of 1 KB":
        return request("GET", WIDGETS)
    if what == "apply of 10 fields":
        return request("PATCH", f"{BASE}namespaces/own/widgets/c{client}?fieldManager=alice", widget(f"c{client}", 10, turn))
    return request("POST", f"{BASE}namespaces/own/widgets", widget(f"c{client}-{turn:06d}", 10, turn))


def keep_asking(port, what, client, seconds, told):
    """Sends one request after another for so long, and tells how many were served."""
    served, turn, end = 0, 0, time.monotonic() + seconds
    while time.monotonic() < end:
        turn += 1
        served += is_served(sent(port, request_of(what, client, turn)))
    told.put((served, turn))


def asked(server, what, clients, seconds):
    """Requests served a second, and what one cost the server in nanoseconds."""
    told = multiprocessing.Queue()
    peers = [multiprocessing.Process(target=keep_asking, args=(server.port, what, n, seconds, told)) for n in range(clients)]
    before, start = server.spent(), time.monotonic()
    for peer in peers:
        peer.start()
    counts = [told.get() for _ in peers]
    took, cost = time.monotonic() - start, server.spent() - before
    for peer in peers:
        peer.join()
    served, sent_all = (sum(column) for column in zip(*counts))
    if served != sent_all:
        sys.exit(f"{what}: {served} of {sent_all} were served")
    return served / took, cost / served


def load(program):
    print("\nRequests a second, each on a connection of its own, and the server's processor time for one\n")
    head("mode", "request", "one client", "of one", "eight clients", "of one")
    for mode, words in MODES:
        for what in ("GET of 1 KB", "apply of 10 fields", "create of 10 fields", "list of 500 of 1 KB"):
            cells = []
            for clients in (1, 8):
                with Server(program, words) as server:
                    fill(server.port, 500 if "list" in what else 1)
                    rate, cost = asked(server, what, clients, 4)
                    cells += [f"{rate:,.0f}", f"{cost / 1000:.0f} us"]
            row(mode, what, *cells)


# ---- watchers

def watch_lines(port, changes, told):
    """Reads a watch until so many changes were told, and tells how long after its first byte that was."""
    data = request("GET", f"{BASE}namespaces/own/widgets?watch=true&resourceVersion=1")
    with socket.create_connection(("127.0.0.1", port)) as peer:
        peer.sendall(data)
        seen = 0
        while seen < changes:
            part = peer.recv(1 << 20)
            if not part:
                break
            seen += part.count(b'"type":"')
    told.put(seen)


def watchers(program):
    print("\nWatchers of one type beside one client that applies 10 fields 1,000 times\n")
    head("watchers", "time of all applies and lines", "lines a second", "the server's processor time")
    for count in (0, 1, 10, 50):
        with Server(program, ["--concurrent"]) as server:
            told = multiprocessing.Queue()
            peers = [multiprocessing.Process(target=watch_lines, args=(server.port, 1000, told)) for _ in range(count)]
            for peer in peers:
                peer.start()
            time.sleep(1)
            before, start = server.spent(), time.monotonic()
            for turn in range(1, 1001):
                sent(server.port, request_of("apply of 10 fields", 0, turn))
            lines = sum(told.get() for _ in peers)
            took, cost = time.monotonic() - start, server.spent() - before
            row(count, f"{took:.2f} s", f"{lines / took:,.0f}", f"{cost / 1e9:.2f} s")


# ---- memory, and a large store

def memory(program):
    print("\nMemory of the server's process, in MiB\n")
    head("mode", "at rest", "with 10,000 objects of 1 KB", "the most until then")
    for mode, words in MODES:
        with Server(program, words) as server:
            sent(server.port, request("GET", WIDGETS))
            rest = server.memory("VmRSS")
            fill(server.port, 10_000)
            row(mode, f"{rest:.1f}", f"{server.memory('VmRSS'):.1f}", f"{server.memory('VmHWM'):.1f}")


def items_of(reply):
    return len(json.loads(reply.partition(b"\r\n\r\n")[2])["items"])


def large(program):
    print("\nLists of a store of objects of 1 KB: the server's processor time for one, the middle one and the least of 20\n")
    head("objects", "list", "items", "middle", "least")
    for objects in (5_000, 100_000):
        with Server(program) as server:
            fill(server.port, objects)
            middle = f"?limit=500&continue={objects + 1}.default.w{objects // 2:06d}"
            rare = "?labelSelector=app%3Drare"
            for query in ("/w000000", "?limit=500", middle, rare + "&limit=500", rare):
                costs = []
                for _ in range(20):
                    before = server.spent()
                    reply = sent(server.port, request("GET", WIDGETS + query))
                    time.sleep(0.02)
                    costs.append(server.spent() - before)
                    if not is_served(reply):
                        sys.exit(reply[:300].decode())
                items = 1 if query.startswith("/") else items_of(reply)
                row(objects, f"`{query}`", items, f"{sorted(costs)[len(costs) // 2] / 1e6:.2f} ms", f"{min(costs) / 1e6:.2f} ms")
            row(objects, "memory", "", f"{server.memory('VmRSS'):.0f} MiB", f"at most {server.memory('VmHWM'):.0f} MiB")


PARTS = {"load": load, "watchers": watchers, "memory": memory, "large": large}


def main():
    top = os.path.dirname(os.path.dirname(os.path.abspath(__file__)))
    program = sys.argv[1] if len(sys.argv) > 1 else os.path.join(top, "crates/ssa_server/out/ssa_server")
    print(f"cores: {os.cpu_count()}")
    for part in sys.argv[2:] or PARTS:
        PARTS[part](program)


if __name__ == "__main__":
    main()
