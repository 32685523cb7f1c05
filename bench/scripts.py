"""Scripts of ssa-replay (docs/REPLAY.md): their lines, and what the built program ssa_replay takes to play them.

A script's time is the processor time of the process that plays it (one core), the least of three plays. What is timed is
the difference of two plays: of a script, and of the same lines up to where it begins, followed by the lines that come then
in a form that the hub refuses. So both plays read as many lines, and the difference is what the hub does and what is printed.
"""
import json
import os
import subprocess
import sys

RUNS = 3
TYPES = {"types": [{"group": "demo.example", "version": "v1", "kind": "Widget", "plural": "widgets", "schema": {
    "type": "object", "properties": {"spec": {"type": "object", "properties": {
        "config": {"type": "object", "additionalProperties": {"type": "string"}}}}}}}]}
BASE = "/apis/demo.example/v1/"
WIDGETS = BASE + "namespaces/default/widgets"


def text_of(value):
    return json.dumps(value, separators=(",", ":"))


def request(method, target, body=None, more=""):
    """The bytes of a request; more are further lines of its head."""
    head = f"{method} {target} HTTP/1.1\r\nHost: localhost\r\n{more}"
    if body is not None:
        media = "application/apply-patch+yaml" if method == "PATCH" else "application/json"
        head += f"Content-Type: {media}\r\nContent-Length: {len(body)}\r\n"
    return head + "\r\n" + (body or "")


def refused(event):
    """An event about as long that the hub refuses: of a connection that isn't there, or a pump of no line."""
    if "open" in event:
        return {"gone": event["open"]}
    if "pump" in event:
        return {"pump": [event["pump"][0], 0]}
    return event if "in" in event else {"gone": 0}


class Script:
    """The events of a script."""

    def __init__(self, events=(), last_id=0):
        self.events, self.last_id = list(events), last_id

    def copy(self):
        return Script(self.events, self.last_id)

    def line(self, event):
        self.events.append(event)

    def send(self, text, piece=None):
        """Bytes on a connection of their own, in pieces of so many, or in one."""
        self.last_id += 1
        self.line({"open": self.last_id})
        piece = piece or len(text)
        for at in range(0, len(text), piece):
            self.line({"in": [self.last_id, text[at:at + piece]]})
        return self.last_id

    def request(self, method, target, body=None):
        """A request on a connection of its own, in one piece."""
        return self.send(request(method, target, body))

    def up_to(self, count):
        """The same lines, of which those after so many are refused."""
        return Script(self.events[:count] + [refused(event) for event in self.events[count:]])

    def write(self, path):
        with open(path, "w") as out:
            out.writelines(text_of(event) + "\n" for event in self.events)


def widget(name, fields, turn):
    """An object of so many fields, of which one has another value at each turn."""
    config = {f"key-{n:05d}": f"value-{n}" for n in range(fields)}
    config[f"key-{turn % fields:05d}"] = f"changed-{turn}"
    return text_of({"apiVersion": "demo.example/v1", "kind": "Widget", "metadata": {"name": name}, "spec": {"config": config}})


def program_of(top):
    return os.path.join(top, "crates/ssa_replay/out/ssa_replay")


def play(words):
    """The processor time of a run, in nanoseconds, and the peak memory of its process, in MiB."""
    child = subprocess.Popen(words, stdout=subprocess.DEVNULL)
    _, status, usage = os.wait4(child.pid, 0)
    if status != 0:
        sys.exit(f"the program ended with status {status}")
    return (usage.ru_utime + usage.ru_stime) * 1e9, usage.ru_maxrss / 1024


def best(program, folder, script):
    """The least processor time of the script's plays, and the peak memory of that one."""
    types, path = os.path.join(folder, "types.json"), os.path.join(folder, "script.jsonl")
    with open(types, "w") as out:
        out.write(text_of(TYPES))
    script.write(path)
    return min(play([program, "--types", types, "--script", path]) for _ in range(RUNS))


def timed(program, folder, made, script, count):
    """The time of one of so many things that the script goes on with after what is made, and the peak memory of its play."""
    base, _ = best(program, folder, script.up_to(len(made.events)))
    took, peak = best(program, folder, script)
    return max(0, took - base) / count, peak


def row(*cells):
    print("| " + " | ".join(str(cell) for cell in cells) + " |", flush=True)


def head(*cells):
    row(*cells)
    row(*["---"] * len(cells))


def microseconds(nanoseconds):
    return f"{nanoseconds / 1000:.0f} us"


def a_second(nanoseconds):
    return f"{1e9 / max(1, nanoseconds):,.0f}"
