#!/usr/bin/env python3
"""Starts a server on a free port and asks it by Python's urllib alone: apply, be refused, force, list, watch, delete.

    examples/plain_http.py [PROGRAM]

PROGRAM is what SSA_SERVER names, else ./ssa-server. The status is 0 if each reply is the expected one.
"""
import json
import os
import re
import signal
import subprocess
import sys
import urllib.error
import urllib.request

TOP = os.path.dirname(os.path.dirname(os.path.realpath(__file__)))
WIDGET = {"apiVersion": "demo.example/v1", "kind": "Widget"}


class Server:
    """A server of the types of a file. It ends with the block."""

    def __init__(self, program, types):
        # A program that is compiled first says on standard error when it listens.
        self.process = subprocess.Popen([program, "--types", types, "--port", "0", "--concurrent"], stdout=subprocess.PIPE,
                                        stderr=subprocess.STDOUT, text=True, start_new_session=True)
        for line in self.process.stdout:
            print(line, end="")
            if listening := re.search(r"listening on 127\.0\.0\.1:(\d+)$", line):
                self.base = f"http://127.0.0.1:{listening[1]}/apis/demo.example/v1"
                return
        sys.exit("the server has ended")

    def __enter__(self):
        return self

    def __exit__(self, *_):
        os.killpg(self.process.pid, signal.SIGTERM)
        self.process.wait()

    def open(self, method, path, body=None):
        media = "application/apply-patch+yaml" if method == "PATCH" else "application/json"
        data = None if body is None else json.dumps(body).encode()
        request = urllib.request.Request(self.base + path, data, {"Content-Type": media} if data else {}, method=method)
        return urllib.request.urlopen(request, timeout=30)

    def ask(self, method, path, body=None):
        """The status and the object, or the Status, of a reply."""
        try:
            with self.open(method, path, body) as reply:
                return reply.status, json.load(reply)
        except urllib.error.HTTPError as refusal:
            return refusal.code, json.load(refusal)

    def apply(self, manager, spec, force=False):
        query = f"?fieldManager={manager}" + ("&force=true" if force else "")
        return self.ask("PATCH", f"/namespaces/default/widgets/w1{query}", {**WIDGET, "spec": spec})


def version(value):
    return value["metadata"]["resourceVersion"]


def play(server):
    status, widget = server.apply("alice", {"image": "a", "replicas": 3})
    assert (status, version(widget)) == (201, "2")
    status, refusal = server.apply("bob", {"image": "b"})
    assert (status, refusal["details"]["causes"][0]["field"]) == (409, ".spec.image")
    status, widget = server.apply("bob", {"image": "b"}, force=True)
    assert (status, widget["spec"]) == (200, {"image": "b", "replicas": 3})
    # Alice applies neither field any more: hers goes, bob's stays.
    status, widget = server.apply("alice", {})
    assert (status, widget["spec"]) == (200, {"image": "b"})

    status, widgets = server.ask("GET", "/widgets")
    assert (status, [it["metadata"]["name"] for it in widgets["items"]]) == (200, ["w1"])
    with server.open("GET", f"/widgets?watch=true&resourceVersion={version(widgets)}") as watch:
        status, _ = server.ask("DELETE", "/namespaces/default/widgets/w1", {"preconditions": {"resourceVersion": version(widget)}})
        assert status == 200
        line = json.loads(watch.readline())
    assert (line["type"], version(line["object"])) == ("DELETED", "5")
    status, _ = server.ask("GET", "/namespaces/default/widgets/w1")
    assert status == 404


def main(words):
    os.environ["no_proxy"] = "127.0.0.1"
    program = words[0] if words else os.environ.get("SSA_SERVER", f"{TOP}/ssa-server")
    with Server(program, f"{TOP}/examples/widgets.json") as server:
        play(server)
    print("each reply is the expected one")


if __name__ == "__main__":
    if set(sys.argv[1:]) & {"-h", "--help"}:
        sys.exit(__doc__)
    main(sys.argv[1:])
