#!/usr/bin/env python3
"""Tests the player of rows of the profile `kubernetes`: what it sends, what it takes for a reply, and what it says where one
is wrong.

The programs are made up: they tell what they were sent, and where a target asks for it, something else.
"""

from __future__ import annotations

import contextlib
import io
import json
import os
import sys
import tempfile
import unittest
from unittest import mock

import play
from players import kubernetes

# `ssa-pipe` and `ssa-server`: a reply's body is what was sent, as a JSON text. By the last part of the target's path it is
# something else: the words of the program's call, the kinds of its types, the moment of its clock, its name, or no reply.
PROGRAM = """#!{python}
import json, os, socket, sys

NAME = os.path.basename(sys.argv[0])
MOMENT = "1970-01-01T00:00:0" + ("0Z" if NAME == "ssa-pipe" else "7Z")
HEAD = "HTTP/1.1 {{}}\\r\\nContent-Type: application/json\\r\\n{{}}\\r\\nConnection: close\\r\\n{{}}\\r\\n"
WATCH = HEAD.format("200 OK", "Transfer-Encoding: chunked", "")


def lines(said):
    return "".join(f"{{len(it) + 1:x}}\\r\\n{{it}}\\n\\r\\n" for it in said.split(","))


def reply(data):
    path, _, query = data.split(" ")[1].partition("?")
    word = path.rpartition("/")[2]
    if query:
        return WATCH + lines(f"one,{{MOMENT}}") + (lines("more") if NAME in word else "")
    with open(sys.argv[sys.argv.index("--types") + 1]) as it:
        kinds = [it["kind"] for it in json.load(it)["types"]]
    options = [it for it in sys.argv[3:] if it not in ("--type", "g/v/as", "--concurrent", "--port")]
    told = {{"kinds": kinds, "options": options[:3], "moment": MOMENT, "name": NAME, "two$lines": "a\\nb"}}
    body = json.dumps(told.get(word, data))
    length = len(body) + (word == "longer")
    status = ("405 Method Not Allowed", "Allow: GET\\r\\n") if word == "allowed" else ("200 OK", "")
    other = {{"nothing": "", "chunk": WATCH + "9\\r\\nshort\\r\\n"}}
    return other.get(word, HEAD.format(status[0], f"Content-Length: {{length}}", status[1]) + body)


def of_pipe():
    for line in sys.stdin:
        event = json.loads(line)
        sent = event.get("in", [0, ""])[1]
        if sent:
            print(json.dumps({{"out": [event["in"][0], reply(sent)]}}))
        print('{{"done":1}}', flush=True)


def of_server():
    at = socket.create_server(("127.0.0.1", 0))
    print(f"listening on 127.0.0.1:{{at.getsockname()[1]}}", flush=True)
    watches = []
    while True:
        stream, _ = at.accept()
        data = stream.recv(65536).decode()
        stream.sendall(reply(data).encode())
        if "?watch=true" in data:
            watches.append(stream)
        else:
            stream.close()


if "broken" in os.listdir(os.path.dirname(os.path.realpath(sys.argv[0]))):
    sys.exit("no such option")
of_pipe() if NAME == "ssa-pipe" else of_server()
"""
TYPES = {
    "types": [
        {"group": "g", "version": "v", "plural": "as", "kind": "A"},
        {"kind": "B", "scope": "Cluster"},
    ]
}
PATH = "/apis/wide.example/v1/namespaces/ns/"
AGENT = "User-Agent: probe/1.0"


def sent(first: str, *fields: str, body: str = "") -> str:
    """What is wanted where this was sent."""
    text = "".join(f"{it}\r\n" for it in [first, "Host: localhost", *fields, ""])
    return f"200 {json.dumps(text + body)}"


class Played(unittest.TestCase):
    """Rows in a folder `kubernetes`, and programs in another."""

    def setUp(self) -> None:
        """Makes both folders."""
        room = tempfile.TemporaryDirectory(prefix="play-")
        self.addCleanup(room.cleanup)
        self.folder, self.programs = f"{room.name}/kubernetes", f"{room.name}/programs"
        os.mkdir(self.folder)
        os.mkdir(self.programs)
        with open(f"{self.folder}/types.json", "w", encoding="utf-8") as it:
            json.dump(TYPES, it)
        for name in ("ssa-pipe", "ssa-server"):
            with open(f"{self.programs}/{name}", "w", encoding="utf-8") as it:
                it.write(PROGRAM.format(python=sys.executable))
            os.chmod(f"{self.programs}/{name}", 0o755)

    def said(self, *rows: str, what: str = "namespaced types") -> list[str]:
        """The lines that are printed where these rows are played."""
        path = f"{self.folder}/some.rows"
        with open(path, "w", encoding="utf-8") as it:
            it.write("\n".join(["# Some.", "", f"some on {what}: why", *rows, ""]))
        out = io.StringIO()
        with contextlib.redirect_stdout(out):
            play.main(["--programs", self.programs, path])
        return out.getvalue().splitlines()

    def passes(self, *rows: str, what: str = "namespaced types") -> None:
        """All rows are answered as they should be."""
        self.assertEqual(self.said(*rows, what=what), [f"{len(rows)} passed, 0 failed"])

    def fails(self, row: str, why: str, what: str = "namespaced types") -> None:
        """The only row isn't, and this is said."""
        first, *_, last = self.said(row, what=what)
        self.assertEqual(first.partition(":4: ")[2], why)
        self.assertEqual(last, "0 passed, 1 failed")


class WhatIsSent(Played):
    """The bytes of requests."""

    def test_methods(self) -> None:
        """With a body, and without; a name in front is nothing."""
        get = sent(f"GET {PATH}things/a HTTP/1.1", AGENT)
        posted = (AGENT, "Content-Type: application/json", "Content-Length: 7")
        self.passes(
            f"GET things/a => {get}",
            f"st.14 GET things/a => {get}",
            f"f7.3 GET things/a => {get}",
            f'POST things {{"a":1}} => {sent(f"POST {PATH}things HTTP/1.1", *posted, body=chr(123) + chr(34) + "a" + chr(34) + ":1}")}',
            f"DELETE /things => {sent('DELETE /apis/wide.example/v1/things HTTP/1.1', AGENT)}",
            f"DELETE;untyped x {{}} => {sent(f'DELETE {PATH}x HTTP/1.1', AGENT, 'Content-Length: 2', body='{}')}",
        )

    def test_patches(self) -> None:
        """Their media types, with parameters, and without a body."""
        for word, media in (
            ("apply-patch", "application/apply-patch+yaml"),
            ("json-patch", "application/json-patch+json"),
            ("merge-patch", "application/merge-patch+json"),
            (
                "merge-patch;charset=utf-8",
                "application/merge-patch+json; charset=utf-8",
            ),
        ):
            fields = (AGENT, f"Content-Type: {media}", "Content-Length: 3")
            first = f"PATCH {PATH}things/m HTTP/1.1"
            self.passes(f"{word} things/m [1] => {sent(first, *fields, body='[1]')}")
        empty = (
            AGENT,
            "Content-Type: application/merge-patch+json",
            "Content-Length: 0",
        )
        self.passes(f"merge-patch m => {sent(f'PATCH {PATH}m HTTP/1.1', *empty)}")

    def test_agents(self) -> None:
        """One counts for what comes behind it."""
        get = f"GET {PATH}m HTTP/1.1"
        self.passes(
            "agent a b/1 => -",
            f"GET m => {sent(get, 'User-Agent: a b/1')}",
            "agent - => -",
            f"GET m => {sent(get)}",
        )

    def test_other_words(self) -> None:
        """They are told, and so is a step without a target."""
        self.fails("HEAD a => 200", "there is no step HEAD")
        self.fails("GET;text a => 200", "there is no step GET;text")
        self.fails("PATCH a {} => 200", "there is no step PATCH")
        self.fails("GET => 200", "the step has no target: GET")
        self.fails("gen.1 => 200", "the step has no target: gen.1")


class WhatIsServed(Played):
    """The programs, their options and types."""

    def test_types(self) -> None:
        """Those of cluster scope are left out unless they are asked for."""
        self.passes('GET kinds => 200 ["A"]')
        self.passes('GET kinds => 200 ["A", "B"]', what="all types")
        self.fails(
            "GET kinds => 200", "the heading names no types: some on none: why", "none"
        )

    def test_options(self) -> None:
        """Both programs have them."""
        self.passes('GET options => 200 ["--kubernetes", "--epoch", "0"]')

    def test_programs_that_end(self) -> None:
        """What they say is told."""
        with open(f"{self.programs}/broken", "w", encoding="utf-8"):
            pass
        why = "the server doesn't listen: status 1: no such option\n"
        self.fails("GET a => 200", why.removesuffix("\n"))


class WhatComes(Played):
    """Replies."""

    def test_lines(self) -> None:
        """A watch's lines are its body."""
        self.passes("GET w?watch=true => 200 one$1970-01-01T00:00:00Z$")

    def test_heads(self) -> None:
        """They are those of their status; one may say what is allowed."""
        first = sent(f"GET {PATH}allowed HTTP/1.1", AGENT).removeprefix("200")
        self.passes(f"GET allowed => 405{first}")

    def test_moments(self) -> None:
        """Over a socket it may be another."""
        self.passes('GET moment => 200 "1970-01-01T00:00:00Z"')
        came, wanted = '200 "1970-01-01T00:00:00Z"', '200 "1970-01-01T00:00:07Z"'
        self.fails(f"GET moment => {wanted}", f"came `{came}`, wanted `{wanted}`")

    def test_what_differs_over_a_socket(self) -> None:
        """It is told."""
        (first, *_) = self.said('GET name => 200 "ssa-pipe"')
        self.assertIn(":4: over a socket: ", first)
        self.assertIn('"ssa-server"', first)
        (first, *_) = self.said("GET ssa-server?watch=true => 200 one$two$")
        self.assertIn(":4: over a socket: ", first)
        with mock.patch.object(kubernetes, "SILENT", 0.2):
            (first, *_) = self.said("GET ssa-pipe?watch=true => 200 one$two$more$")
        self.assertIn(":4: over a socket: ", first)

    def test_what_is_no_reply(self) -> None:
        """Nothing, a body of another length, a chunk that is too short."""
        self.fails("GET nothing => 200", "no reply came: -")
        (first, *_) = self.said("GET longer => 200")
        self.assertIn(":4: the head is another: ", first)
        self.fails("GET chunk => 200", "no chunk is so long: 9")


if __name__ == "__main__":
    if set(sys.argv[1:]) & {"-h", "--help"}:
        sys.exit(__doc__)
    unittest.main(verbosity=2)
