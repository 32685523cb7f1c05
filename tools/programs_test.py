#!/usr/bin/env python3
"""Tests the programs as processes: how they end, which fault is told first, and what a server tells, follows and disturbs.

    tools/programs_test.py [FOLDER]

FOLDER has the programs as a release names them (`ssa-server`); without FOLDER they are crates/NAME/out/NAME, as `rt run`
and the gate build them, and `ssa-pipe` is the gate's link beside `ssa_replay`. What calls answer are rows of tests/.
"""

import json
import os
import queue
import random
import re
import resource
import signal
import socket
import subprocess
import sys
import tempfile
import threading
import time
import unittest
from collections.abc import Callable, Iterator
from contextlib import contextmanager
from typing import Any

import released
from following import Follower

WIDGETS = "/apis/demo.example/v1/namespaces/default/widgets"
LIST = f"GET {WIDGETS} HTTP/1.1\r\nHost: localhost\r\n\r\n"
TYPE = "demo.example/v1/widgets"
UNKNOWN = f'refusal 1: unknown keyword "nullable" at {TYPE} .spec.tags'
# After so many seconds something has happened; a types file is looked at each second.
SECONDS, FOLLOWED = 60, 4
folder = ""


def types_text(list_type: str = "set", **more: object) -> str:
    """A types file with a list of this kind."""
    tags: dict[str, object] = {"type": "array", "items": {"type": "string"}, **more}
    tags["x-kubernetes-list-type"] = list_type
    spec = {"type": "object", "properties": {"tags": tags}}
    schema = {"type": "object", "properties": {"spec": spec}}
    names = {"group": "demo.example", "version": "v1", "kind": "Widget"}
    return json.dumps({"types": [{**names, "plural": "widgets", "schema": schema}]})


def path_of(name: str) -> str:
    """The path of a program."""
    name = name.replace("_", "-")
    return f"{folder}/{name}" if folder else released.built_file(name)


def run(name: str, *words: str, **how: Any) -> subprocess.CompletedProcess[str]:
    """Runs a program to its end."""
    how.setdefault("stdout", subprocess.PIPE)
    how.setdefault("timeout", SECONDS)
    how.setdefault("stdin", subprocess.DEVNULL)
    return subprocess.run(
        [path_of(name), *words],
        stderr=subprocess.PIPE,
        text=True,
        check=False,
        **how,
    )


def reply_to(port: int, request: str) -> str:
    """The whole reply to a request."""
    with socket.create_connection(("127.0.0.1", port), SECONDS) as stream:
        stream.sendall(request.encode())
        return b"".join(iter(lambda: stream.recv(65536), b"")).decode()


def applied(tags: list[str], name: str = "w1") -> str:
    """The request that applies an object with these tags."""
    body = json.dumps(
        {
            "apiVersion": "demo.example/v1",
            "kind": "Widget",
            "spec": {"tags": tags},
        }
    )
    return (
        f"PATCH {WIDGETS}/{name}?fieldManager=alice HTTP/1.1\r\nHost: localhost\r\n"
        "Content-Type: application/apply-patch+yaml\r\n"
        f"Content-Length: {len(body)}\r\n\r\n{body}"
    )


def closing(*numbers: int) -> Callable[[], None]:
    """What a child does before its program: these descriptors are closed."""

    def close() -> None:
        for number in numbers:
            os.close(number)

    return close


def without_room(size: int) -> Callable[[], None]:
    """What a child does before its program: no file may have more than so many bytes."""

    def limit() -> None:
        signal.signal(signal.SIGXFSZ, signal.SIG_IGN)
        resource.setrlimit(resource.RLIMIT_FSIZE, (size, size))

    return limit


class Server:
    """A server on a free port, and what it says on its standard error."""

    def __init__(self, *words: str, before: Callable[[], None] | None = None) -> None:
        self.process = subprocess.Popen(
            [path_of("ssa_server"), *words, "--port", "0"],
            stdin=subprocess.DEVNULL,
            stdout=subprocess.PIPE,
            stderr=subprocess.PIPE,
            text=True,
            preexec_fn=before,
        )
        assert self.process.stdout is not None
        self.port = int(self.process.stdout.readline().rpartition(":")[2])
        self.lines: queue.Queue[str] = queue.Queue()
        self.reader = threading.Thread(target=self.listen, daemon=True)
        self.reader.start()

    def listen(self) -> None:
        """Keeps the lines of the standard error."""
        assert self.process.stderr is not None
        for line in self.process.stderr:
            self.lines.put(line.rstrip("\n"))

    def said(self, seconds: float = SECONDS) -> str:
        """The next line of the standard error, or nothing after so many seconds."""
        try:
            return self.lines.get(timeout=seconds)
        except queue.Empty:
            return ""

    def end(self) -> None:
        """Ends the server, and what reads of it."""
        self.process.kill()
        self.process.wait()
        self.reader.join()
        for stream in (self.process.stdout, self.process.stderr):
            assert stream is not None
            stream.close()

    def version(self) -> str:
        """The version of the list."""
        return str(self.listed()["metadata"]["resourceVersion"])

    def listed(self) -> Any:
        """The list of all objects."""
        return json.loads(reply_to(self.port, LIST).partition("\r\n\r\n")[2])


@contextmanager
def serving(*words: str, before: Callable[[], None] | None = None) -> Iterator[Server]:
    """A server that is killed at the end of the block."""
    server = Server(*words, before=before)
    try:
        yield server
    finally:
        server.end()


@contextmanager
def unread(*words: str) -> Iterator[tuple[subprocess.Popen[str], int]]:
    """A server whose standard error nobody reads, and its port."""
    with subprocess.Popen(
        [path_of("ssa_server"), *words, "--port", "0"],
        stdin=subprocess.DEVNULL,
        stdout=subprocess.PIPE,
        stderr=subprocess.PIPE,
        text=True,
    ) as process:
        try:
            assert process.stdout is not None
            yield process, int(process.stdout.readline().rpartition(":")[2])
        finally:
            process.kill()


class InRoom(unittest.TestCase):
    """A test with a folder of its own and a types file in it."""

    def setUp(self) -> None:
        """Makes the folder."""
        room = tempfile.TemporaryDirectory(prefix="programs-")
        self.addCleanup(room.cleanup)
        self.room = room.name
        self.types = self.file("types.json", types_text())

    def file(self, name: str, text: str) -> str:
        """Puts a file, whole at once."""
        path = f"{self.room}/{name}"
        with open(f"{path}.new", "w", encoding="utf-8") as it:
            it.write(text)
        os.replace(f"{path}.new", path)
        return path

    def ends(self, row: str, status: int, said: str) -> None:
        """A program that is called so ends with this status and says this."""
        name, *words = row.split()
        with self.subTest(row):
            done = run(name, *words)
            ended = (done.returncode, done.stdout, done.stderr.rstrip("\n"))
            self.assertEqual(ended, (status, "", said))


class Ends(InRoom):
    """With which status programs end, and which of several faults is told."""

    def test_faults_of_a_server_in_order(self) -> None:
        """Words, the types file, the port."""
        none, text = f"{self.room}/none", self.file("text", "[")
        bad = self.file("bad", types_text(nullable=True))
        absent = f"types file {none}: No such file or directory (os error 2)"
        no_json = f"types file {text}: not JSON: EOF while parsing at line 1 column 1"
        refused = f"types file {bad}: {UNKNOWN}"
        number = "--port: a whole number from 0 to 65535"
        with socket.create_server(("127.0.0.1", 0)) as taken:
            port = taken.getsockname()[1]
            used = f"port {port}: Address already in use (os error 98)"
            for mode in ("", " --concurrent"):
                self.ends(f"ssa_server --types {none} --port x{mode}", 2, number)
                call = f"ssa_server --port {port}{mode} --types"
                for path, said in ((none, absent), (text, no_json), (bad, refused)):
                    self.ends(f"{call} {path}", 3, said)
                self.ends(f"{call} {self.types}", 6, used)

    def test_faults_of_a_mirror_in_order(self) -> None:
        """Words, the types file, what is asked of its types, the port."""
        none, bad = f"{self.room}/none", self.file("bad", "{}")
        absent = f"types file {none}: No such file or directory (os error 2)"
        refused = f"types file {bad}: refusal 6: not the form of a types file"
        with socket.create_server(("127.0.0.1", 0)) as taken:
            port = taken.getsockname()[1]
        call = f"ssa_mirror --port {port} --types"
        form = "--type: group/version/plural"
        self.ends(f"{call} {none} --type a/b --page 0", 2, form)
        self.ends(f"{call} {none} --type {TYPE} --page 0", 3, absent)
        self.ends(f"{call} {bad} --type a/b/c --page 0", 3, refused)
        no_type = "--type: the types file has no such type"
        self.ends(f"{call} {self.types} --type a/b/c --page 0", 2, no_type)
        page = "a page has 1 to 500 objects"
        self.ends(f"{call} {self.types} --type {TYPE} --page 0", 2, page)
        closed = f"port {port}: Connection refused (os error 111)"
        self.ends(f"{call} {self.types} --type {TYPE}", 6, closed)

    def test_faults_of_a_pipe_in_order(self) -> None:
        """Words, the types file, the page; by its other name the program wants a script."""
        none = f"{self.room}/none"
        absent = f"types file {none}: No such file or directory (os error 2)"
        number = "--page: a whole number from 0 to 4294967295"
        self.ends(f"ssa_pipe --types {none} --page x", 2, number)
        self.ends(f"ssa_pipe --types {none} --page 0", 3, absent)
        page = "--page: a page has 1 to 500 objects"
        self.ends(f"ssa_pipe --types {self.types} --page 0", 2, page)
        self.ends(f"ssa_pipe --types {self.types}", 0, "")
        for name, status in (("ssa_pipe", 0), ("ssa_replay", 2)):
            self.assertEqual(run(name, "--types", self.types).returncode, status)
            version = run(name, "--version").stdout
            self.assertEqual(version.split()[0], name.replace("_", "-"))

    def test_faults_of_words_and_first_objects(self) -> None:
        """A word that isn't one of the program's, one that is no text, a file that isn't there."""
        done = run("ssa_server", "--nothing")
        self.assertEqual((done.returncode, done.stdout), (2, ""))
        self.assertIn("unexpected argument '--nothing'", done.stderr)
        self.ends("ssa_server --types \udcff", 2, "an argument is not UTF-8")
        absent = f"{self.room}/none"
        said = f"objects file {absent}: No such file or directory (os error 2)"
        self.ends(f"ssa_server --types {self.types} --objects {absent}", 3, said)

    def test_an_input_that_fails(self) -> None:
        """A folder can't be read."""
        folder = os.open(self.room, os.O_RDONLY)
        self.addCleanup(os.close, folder)
        words = ("--types", self.types, "--type", TYPE)
        done = run("ssa_pipe", *words, stdin=folder)
        said = "standard input: Is a directory (os error 21)\n"
        self.assertEqual((done.returncode, done.stderr), (3, said))

    def test_full_output(self) -> None:
        """A server can't tell its port, a mirror no line."""
        said = "standard output: No space left on device (os error 28)\n"
        with open("/dev/full", "w", encoding="utf-8") as full:
            for mode in ((), ("--concurrent",)):
                done = run("ssa_server", "--types", self.types, *mode, stdout=full)
                self.assertEqual((done.returncode, done.stderr), (1, said))
            with serving("--types", self.types) as server:
                words = ("--types", self.types, "--type", TYPE)
                port = str(server.port)
                done = run("ssa_mirror", *words, "--port", port, stdout=full)
            self.assertEqual((done.returncode, done.stderr), (1, said))

    def test_help_that_cannot_be_written(self) -> None:
        """To a full device, and to an output that is closed."""
        full_said = "standard output: No space left on device (os error 28)\n"
        closed_said = "standard output: Bad file descriptor (os error 9)\n"
        for name in ("ssa_server", "ssa_replay", "ssa_pipe", "ssa_loop", "ssa_mirror"):
            for word in ("--help", "--version"):
                with self.subTest(name, word=word):
                    with open("/dev/full", "w", encoding="utf-8") as full:
                        done = run(name, word, stdout=full)
                    self.assertEqual((done.returncode, done.stderr), (1, full_said))
                    done = run(name, word, preexec_fn=closing(1))
                    self.assertEqual((done.returncode, done.stderr), (1, closed_said))
                    self.assertEqual(run(name, word).returncode, 0)

    def test_signals(self) -> None:
        """Each ends a server that serves."""
        for number in (signal.SIGTERM, signal.SIGINT, signal.SIGHUP, signal.SIGQUIT):
            for mode in ((), ("--concurrent",)):
                words = ("--types", self.types, *mode)
                with self.subTest(number.name, mode=mode), serving(*words) as server:
                    self.assertEqual(server.version(), "1")
                    server.process.send_signal(number)
                    self.assertEqual(server.process.wait(SECONDS), -number)

    def test_so_many_connections(self) -> None:
        """A server ends well once it has served as many as it is told."""
        for mode in ((), ("--concurrent",)):
            words = ("--types", self.types, "--serve", "2", *mode)
            with self.subTest(mode), serving(*words) as server:
                self.assertEqual(server.version(), "1")
                time.sleep(1)
                self.assertIsNone(server.process.poll())
                self.assertEqual(server.version(), "1")
                self.assertEqual(server.process.wait(SECONDS), 0)


class Follows(InRoom):
    """A server of many connections follows its types file, one in turn does not."""

    def becomes(
        self, server: Server, list_type: str, said: str, **more: object
    ) -> None:
        """The file gets a list of another kind, and the server says this."""
        self.file("types.json", types_text(list_type, **more))
        self.assertEqual(server.said(FOLLOWED), f"types file {self.types}: {said}")

    def owned(self, server: Server) -> Any:
        """Who owns what of the only object."""
        (found,) = server.listed()["items"]
        return found["metadata"]["managedFields"][0]["fieldsV1"]["f:spec"]["f:tags"]

    def test_a_changed_file_is_served(self) -> None:
        """What is refused is told, and the types that were served stay."""
        with serving("--types", self.types, "--concurrent") as server:
            reply_to(server.port, applied(["b", "a"]))
            self.assertEqual(self.owned(server), {'v:"a"': {}, 'v:"b"': {}})
            self.becomes(server, "atomic", "served at revision 3")
            self.assertEqual((server.version(), self.owned(server)), ("3", {}))
            self.becomes(server, "atomic", UNKNOWN, nullable=True)
            self.becomes(server, "set", "not a lawful change of types")
            os.remove(self.types)
            absent = f"types file {self.types}: No such file or directory (os error 2)"
            self.assertEqual(server.said(FOLLOWED), absent)
            self.assertEqual(server.said(2.5), "")
            reply_to(server.port, applied(["c", "c"]))
            self.assertEqual((server.version(), self.owned(server)), ("4", {}))
            self.becomes(server, "atomic", "served at revision 4")

    def test_no_file_is_followed_in_turn(self) -> None:
        """The types stay those of the start."""
        with serving("--types", self.types) as server:
            reply_to(server.port, applied(["b", "a"]))
            self.file("types.json", types_text("atomic"))
            self.assertEqual(server.said(2.5), "")
            self.assertEqual(server.version(), "2")


class Tells(InRoom):
    """What a server logs and records."""

    def test_a_log_and_a_record(self) -> None:
        """A line for each request; a script that gives each reply again."""
        line = re.compile(r"\d+\.\d{3} (\d+) (\S+) (\S+) (\d+) (\d+) (\S+) \d+\.\d{3}")
        for mode in ((), ("--concurrent",)):
            script = f"{self.room}/script{len(mode)}"
            words = ("--types", self.types, "--log", "--record", script, *mode)
            with self.subTest(mode), serving(*words) as server:
                asked = (applied(["a"]), LIST, "GET /nothing HTTP/1.1\r\n\r\n")
                replies = [reply_to(server.port, it) for it in asked]
                told = [line.fullmatch(server.said()) for _ in asked]
                wanted = [
                    (*it.split()[:2], reply.split()[1], str(len(reply)), manager)
                    for it, reply, manager in zip(asked, replies, ("alice", "-", "-"))
                ]
                self.assertEqual([it and it.groups()[1:] for it in told], wanted)
                ids = [it and int(it[1]) for it in told]
                played = run("ssa_replay", "--types", self.types, "--script", script)
                printed = "".join(
                    f"connection {id} {len(reply)}\n{reply}\n"
                    for id, reply in zip(ids, replies)
                )
                # (what a program prints is read with line ends of one kind)
                self.assertEqual(played.stdout, printed.replace("\r\n", "\n"))

    def test_closed_standard_streams(self) -> None:
        """What is told on a closed one is in no reply and in no record."""
        for numbers in ((2,), (0, 2), (0, 1, 2)):
            for mode in ((), ("--concurrent",)):
                script = f"{self.room}/script{len(numbers)}{len(mode)}"
                words = ("--types", self.types, "--log", "--record", script, *mode)
                with self.subTest(numbers, mode=mode):
                    if 1 in numbers:
                        # (nobody can be told the port)
                        done = run("ssa_server", *words, preexec_fn=closing(*numbers))
                        self.assertEqual((done.returncode, done.stderr), (1, ""))
                        continue
                    with serving(*words, before=closing(*numbers)) as server:
                        replies = [reply_to(server.port, LIST) for _ in range(3)]
                        for reply in replies:
                            self.assertTrue(reply.startswith("HTTP/1.1 200 "), reply)
                    with open(script, encoding="utf-8") as it:
                        for line in it:
                            json.loads(line)

    def test_a_log_that_nobody_reads(self) -> None:
        """Requests are answered once a pipe is full, and what was left out is counted."""
        count = 2000
        counted = re.compile(r"(\d+) lines were left out, since nobody read them")
        for mode in ((), ("--concurrent",)):
            words = ("--types", self.types, "--log", *mode)
            with self.subTest(mode), unread(*words) as (process, port):
                for _ in range(count):
                    self.assertIn(" 200 OK", reply_to(port, LIST))
                assert process.stderr is not None
                lines = [process.stderr.readline() for _ in range(500)]
                reply_to(port, LIST)
                while not (found := counted.fullmatch(lines[-1].rstrip("\n"))):
                    lines.append(process.stderr.readline())
                kept = len(lines) - 1
                self.assertEqual(kept + int(found[1]), count)
                self.assertIn(f"GET {WIDGETS} 200 ", process.stderr.readline())

    def test_a_record_without_room(self) -> None:
        """It ends with a whole line, and can be played."""
        for size in (1000, 1001, 1500):
            script = f"{self.room}/script{size}"
            words = ("--types", self.types, "--record", script)
            with self.subTest(size), serving(*words, before=without_room(size)) as it:
                for n in range(5):
                    self.assertIn(" 201 ", reply_to(it.port, applied(["a"], f"w{n}")))
                said = f"record {script}: File too large (os error 27)"
                self.assertEqual(it.said(), said)
            with open(script, encoding="utf-8") as lines:
                text = lines.read()
            self.assertTrue(0 < len(text) <= size and text.endswith("\n"), text)
            played = run("ssa_replay", "--types", self.types, "--script", script)
            self.assertEqual(played.returncode, 0)


def kind_after(seed: int, version: int) -> str:
    """How a watch is disturbed by a seed once another version follows this one, as a log says it; empty if none is."""
    word = (seed + (version + 1) * 0x9E3779B97F4A7C15) % 2**64
    word = (word ^ word >> 30) * 0xBF58476D1CE4E5B9 % 2**64
    word = (word ^ word >> 27) * 0x94D049BB133111EB % 2**64
    word ^= word >> 31
    return ("cut", "held back", "expired")[word // 4 % 3] if word % 4 == 0 else ""


class Disturbs(InRoom):
    """A server that disturbs watches by a seed."""

    def told(self, server: Server) -> list[str]:
        """How watches were disturbed by now, by the log."""
        # (the end of a watch of two seconds is told in a later turn than what was written before)
        ends = f"GET {WIDGETS}?watch=true&timeoutSeconds=2"
        reply_to(server.port, f"{ends} HTTP/1.1\r\nHost: localhost\r\n\r\n")
        lines: list[str] = []
        while f" {ends} ended " not in (line := server.said()):
            self.assertNotEqual(line, "")
            lines.append(line)
        return [it.partition(": ")[2] for it in lines if " disturbed: " in it]

    def test_the_sequence_of_a_seed(self) -> None:
        """The words of SplitMix64, by version; of one kind they are the same, without the others."""
        writes = 200
        for seed in (7, 8, 2**64 - 1):
            disturb = ("--concurrent", "--log", "--disturb", f"{seed}:holds")
            with self.subTest(seed), serving("--types", self.types, *disturb) as server:
                watch = f"GET {WIDGETS}?watch=true HTTP/1.1\r\nHost: localhost\r\n\r\n"
                with socket.create_connection(("127.0.0.1", server.port), SECONDS) as it:
                    it.sendall(watch.encode())
                    self.assertTrue(it.recv(65536).startswith(b"HTTP/1.1 200 "))
                    for n in range(writes):
                        reply_to(server.port, applied([str(n)]))
                    told = self.told(server)
                kinds = [kind_after(seed, version) for version in range(1, 1 + writes)]
                self.assertEqual(told, ["held back"] * kinds.count("held back"))

    def test_followers_hold_its_objects(self) -> None:
        """Three clients that list and watch by the rules, while 200 writes come; the record plays them again."""
        script = f"{self.room}/script"
        disturb = ("--concurrent", "--log", "--record", script, "--disturb", "7")
        draws = random.Random(7)
        with serving("--types", self.types, *disturb) as server:
            following = [Follower(server.port, WIDGETS) for _ in range(3)]
            for it in following:
                it.start()
            for n in range(200):
                name = f"w{draws.randrange(40)}"
                gone = f"DELETE {WIDGETS}/{name} HTTP/1.1\r\nHost: localhost\r\n\r\n"
                is_gone = draws.random() < 0.2
                reply_to(server.port, gone if is_gone else applied([str(n)], name))
            reply = reply_to(server.port, LIST)
            listed = json.loads(reply.partition("\r\n\r\n")[2])
            held = {it["metadata"]["name"]: it for it in listed["items"]}
            for it in following:
                self.assertEqual(it.ended_at(int(listed["metadata"]["resourceVersion"])), held)
            self.assertEqual({*self.told(server)}, {"cut", "held back", "expired"})
        with open(script, "rb+") as record:
            # (a server that is killed may leave half a line)
            text = record.read()
            record.truncate(text.rfind(b"\n") + 1)
        played = run("ssa_replay", "--types", self.types, "--script", script)
        self.assertEqual(played.returncode, 0)
        self.assertIn(reply.replace("\r\n", "\n"), played.stdout)


if __name__ == "__main__":
    if set(sys.argv[1:]) & {"-h", "--help"}:
        sys.exit(__doc__)
    folder = os.path.realpath(sys.argv[1]) if sys.argv[1:] else ""
    unittest.main(argv=sys.argv[:1], verbosity=2)
