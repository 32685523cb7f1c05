"""A hub: requests, watches that move when they are pumped, and the script."""

from __future__ import annotations

import json
import subprocess
import tempfile
import threading
import unittest

from nazhuvem import EventRefused, Hub, PipeFailed, Refusal, find
from nazhuvem.connection import Chunks
from nazhuvem.stream import HTTPConnection
from tests.common import TYPES, WIDGETS, types_and_names, widget


class HubTest(unittest.TestCase):
    """Each test has a hub of its own."""

    def setUp(self) -> None:
        self.hub = Hub(TYPES)
        self.addCleanup(self.hub.close)

    def create(self, *names: str) -> None:
        """Creates widgets."""
        for name in names:
            self.assertEqual(
                self.hub.request("POST", WIDGETS, widget(name)).status, 201
            )


class Requests(HubTest):
    """Replies, and what is refused."""

    def test_apply_conflict_and_force(self) -> None:
        apply = self.hub.apply
        self.assertEqual(apply("alice", WIDGETS + "/w", widget(image="a")).status, 201)
        refused = apply("bob", WIDGETS + "/w", widget(image="b"), check=False)
        self.assertEqual(refused.status, 409)
        self.assertEqual(refused.value["details"]["causes"][0]["field"], ".spec.image")
        forced = apply("bob", WIDGETS + "/w", widget(image="b"), force=True)
        self.assertEqual(forced.value["spec"], {"image": "b"})
        self.assertEqual(self.hub.revision(), 3)

    def test_texts_of_any_script(self) -> None:
        text = "Grüße, 你好 \U0001f600 \u2028 \x7f"
        self.hub.apply("alice", WIDGETS + "/w", widget(image=text))
        read = self.hub.request("GET", WIDGETS + "/w").value
        self.assertEqual(read["spec"]["image"], text)

    def test_query(self) -> None:
        self.create("a", "b")
        page = self.hub.request("GET", WIDGETS, query={"limit": 1}).value
        self.assertEqual([it["metadata"]["name"] for it in page["items"]], ["a"])

    def test_types_as_a_value(self) -> None:
        with Hub(json.loads(TYPES.read_text())) as hub:
            self.assertEqual(hub.request("GET", WIDGETS).status, 200)

    def test_options(self) -> None:
        hubs = Hub(TYPES), Hub(TYPES, page=1), Hub(TYPES, "--page", "1")
        for hub, is_whole in zip(hubs, (True, False, False)):
            with hub:
                for name in ("a", "b"):
                    hub.request("POST", WIDGETS, widget(name))
                hub.event({"client": "send"})
                hub.event({"toServer": 1000})
                report = hub.event({"toClient": 1000}).report
                self.assertEqual(report is not None, is_whole)

    def test_bad_types_are_told(self) -> None:
        with self.assertRaisesRegex(PipeFailed, "types file"):
            Hub({"types": 1})


class Watches(HubTest):
    """Nothing comes but what the test lets come."""

    def test_lines_come_when_pumped(self) -> None:
        self.create("a", "b")
        watch = self.hub.watch(WIDGETS)
        self.assertEqual(watch.lines(), [])
        self.assertEqual(types_and_names(watch.pump(1)), [("ADDED", "a")])
        self.hub.request("DELETE", WIDGETS + "/a")
        self.assertEqual(
            types_and_names(watch.pump()), [("ADDED", "b"), ("DELETED", "a")]
        )

    def test_cut_watch_goes_on(self) -> None:
        watch = self.hub.watch(WIDGETS, query={"resourceVersion": 1})
        watch.cut()
        self.create("a")
        self.assertEqual((watch.pump(), watch.ended), ([], True))
        again = self.hub.watch(WIDGETS, query={"resourceVersion": 1})
        self.assertEqual(types_and_names(again.pump()), [("ADDED", "a")])

    def test_compaction(self) -> None:
        self.create("a", "b")
        watch = self.hub.watch(WIDGETS, query={"resourceVersion": 1})
        self.hub.compact()
        (line,) = watch.pump()
        self.assertEqual((line["type"], line["object"]["code"]), ("ERROR", 410))
        self.assertTrue(watch.ended)
        with self.assertRaises(Refusal) as refused:
            self.hub.watch(WIDGETS, query={"resourceVersion": 1})
        self.assertEqual(refused.exception.status, 410)

    def test_bookmark_and_timeout(self) -> None:
        query = {"allowWatchBookmarks": True, "timeoutSeconds": 2}
        watch = self.hub.watch(WIDGETS, query=query)
        watch.pump()
        self.hub.tick()
        self.assertEqual(types_and_names(watch.lines()), [("BOOKMARK", "")])
        self.hub.tick()
        self.assertTrue(watch.ended)

    def test_held_lines_come_later(self) -> None:
        watch = self.hub.watch(WIDGETS)
        self.create("a")
        self.hub.hold()
        self.assertEqual(watch.pump(), [])
        self.assertEqual(types_and_names(watch.pump()), [("ADDED", "a")])

    def test_all_watches_are_pumped(self) -> None:
        watches = [self.hub.watch(WIDGETS) for _ in range(3)]
        self.create("a")
        self.hub.pump()
        for watch in watches:
            self.assertEqual(types_and_names(watch.lines()), [("ADDED", "a")])


class Scripts(HubTest):
    """What has happened, and any line of a script."""

    def test_what_is_refused(self) -> None:
        with self.assertRaisesRegex(EventRefused, "compacted already"):
            self.hub.compact(99)
        with self.assertRaises(EventRefused):
            self.hub.event({"pmup": [1, 1]})
        self.create("a")
        self.assertNotIn("pmup", self.hub.script())

    def test_types_change(self) -> None:
        types = json.loads(TYPES.read_text())
        spec = types["types"][0]["schema"]["properties"]["spec"]["properties"]
        del spec["tags"]["x-kubernetes-list-type"]
        self.hub.serve_types(types)
        del spec["image"]
        with self.assertRaisesRegex(EventRefused, "not a lawful change"):
            self.hub.serve_types(types)

    def test_the_programs_client(self) -> None:
        self.hub.event({"client": "send"})
        self.hub.event({"toServer": 1000})
        report = self.hub.event({"toClient": 1000}).report
        assert report is not None
        self.assertEqual((report["revision"], report["objects"]), (1, 0))
        self.create("a")

    def test_script_is_played_again(self) -> None:
        try:
            program = find("ssa-replay")
        except FileNotFoundError:
            self.skipTest("ssa-replay isn't here")
        watch = self.hub.watch(WIDGETS)
        self.create("a")
        (line,) = watch.pump()
        with tempfile.NamedTemporaryFile("w+", suffix=".jsonl") as file:
            self.hub.save(file.name)
            words = [program, "--types", str(TYPES), "--script", file.name]
            done = subprocess.run(words, capture_output=True, text=True, check=True)
        self.assertIn(line["object"]["metadata"]["resourceVersion"], done.stdout)
        self.assertIn('{"type":"ADDED"', done.stdout)

    def test_same_calls_same_bytes(self) -> None:
        self.create("a", "b")
        with Hub(TYPES) as other:
            for name in ("a", "b"):
                other.request("POST", WIDGETS, widget(name))
            self.assertEqual(other.script(), self.hub.script())


class Streams(HubTest):
    """A hub for clients that read bytes."""

    def test_http_client(self) -> None:
        self.create("a")
        connection = HTTPConnection(self.hub)
        connection.request("GET", WIDGETS + "/a")
        with connection.getresponse() as reply:
            self.assertEqual((reply.status, json.load(reply)["kind"]), (200, "Widget"))

    def test_a_read_moves_its_watch(self) -> None:
        self.create("a", "b")
        connection = HTTPConnection(self.hub)
        connection.request("GET", WIDGETS + "?watch=true&timeoutSeconds=3")
        lines = [json.loads(line) for line in connection.getresponse()]
        self.assertEqual(types_and_names(lines)[:2], [("ADDED", "a"), ("ADDED", "b")])
        self.assertEqual(self.hub.milliseconds, 3000)

    def test_another_thread_waits_for_the_pump(self) -> None:
        connection = HTTPConnection(self.hub)
        connection.request("GET", WIDGETS + "?watch=true")
        lines: list[bytes] = []
        reply = connection.getresponse()
        reader = threading.Thread(target=lambda: lines.append(reply.readline()))
        reader.start()
        self.create("a")
        self.hub.pump()
        reader.join(10)
        self.assertEqual(types_and_names([json.loads(lines[0])]), [("ADDED", "a")])


class ChunkTest(unittest.TestCase):
    """The reader of a chunked body."""

    def test_in_any_pieces(self) -> None:
        text = b"3\r\nabc\r\n1\r\nd\r\n0\r\n\r\n"
        for cut in range(len(text) + 1):
            chunks = Chunks()
            self.assertEqual(chunks.feed(text[:cut]) + chunks.feed(text[cut:]), b"abcd")


if __name__ == "__main__":
    unittest.main()
