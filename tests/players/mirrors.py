"""What a client asks and tells of replies: `ssa-mirror`, which dials a server that answers by the rows, byte by byte.

Rows that begin with an event are played in turn on one client of all namespaces, two objects a page. Each other row has a
client of its own. A reply is one of those of `replies.py`.

| step | what comes |
|---|---|
| `ask` | what of the target of the request that is due stands behind the type's group and version; `none` while a request is under way |
| a reply, or `cut` (the connection ends) | what stands after it, if the connection then ends: the version, how many objects were told, and how many of them in `default`; then which came (`+`), changed (`*`) and went (`-`) |
| `after A;B <- C;D` | what stands after these events and then those, and what is asked next |
| `why A;B <- C;D` | why the reply was given up, after these events |
| `fronts A;B <- C;D` | as `after`, of each prefix of the bytes of C and D and a cut: each answer where it first comes |
| `cuts A;B <- C;D` | why the reply was given up, and as `after`, of these bytes in two pieces, wherever they are cut |
| `mirror TURNS R\\|R` | how so many connections end that are answered so, what is printed, how often a reply was given up, and why the last time |
| `line TEXT`, `any TEXT`, `object TEXT` of `decoded` | what a line of a watch in `default`, of one of all namespaces, or an added object with this text says, or what is wrong with it |
| `page TEXT` of `decoded` | the same of a list's body |
| `PAGE NAMESPACE` | the first target of a client with this page size and a selector, or why the settings are refused |
| `options WORD ..` | the exit status of these words behind a types file, and the text of their fault |
| `print TURNS PAGE NAMESPACE PLURAL SELECTOR` | what is printed of `REPLIES`, and how it ends |

The version that stands is that from which the client watches next; while it lists, the last one that it asked or told.
"""

from __future__ import annotations

import concurrent.futures
import functools
import json
import re
import threading
import time
from collections.abc import Callable, Iterable, Iterator
from typing import NamedTuple, TypeVar

from little_server import Mirrored
from programs import Programs
from replies import WATCH, chunk, replies, reply, whole
from rows import Example, Wrong

T = TypeVar("T")
# So many clients run at a time: mostly they wait, since one that gives up a reply asks again a second later.
MOST = 64
ROOM = threading.BoundedSemaphore(MOST)
SECONDS = 30
GIVEN_UP = "reply given up: "
EVENTS = (
    "ask",
    "cut",
    "page",
    "body",
    "status",
    "watch",
    "line",
    "text",
    "half",
    "end",
    "bytes",
)
REASONS = {
    "malformed HTTP reply": "MalformedHttp",
    "not the answer of a list": "NotAList",
    "not the answer of a watch": "NotAWatch",
    "a page of another revision than the first": "InconsistentList",
    "objects of a list that do not ascend by namespace and name": "NotAscending",
    "a change at a version that is not above the reported one": "StaleEvent",
    "a bookmark at a version below the reported one": "StaleBookmark",
    "the watch told an error": "ErrorEvent",
    "not JSON, or nested deeper than 127": "Json",
    "not an object where one is due": "Object",
    "apiVersion is not the one asked for": "ApiVersion",
    "kind is not the one expected": "Kind",
    "metadata is no object": "Metadata",
    "an object without a name": "Name",
    "an object without a namespace, or with another one": "Namespace",
    "resourceVersion is no version": "Version",
    "labels is not an object of strings": "Labels",
    "a number that is no 64-bit integer": "Number",
    "continue is not a string": "Token",
    "items is not a list": "Items",
    "unknown type of a line": "LineType",
}
# A list, a watch that adds and deletes and is cut, and one that goes on.
REPLIES = "page 6 - w1@2 w2@3|watch;line ADDED w3@7;line DELETED w1@8;half ADDED w4@9|watch;line ADDED w4@9"
REFUSALS = {
    "a page has 1 to 500 objects": "Page",
    "the namespace is no DNS label": "Namespace",
}


def reason(line: str) -> str:
    """Why a reply was given up, as the library calls it."""
    said = line.removeprefix(GIVEN_UP)
    status = re.fullmatch(r"status (\d+)", said)
    if status:
        return f"Status({status[1]})"
    front, _, malformed = said.partition("malformed page or line: ")
    if malformed and not front:
        return f"Malformed({REASONS[malformed]})"
    if line == said or said not in REASONS:
        raise Wrong(f"the mirror told {line!r}")
    return REASONS[said]


class Client:
    """A client that is played with, and what it told."""

    def __init__(self, programs: Programs, *options: str) -> None:
        ROOM.acquire()
        try:
            self.mirror = Mirrored(programs, options or ("--page", "2"))
        except BaseException:
            ROOM.release()
            raise
        self.target = ""
        # How many replies were given up when it asked.
        self.earlier = 0
        self.watched: int | None = None

    def __enter__(self) -> Client:
        return self

    def __exit__(self, *_: object) -> None:
        self.mirror.close()
        ROOM.release()

    def asked(self, target: str) -> str:
        """The client asked this."""
        self.target = target
        if target != "none":
            self.earlier = len(self.mirror.reasons)
            version = re.search(r"watch=true&resourceVersion=(\d+)", target)
            if version:
                self.watched = int(version[1])
        return target

    def happen(self, events: str) -> None:
        """Events with semicolons between them happen."""
        for event in events.split(";"):
            if event == "ask":
                self.asked(self.mirror.ask())
            elif event == "cut":
                self.mirror.cut()
            else:
                self.mirror.send(reply(event))

    def why(self) -> str:
        """Why the last reply was given up, now that its connection ends."""
        self.mirror.cut()
        if not self.mirror.waits(SECONDS, self.earlier):
            raise Wrong("the mirror neither asks again nor gives the reply up")
        found = self.mirror.reasons[self.earlier :]
        return f"Some({reason(found[-1])})" if found else "None"

    def after(self) -> str:
        """What the client asks, now that its connection ends."""
        self.mirror.cut()
        return self.asked(self.mirror.accept())

    def told(self) -> Told:
        """What the client has told until now."""
        return Told(self.target, self.watched, self.mirror.lines)


class Told(NamedTuple):
    """What a client asked last, from which version it watched last, and the lines that it printed."""

    target: str
    watched: int | None
    lines: list[str]

    def stands(self, earlier: int) -> str:
        """What stands, and what the lines behind so many earlier ones tell."""
        version, signs = self.watched, ""
        there: set[str] = set()
        for number, line in enumerate(self.lines):
            what, _, rest = line.partition(" ")
            if what == "synced":
                version = max(version or 0, int(rest))
                continue
            path, _, told = rest.partition(" ")
            sign = {"added": "+", "updated": "*", "deleted": "-"}[what]
            (there.discard if sign == "-" else there.add)(path)
            if sign != "-":
                version = max(version or 0, int(told))
            if number >= earlier:
                signs += f" {sign}{path.partition('/')[2]}"
        if "watch=true" in self.target:
            version = self.watched
        shown = "None" if version is None else f"Some({version})"
        default = sum(it.startswith("default/") for it in there)
        return f"({shown}, {len(there)}, {default}){signs}"


def run_to(programs: Programs, steps: list[str], at: int) -> Told:
    """What a client tells of the first events up to one, if its connection then ends."""
    with Client(programs) as client:
        for step in steps[: at + 1]:
            client.happen(step)
        if steps[at] == "ask":
            return client.told()
        client.after()
        return client.told()


def in_turn(programs: Programs, steps: list[str]) -> Iterator[str]:
    """What comes at events that are played in turn, each on a client that was told all before it."""
    earlier = 0
    runs = all_of(functools.partial(run_to, programs, steps), range(len(steps)))
    for step, told in zip(steps, runs):
        yield told.target if step == "ask" else told.stands(earlier)
        earlier = len(told.lines)


def after(programs: Programs, words: str) -> str:
    """What stands after events and then others, and what is asked next."""
    before, _, events = words.partition(" <- ")
    with Client(programs) as client:
        client.happen(before)
        earlier = len(client.mirror.lines)
        client.happen(events)
        target = client.asked(client.mirror.ask())
        return f"{client.told().stands(earlier)} {target}"


def why(programs: Programs, words: str) -> str:
    """Why the reply was given up."""
    with Client(programs) as client:
        client.happen(words.replace(" <- ", ";"))
        return client.why()


def cut_at(programs: Programs, word: str, words: str, at: int) -> str:
    """What comes of bytes that are cut at a place: of those before it and a cut, or of all in two pieces."""
    before, _, events = words.partition(" <- ")
    data = replies(events)
    with Client(programs) as client:
        client.happen(before)
        earlier, shown = len(client.mirror.lines), ""
        client.mirror.send(data[:at], is_whole=True)
        if word == "cuts":
            # (so that the mirror reads them for themselves)
            time.sleep(0.001)
            client.mirror.send(data[at:], is_whole=True)
            shown = client.why() + " "
        target = client.after()
        return f"{shown}{client.told().stands(earlier)} {target}"


def cut(programs: Programs, word: str, words: str) -> str:
    """Each answer where it first comes."""
    length = len(replies(words.partition(" <- ")[2]))
    ask = functools.partial(cut_at, programs, word, words)
    shown, last = "", ""
    for at, found in enumerate(all_of(ask, range(length + 1))):
        if found != last:
            shown += f"{at}: {found} | "
        last = found
    return shown


def served(mirror: Mirrored, all_replies: list[str]) -> int:
    """Answers each connection with the next of these; behind the last there is none. How the mirror ends."""
    for left, each in enumerate(all_replies, 1 - len(all_replies)):
        while not mirror.waits(0.01):
            if mirror.process.poll() is not None:
                return mirror.ended()
        mirror.accept()
        if not left:
            mirror.no_more()
        for word in each.split(";"):
            mirror.send(reply(word))
        mirror.cut()
    return mirror.ended()


def mirrored(programs: Programs, words: str) -> str:
    """How so many connections end, what is printed, how often a reply was given up, and why the last time."""
    turns, _, words = words.partition(" ")
    with Mirrored(programs, ["--page", "2", "--turns", turns]) as mirror:
        status = served(mirror, words.split("|"))
        said, found = mirror.told["out"].decode(), mirror.reasons
    refused = f"port {mirror.port}: Connection refused (os error 111)"
    if status == 6 and found[-1:] == [refused]:
        found.pop()
    elif status:
        raise Wrong(f"status {status}: {found}")
    last = f"Some({reason(found[-1])})" if found else "None"
    end = "no connection" if status else "done"
    return f'("{end}", Ok({json.dumps(said)}), {len(found)}, {last})'


def printed(programs: Programs, words: str) -> str:
    """What is printed of `REPLIES`, and how it ends."""
    turns, page, namespace, plural, selector = words.split(" ", 4)
    options = ["--turns", turns, "--page", page, f"--selector={selector}"]
    if namespace != "-":
        options += ["--namespace", namespace]
    with Mirrored(programs, options, plural) as mirror:
        status = served(mirror, REPLIES.split("|"))
        said, fault = mirror.told["out"].decode(), mirror.told["err"].decode().strip()
    fault = fault.replace(f"port {mirror.port}: ", "port 8001: ")
    fault = fault.replace("Connection refused (os error 111)", "connection refused")
    return f"({json.dumps(said)}, {json.dumps(f'{status}: {fault}' if status else 'done')})"


def refused(programs: Programs, words: str) -> str:
    """The exit status of words that are refused, and the text of their fault."""
    ran = programs.run("ssa-mirror", ["--types", "t", *words.split(" ")])
    return f"{ran.status}: {ran.err.decode().strip()}"


def settings(programs: Programs, step: str) -> str:
    """The first target of a client, or why its settings are refused."""
    page, _, namespace = step.partition(" ")
    options = ["--page", page, f"--namespace={namespace}", "--selector", "a=b,c!=d"]
    with Mirrored(programs, options) as mirror:
        while not mirror.waits(0.01):
            if mirror.process.poll() is not None:
                status, said = mirror.ended(), mirror.told["err"].decode().strip()
                if status != 2 or said not in REFUSALS:
                    raise Wrong(f"status {status}: {said}")
                return REFUSALS[said]
        return mirror.accept()


def decoded(programs: Programs, step: str) -> str:
    """What is wrong with a list's body or a watch's line, or what it says, where that is a version alone or an error."""
    word, _, text = step.partition(" ")
    options = ["--page", "2", *([] if word == "any" else ["--namespace", "default"])]
    with Client(programs, *options) as client:
        client.happen("ask")
        if word == "page":
            client.mirror.send(whole("200 OK", text).encode())
        else:
            client.happen("page 1 - w0@1;ask")
            if word == "object":
                text = f'{{"type":"ADDED","object":{text}}}'
            client.mirror.send((WATCH + chunk(text)).encode())
        fault = client.why().removeprefix("Some(").removesuffix(")")
        if fault == "ErrorEvent":
            return "Ok(Error)"
        if fault != "None":
            return f"Err({fault})"
        client.after()
        told = [it for it in client.mirror.lines if not it.endswith(" default/w0 1")]
    revision = client.watched
    if word == "page" and told == [f"synced {revision}"]:
        return f"Ok(Page {{ revision: {revision}, token: None, objects: [] }})"
    if word == "line" and told == ["synced 1"]:
        return f"Ok(Bookmark({revision}))"
    raise Wrong(f"the mirror told {told}, and watches from {revision}")


def all_of(ask: Callable[[int], T], places: Iterable[int]) -> Iterator[T]:
    """What comes at each place, in turn; many are asked at a time."""
    with concurrent.futures.ThreadPoolExecutor(MOST) as pool:
        yield from pool.map(ask, places)


WAYS = {
    "after": after,
    "why": why,
    "mirror": mirrored,
    "options": refused,
    "print": printed,
}


def answer(programs: Programs, example: Example, at: int) -> str:
    """What comes at a row that has a client of its own."""
    step = example.rows[at].step
    word, _, rest = step.partition(" ")
    if example.path.endswith("decoded.rows"):
        return decoded(programs, step)
    if word in ("fronts", "cuts"):
        return cut(programs, word, rest)
    if word in WAYS:
        return WAYS[word](programs, rest)
    if word.isdecimal():
        return settings(programs, step)
    raise Wrong(f"no step begins with {word}")


def play(programs: Programs, example: Example) -> Iterator[str]:
    """What comes at each row of an example."""
    steps = [it.step for it in example.rows]
    if steps[0].partition(" ")[0] in EVENTS and "decoded" not in example.path:
        return in_turn(programs, steps)
    return all_of(functools.partial(answer, programs, example), range(len(steps)))
