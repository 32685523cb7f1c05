"""Parameters: what a server without discovery reads of a query, and with it where a row says `leniently`, as the reply shows it.

| step | what comes |
|---|---|
| `CALL ?QUERY` | the watch, the version, the force and the manager that are read of it, or the parameter at fault |
| `leniently CALL ?QUERY` | the same, read leniently |
| `dry run ?QUERY` | whether it asks for a dry run: an object that is created isn't there afterwards |
| `tiers ?QUERY` | whether a list's selector takes objects of the tiers `web` and `db` |
| `token ?QUERY` | a list's token, and the text of one of these parts |
| `values ?QUERY` | the limit of a list, its version and how that is matched |
| `fault ?QUERY` | how a list's fault is printed |

A server of widgets answers, which has the versions that a question needs. What a verb doesn't read is as without parameters.
"""

from __future__ import annotations

import json
from collections.abc import Iterator

from asking import Asked, Reply, widget
from players.names import word
from programs import Programs
from rows import Example, Wrong

# The message where a manager's name is at fault, which names no parameter.
BAD_MANAGER = "fieldManager: 1 to 128 printable characters"
BAD = "bad parameter: "
# The objects of a server, one at each version from 2 on.
NAMES = ["w1.old", "w2", "w3", "w4", "w5", "w6", "w7", "w8", "w9"]
# A watch ends at one of these milliseconds; just before it doesn't.
ENDS = (2_000, 2_147_483_647_000, 2_147_483_648_000)
SPEC = {"image": "b"}


class Refused(Exception):
    """A parameter is at fault."""


def checked(reply: Reply, *statuses: int) -> Reply:
    """A reply that has one of these statuses."""
    if reply.message == BAD_MANAGER:
        raise Refused("Bad(FieldManager)")
    if reply.status == 400 and reply.message.startswith(BAD):
        name = reply.message.removeprefix(BAD)
        raise Refused(f"Bad({name[0].upper()}{name[1:]})")
    if reply.status not in statuses:
        raise Wrong(f"{reply.status} {reply.message}")
    return reply


def values(watch: str, version: str, is_forced: bool, manager: str) -> str:
    """What is read, as rows have it."""
    return f"({watch}, {version}, {word(is_forced)}, {json.dumps(manager)})"


def newest_manager(reply: Reply, operation: str) -> str:
    """The one manager of an object beside `owner`, by this operation."""
    assert reply.value is not None
    entries = reply.value["metadata"]["managedFields"]
    found = [it for it in entries if it["manager"] != "owner"]
    if len(found) != 1 or found[0]["operation"] != operation:
        raise Wrong(f"managers {entries}")
    return str(found[0]["manager"])


def owned(hub: Asked) -> str:
    """The path of an object whose image another manager owns."""
    reply = hub.ask("PATCH", f"{hub.path('w1')}?fieldManager=owner", applied("a"))
    checked(reply, 201)
    return hub.path("w1")


def applied(image: str) -> str:
    """The body of an apply, or of a PUT."""
    value = {"apiVersion": "demo.example/v1", "kind": "Widget"}
    return json.dumps({**value, "spec": {"image": image}})


def of_apply(hub: Asked, query: str) -> str:
    """Whether a conflict stops it, and who made an object that wasn't there."""
    reply = checked(hub.ask("PATCH", owned(hub) + query, applied("b")), 200, 409)
    made = checked(hub.ask("PATCH", hub.path("new") + query, applied("b")), 201)
    manager = newest_manager(made, "Apply")
    return values("None", "None", reply.status == 200, manager)


def of_write(hub: Asked, call: str, query: str) -> str:
    """Who made an object, or took over a field; of a deletion nobody."""
    path = owned(hub)
    if call == "Delete":
        checked(hub.ask("DELETE", path + query), 200)
        return values("None", "None", False, "")
    if call == "Post":
        reply = checked(hub.create(widget("new", spec=SPEC), query), 201)
    else:
        reply = checked(hub.ask("PUT", path + query, applied("b")), 200)
    return values("None", "None", False, newest_manager(reply, "Update"))


def too_large(hub: Asked, target: str) -> str:
    """The version that a server hasn't which has none but the first."""
    reply = checked(hub.ask("GET", target), 200, 504)
    text, _, current = reply.message.partition(", current: ")
    if reply.status == 200:
        return "None"
    if not text.startswith("Too large resource version: ") or current != "1":
        raise Wrong(reply.message)
    return f"Some({text.rpartition(' ')[2]})"


def of_get(programs: Programs, options: list[str], query: str) -> str:
    """The version that an object, which is at version 2, is asked of."""
    with Asked(programs, *options) as hub:
        hub.made(widget("w1"))
        reply = checked(hub.ask("GET", hub.path("w1") + query), 200, 504)
    if reply.status == 200:
        return values("None", "None", False, "")
    version = reply.message.removeprefix("Too large resource version: ")
    return values("None", f"Some({version.removesuffix(', current: 2')})", False, "")


def lines_in(text: str) -> list[tuple[str, int]]:
    """The types of lines of a watch, and their versions."""
    lines = [json.loads(it) for it in text.splitlines() if it.startswith('{"type"')]
    return [(it["type"], version_in(it["object"])) for it in lines]


def version_in(value: dict[str, object]) -> int:
    """The version in the metadata of a value; 0 where there is none."""
    metadata = value["metadata"]
    assert isinstance(metadata, dict)
    return int(metadata.get("resourceVersion", 0))


def first_of(lines: list[tuple[str, int]]) -> str:
    """The version behind which a watch begins, by its first line: none where that is the first object."""
    if not lines or lines[0][0] != "ADDED":
        raise Wrong(f"the watch tells {lines}")
    return "None" if lines[0][1] == 2 else f"Some({lines[0][1] - 1})"


def of_watch(hub: Asked) -> str:
    """What a watch that is open tells: the versions that it knows, its bookmarks, and when it ends."""
    watch = hub.last
    version = first_of(lines_in(hub.on({"pump": [watch, 100]}).out[watch].decode()))
    checked(hub.create(widget("elsewhere"), namespace="other"), 201)
    hub.on({"pump": [watch, 100]})
    told = lines_in(hub.on({"tick": 1000}).out.get(watch, b"").decode())
    if told not in ([], [("BOOKMARK", len(NAMES) + 2)]):
        raise Wrong(f"the tick tells {told}")
    timeout = 0
    for end in ENDS:
        before, at = hub.all([{"tick": end - 1}, {"tick": end}])
        if before.ended:
            raise Wrong(f"the watch ends before {end} milliseconds")
        if at.ended:
            timeout = end // 1000
            break
    seen = f"Watch {{ has_bookmarks: {word(bool(told))}, timeout: {timeout} }}"
    return values(f"Some({seen})", version, False, "")


def of_list(programs: Programs, options: list[str], query: str) -> str:
    """The version of a list, or what a watch tells. (A page that goes on has the version of its token.)"""
    with Asked(programs, *options) as hub:
        hub.made(*(widget(it) for it in NAMES))
        text = hub.text("GET", hub.path() + query)
        if "\r\nTransfer-Encoding: chunked\r\n" in text:
            return of_watch(hub)
        exact = version_of_list(hub, query)
    with Asked(programs, *options) as hub:
        version = too_large(hub, hub.path() + query)
    if "continue=" in query:
        if version != exact:
            raise Wrong(f"a page goes on at {exact}, asked of {version}")
        version = "None"
    elif version == "None" and exact != f"Some({len(NAMES) + 1})":
        version = exact
    return values("None", version, False, "")


def version_of_list(hub: Asked, query: str) -> str:
    """The version that a list has; of one whose version isn't there, none."""
    reply = checked(hub.ask("GET", hub.path() + query), 200, 504)
    return f"Some({version_in(reply.value or {})})" if reply.status == 200 else "None"


def called(programs: Programs, call: str, query: str) -> str:
    """What is read of a query, or the parameter at fault."""
    lenient = call.removeprefix("leniently ")
    options = ["--discovery"] if lenient != call else []
    try:
        if lenient == "List":
            return of_list(programs, options, query)
        if lenient == "Get":
            return of_get(programs, options, query)
        with Asked(programs, *options) as hub:
            if lenient == "Apply":
                return of_apply(hub, query)
            return of_write(hub, lenient, query)
    except Refused as fault:
        return str(fault)


def is_dry_run(hub: Asked, query: str) -> str:
    """Whether an object that is created isn't there afterwards."""
    checked(hub.create(widget("new"), query), 201)
    return word(checked(hub.ask("GET", hub.path("new")), 200, 404).status == 404)


def tiers(hub: Asked, query: str) -> str:
    """Which of two objects a list has."""
    hub.made(widget("db", {"tier": "db"}), widget("web", {"tier": "web"}))
    names = checked(hub.ask("GET", hub.path() + query), 200).names
    return f"({word('web' in names)}, {word('db' in names)})"


def token(hub: Asked, query: str) -> str:
    """Behind which object of the list's version a page goes on, and the token of the page that ends there."""
    hub.made(*(widget(it, {"tier": "web"}) for it in NAMES))
    page = checked(hub.ask("GET", hub.path() + query), 200)
    version = version_in(page.value or {})
    whole = f"?resourceVersion={version}&resourceVersionMatch=Exact"
    names = checked(hub.ask("GET", hub.path() + whole), 200).names
    at = names.index(page.names[0])
    if at == 0:
        return "None"
    first = checked(hub.ask("GET", f"{hub.path()}{whole}&limit={at}"), 200)
    assert first.value is not None
    text = first.value["metadata"]["continue"]
    parts = f'revision: {version}, namespace: "default", name: "{names[at - 1]}"'
    return f'(Token {{ {parts} }}, "{text}")'


def list_values(programs: Programs, query: str) -> str:
    """How many objects a page has, which version is asked for, and whether the page is of that."""
    with Asked(programs) as hub:
        version = too_large(hub, hub.path() + query)
    with Asked(programs) as hub:
        hub.made(*(widget(it, {"tier": "web"}) for it in NAMES))
        page = checked(hub.ask("GET", hub.path() + query), 200)
    assert page.value is not None
    limit = len(page.names) if "continue" in page.value["metadata"] else 0
    is_exact = f"Some({version_in(page.value)})" == version
    return f"({limit}, {version}, Some({'Exact' if is_exact else 'NotOlderThan'}))"


def answer(programs: Programs, step: str) -> str:
    """What comes at a step."""
    call, _, query = step.partition(" ?")
    query = f"?{query}"
    if call == "values":
        return list_values(programs, query)
    if call not in ("dry run", "fault", "tiers", "token"):
        return called(programs, call, query)
    with Asked(programs, *(["--discovery"] if call == "dry run" else [])) as hub:
        if call == "dry run":
            return is_dry_run(hub, query)
        if call == "fault":
            return hub.ask("GET", hub.path() + query).message
        return (tiers if call == "tiers" else token)(hub, query)


def play(programs: Programs, example: Example) -> Iterator[str]:
    """What comes at each row of an example."""
    for row in example.rows:
        yield answer(programs, row.step)
