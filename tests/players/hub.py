"""Rows of a server of connections: what requests are answered, what watches are told, and why events are refused.

A heading is `NAME on WHAT: WHY`. WHAT is `widgets`, `ports` (widgets with a list of ports), `status` (widgets with a
status), `each kind` (widgets with each kind of list, and summaries), the last also with `two revisions left`, or `the last
revision` (widgets, where one revision is left); `discovered widgets`, `discovered widgets with a status` and `discovered
tags` are of types that documents tell of. `: WHY` may be absent.

| step | what happens |
|---|---|
| `open K`, `open A B` | a connection opens, or each from A to B |
| `ask K METHOD TARGET BODY` | a request comes in one piece on K, which opens unless it waits |
| `bytes K METHOD TARGET BODY` | it comes byte by byte, on K that waits, and nothing is written before the last |
| `apart K METHOD TARGET BODY` | the same, and after each byte but the last a get of the target finds nothing (`pieces`) |
| `in K TEXT`, `gone K`, `pump K N`, `tick MS`, `compact C` | the event |
| `types 0 NAME` | the types of this file are served, or of this JSON value |
| `told K METHOD TARGET BODY`, `got K METHOD TARGET BODY` | as `ask`; nothing without METHOD TARGET BODY |
| `serve A B METHOD TARGET BODY` | on each from A to B, one after another: it opens, the request comes, its reply is taken |
| `pumped A B N` | each from A to B may write so many lines: what each wrote, if that is the same |
| `cut K TEXT` | bytes come in two pieces, wherever they are cut, on connections from K on (`pieces`) |
| `fronts 0 EXAMPLES` | every prefix of what comes at each row of a file of examples comes (`pieces`) |
| `out K` | no event; the bytes that are out on K are taken |
| `take K N` | the next N of them are taken: how many are left |
| `stand K` | no event: how many are out, whether K waits, whether it has ended |

The answer of an event is why it is refused, or the bytes that then are out on connection 1, which are taken; of an `ask` on
another connection it is the status of its reply, which stays out. Of `told` it is the status of the reply on K, and its
message or else the version of its object; of `got` the status and the body. The head of a reply, and the body of a refusal
that has no details, must be those of its status (`requests_and_replies`). All are shown in one line (`texts`).
"""

from __future__ import annotations

import json
import os
from collections.abc import Iterator

import rows
from pieces import comes_apart, comes_by_bytes, cut_anywhere, prefixes_of
from programs import TOP, Programs
from requests_and_replies import in_words, request_of, status_of
from rows import Example, Wrong
from served import Served, bytes_come, request_comes
from texts import bytes_of, line_of

FOLDER = f"{TOP}/tests/hub"
# The types file of each WHAT, and the options of the program.
DISCOVERY = ("--discovery",)
ON = {
    "widgets": ("widgets", ()),
    "discovered widgets": ("widgets", DISCOVERY),
    "ports": ("ports", ()),
    "status": ("status", ()),
    "each kind": ("each_kind", ()),
    "discovered widgets with a status": ("status", DISCOVERY),
    "discovered tags": ("tags", DISCOVERY),
    "the last revision": ("widgets", ("--revision", "9223372036854775806")),
    "each kind, two revisions left": (
        "each_kind",
        ("--revision", "9223372036854775805"),
    ),
}
# The types files that `types` rows name.
TYPES = {
    "as before": "each_kind",
    "ports atomic": "ports_atomic",
    "all atomic": "all_atomic",
}
# The files that `fronts` rows name.
EXAMPLES = {
    "single objects": "single_objects",
    "lists": "lists",
    "watches": "watches",
    "connections": "connections",
    "status": "status",
    "types": "types",
}


def types_text(name: str) -> str:
    """The text of a types file."""
    with open(f"{FOLDER}/types/{name}.json", encoding="utf-8") as it:
        return it.read()


def parts_of(step: str) -> tuple[str, int, str]:
    """The word, the number and the rest of a step."""
    word, _, rest = step.partition(" ")
    number, _, rest = rest.partition(" ")
    return word, int(number), rest


def requests_in(path: str) -> Iterator[bytes]:
    """The bytes that come at each row of a file, of its request or as they are, where some do."""
    for example in rows.examples_of(path):
        for row in example.rows:
            word, _, rest = parts_of(row.step)
            if word == "in":
                yield bytes_of(rest)
            elif word in ("apart", "ask", "bytes", "told", "got") and rest:
                yield request_of(rest)


def happens(served: Served, word: str, id: int, rest: str) -> str | None:
    """The event of a step happens: why it is refused, if it is."""
    match word:
        case "in":
            return served.on(bytes_come(id, bytes_of(rest)))
        case "open" if rest:
            ids = range(id, int(rest) + 1)
            return next(filter(None, (served.on({"open": it}) for it in ids)), None)
        case "open" | "gone" | "tick" | "compact":
            return served.on({word: id})
        case "pump":
            return served.on({word: [id, int(rest)]})
        case "types":
            is_named = rest in TYPES
            text = types_text(TYPES[rest]) if is_named else rest
            return served.on({word: json.loads(text)})
    raise Wrong(f"there is no step {word}")


def acts(served: Served, word: str, id: int, rest: str) -> str | None:
    """What happens at a step: why it is refused, if it is. At one that only looks nothing does. Where a request comes, its
    connection opens before; that is refused, and changes nothing, where it waits."""
    match word:
        case "out" | "take" | "stand":
            return None
        case "told" | "got" if not rest:
            return None
        case "ask" | "told" | "got":
            *_, why = served.each(request_comes(id, request_of(rest)))
            return why
        case "bytes":
            comes_by_bytes(served, id, rest)
        case "apart":
            comes_apart(served, id, rest)
        case "fronts":
            prefixes_of(served, requests_in(f"{FOLDER}/{EXAMPLES[rest]}.rows"))
        case "serve":
            last, _, line = rest.partition(" ")
            for each in range(id, int(last) + 1):
                served.does(*request_comes(each, request_of(line)))
                served.take(each)
        case _:
            return happens(served, word, id, rest)
    return None


def stands(served: Served, id: int) -> str:
    """How many bytes are out on a connection, whether it waits, whether it has ended."""
    is_so = (served.wants(id), served.has_ended(id))
    return (
        f"{len(served.out(id))} {' '.join('true' if it else 'false' for it in is_so)}"
    )


def seen(served: Served, word: str, id: int, rest: str) -> str:
    """What is seen behind a step."""
    match word:
        case "out":
            return served.received(id)
        case "take":
            served.take(id, int(rest))
            return f"{len(served.out(id))}"
        case "stand":
            return stands(served, id)
        case "told" | "got":
            return in_words(served.received(id), word == "got")
        case "ask" if id != 1:
            return status_of(line_of(served.out(id))) or "-"
    return served.received(1)


def pumped(served: Served, first: int, words: str) -> str:
    """Watches are pumped, from one to another, each for so many lines: what each wrote, if that is the same."""
    last, lines = (int(it) for it in words.split(" "))
    answer = ""
    for id in range(first, last + 1):
        served.on({"pump": [id, lines]})
        came = served.received(id)
        if id != first and came != answer:
            raise Wrong(f"{id} wrote another than {first}: {came}")
        answer = came
    return answer


def answer_to(served: Served, step: str) -> str:
    """What comes at a step."""
    word, id, rest = parts_of(step)
    match word:
        case "cut":
            return cut_anywhere(served, id, bytes_of(rest))
        case "pumped":
            return pumped(served, id, rest)
    return acts(served, word, id, rest) or seen(served, word, id, rest)


def play(programs: Programs, example: Example) -> Iterator[str]:
    """What comes at each row of an example, on a server of its own."""
    heading, _, _ = example.heading.partition(": ")
    _, _, what = heading.rpartition(" on ")
    if what not in ON:
        raise Wrong(f"the heading names no server: {example.heading}")
    name, options = ON[what]
    with Served(programs, types_text(name), options) as served:
        for row in example.rows:
            yield answer_to(served, row.step)
