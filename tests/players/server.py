"""Rows of `ssa-server` as a process: its arguments and files, and what its connections get.

A heading is `NAME on WHAT: WHY`; `: WHY` may be absent.

| WHAT | step | what comes |
|---|---|---|
| `arguments` | the words behind the program's name | its status and what it tells, `2: --port: ..` |
| `types files` | the text of the types file `f` | the same |
| `objects` | the lines of an objects file | the version after all of them, or what is told of the first bad line |
| `turns` | `OBJECTS SIZE` | how many lines turn after turn of a watch tells, of so many objects with an image of so many letters |
| `a server OPTIONS` | as below | |

A program tells on its standard output, or, where its status isn't 0, on its standard error, whose last line feed isn't shown.
Where `..` stands last in what is wanted, what is told goes on. A server has the types of `hub/types/widgets.json`.

| step of a server | what happens |
|---|---|
| `send TEXT` | a connection opens, and sends this; it is the next one, from 0. TEXT may be a name (`streams`) |
| `close K` | connection K sends no more |
| `drop K` | its peer goes, and the next one takes its place |
| `turn` | a list on a connection of its own is answered: what was sent before was seen |
| `hear K` | the text of this name comes on K, and then its end, or nothing for now where it is a watch that stays |
| `told` | the next line of the log, without its time and its milliseconds |
| `ended` | the server ends by itself: its status |

`-` comes of steps that only do something. Texts are shown in one line (`texts`).
"""

from __future__ import annotations

import os
import tempfile
from collections.abc import Iterator

from programs import TOP, Programs
from rows import Example, Row, Wrong
from streams import NAMED, Server, expect_received, lines_of_turns
from texts import bytes_of, line_of

TYPES = f"{TOP}/tests/hub/types/widgets.json"


def told(programs: Programs, words: list[str], where: str) -> str:
    """How the program ends that is called so, and what it tells, in one line."""
    # (in a release a script of this name tells more of the version)
    folder = f"{os.path.dirname(programs.path('ssa-server'))}/programs"
    itself = Programs(folder) if os.path.isdir(folder) else programs
    ran = itself.run("ssa-server", words, where=where)
    text = ran.out if ran.status == 0 else ran.err.removesuffix(b"\n")
    if ran.out and ran.err:
        raise Wrong(f"both outputs have something: {ran.out!r}, {ran.err!r}")
    return f"{ran.status}: {line_of(text)}"


def shown(text: str, row: Row) -> str:
    """A text, or what is wanted where that ends with `..` and the text begins so."""
    prefix, goes_on, rest = row.wanted.rpartition("..")
    return row.wanted if goes_on and not rest and text.startswith(prefix) else text


def arguments(programs: Programs, row: Row, room: str) -> str:
    """What comes of a row of arguments."""
    return shown(told(programs, row.step.split(" "), room), row)


def types_file(programs: Programs, row: Row, room: str) -> str:
    """What comes of a row of a types file."""
    with open(f"{room}/f", "wb") as it:
        it.write(bytes_of(row.step))
    return shown(told(programs, ["--types", "f"], room), row)


def objects(programs: Programs, row: Row, room: str) -> str:
    """What comes of a row of an objects file."""
    with open(f"{room}/objects", "wb") as it:
        it.write(bytes_of(row.step))
    words = ["--types", TYPES, "--objects", "objects"]
    if not row.wanted.isdigit():
        bad = told(programs, words, room)
        return bad.removeprefix("3: objects file objects ")
    with Server(programs, [*words, "--concurrent"], room) as server:
        return server.version()


def turns(programs: Programs, row: Row, room: str) -> str:
    """What comes of a row of turns."""
    count, size = (int(it) for it in row.step.split(" "))
    return " ".join(
        f"{it}" for it in lines_of_turns(programs, TYPES, room, count, size)
    )


def answer_to(server: Server, row: Row) -> str:
    """What comes of a step of a server."""
    word, _, rest = row.step.partition(" ")
    match word:
        case "send":
            server.send(NAMED[rest] if rest in NAMED else bytes_of(rest))
        case "close":
            server.close(int(rest))
        case "drop":
            server.drop(int(rest))
        case "turn":
            server.version()
        case "hear":
            return expect_received(server.streams[int(rest)], row.wanted)
        case "told":
            return server.logged()
        case "ended":
            return f"{server.ended()}"
        case _:
            raise Wrong(f"there is no step {word}")
    return "-"


OF_ROWS = {
    "arguments": arguments,
    "types files": types_file,
    "objects": objects,
    "turns": turns,
}


def play(programs: Programs, example: Example) -> Iterator[str]:
    """What comes at each row of an example, in a folder of its own."""
    heading, _, _ = example.heading.partition(": ")
    _, _, what = heading.rpartition(" on ")
    with tempfile.TemporaryDirectory() as room:
        if what in OF_ROWS:
            for row in example.rows:
                yield OF_ROWS[what](programs, row, room)
        elif what.startswith("a server"):
            options = what.removeprefix("a server").split()
            with Server(programs, ["--types", TYPES, *options], room) as server:
                for row in example.rows:
                    yield answer_to(server, row)
        else:
            raise Wrong(f"the heading names nothing that is known: {example.heading}")
