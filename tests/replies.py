"""Replies as a server writes them, each made from a few words of a row.

| words | what is sent |
|---|---|
| `page REVISION TOKEN OBJECT..` | the reply to a list; the token `-` is none |
| `body TEXT`, `status STATUS` | a reply with this body; one with this status and the body `{}` |
| `watch` | the head of a watch |
| `line TYPE OBJECT`, `line BOOKMARK REVISION`, `text TEXT` | a chunk of a watch with this line |
| `half ..` | what stands in front of the first `resourceVersion` in the chunk of such a line |
| `end` | the last chunk |
| `bytes TEXT` | these bytes, where `¶` is the end of a line |

An object is `NAME@REVISION` or `NAME@REVISION,TIER`, in the namespace `default`.
"""

from __future__ import annotations

from collections.abc import Callable

from rows import Wrong

WATCH = "HTTP/1.1 200 OK\r\nContent-Type: application/json\r\nTransfer-Encoding: chunked\r\nConnection: close\r\n\r\n"


def whole(status: str, body: str) -> str:
    """A reply with this body."""
    length = len(body.encode())
    return (
        f"HTTP/1.1 {status}\r\nContent-Type: application/json\r\n"
        f"Content-Length: {length}\r\nConnection: close\r\n\r\n{body}"
    )


def chunk(line: str) -> str:
    """A chunk of this line."""
    return f"{len(line.encode()) + 1:x}\r\n{line}\n\r\n"


def list_of(items: str, metadata: str) -> str:
    """The reply to a list, with the texts of its items and of its metadata's members."""
    body = (
        f'{{"apiVersion":"demo.example/v1","items":[{items}],'
        f'"kind":"WidgetList","metadata":{{{metadata}}}}}'
    )
    return whole("200 OK", body)


def object_of(word: str) -> str:
    """The text of an object."""
    name, _, rest = word.partition("@")
    revision, _, tier = rest.partition(",")
    labels = f'"labels":{{"tier":"{tier}"}},' if tier else ""
    return (
        f'{{"apiVersion":"demo.example/v1","kind":"Widget","metadata":{{{labels}'
        f'"name":"{name}","namespace":"default","resourceVersion":"{revision}"}}}}'
    )


def page(words: str) -> str:
    """The reply to a list."""
    revision, token, *objects = words.split(" ")
    more = "" if token == "-" else f'"continue":"{token}",'
    items = ",".join(object_of(it) for it in objects)
    return list_of(items, f'{more}"resourceVersion":"{revision}"')


def line(words: str) -> str:
    """A watch's line, as a chunk."""
    kind, _, rest = words.partition(" ")
    subject = object_of(rest)
    if kind == "BOOKMARK":
        subject = f'{{"apiVersion":"demo.example/v1","kind":"Widget","metadata":{{"resourceVersion":"{rest}"}}}}'
    return chunk(f'{{"type":"{kind}","object":{subject}}}')


def reply(words: str) -> bytes:
    """The bytes that a row's words stand for."""
    word, _, rest = words.partition(" ")
    made: dict[str, Callable[[], str]] = {
        "page": lambda: page(rest),
        "body": lambda: whole("200 OK", rest),
        "status": lambda: whole(rest, "{}"),
        "watch": lambda: WATCH,
        "line": lambda: line(rest),
        "text": lambda: chunk(rest),
        "half": lambda: line(rest).partition("resourceVersion")[0],
        "end": lambda: "0\r\n\r\n",
        "bytes": lambda: rest.replace("¶", "\r\n"),
    }
    if word not in made:
        raise Wrong(f"no reply is called {word}")
    return made[word]().encode()


def replies(words: str) -> bytes:
    """The bytes of replies with semicolons between them."""
    return b"".join(reply(it) for it in words.split(";"))
