"""Who owns what of an object, and how a content is read under a schema.

Behind `on` a heading names the types file, in this folder, to whose first type the object `w1` belongs. Each example begins
without it.

| step | what comes |
|---|---|
| `NAME SPEC` | what stands after an apply by NAME, by force with `!` behind it, or after an update with `=`: the content, each manager and its paths, and `as before` where the version stays; or the conflicts |
| `NAME SPEC STATUS` | the same of a body that has a `status` too; `/status` behind the name (before `!` and `=`) writes by it |
| `object` | the text of the object |
| `elsewhere` | the version of another object that is applied |
| `read TEXT` | whether the content is read, or why it isn't |
| `paths TEXT` | the paths of the content |
| `print TEXT` | what is printed of the content |

What a text is read as is told by an apply of it to an object that nobody else owns. Paths are shown as conflicts show them.
"""

from __future__ import annotations

import json
import os
import re
from collections.abc import Iterator
from typing import Any

from requesting import Requests, Reply, path_of
from pipe import Pipe
from programs import Programs
from rows import Example, Wrong

Value = dict[str, Any]
# What the envelope has, of which no row is about.
ENVELOPE = ("managedFields", "name", "namespace", "resourceVersion")
CONFLICT = re.compile(r'conflict with "([^"]*)" using \S+$')
READ_BY = "reader"


def text_of(value: object) -> str:
    """A value as compact JSON."""
    return json.dumps(value, ensure_ascii=False, separators=(",", ":"))


def elements_of(key: str) -> str:
    """How conflicts show the element that a name of FieldsV1 is."""
    kind, _, text = key.partition(":")
    if kind == "f":
        return f".{text}"
    if kind == "v":
        return f"[={text}]"
    keys = json.loads(text).items()
    return f"[{','.join(f'{name}={text_of(value)}' for name, value in keys)}]"


def paths_of(fields: Value, front: str = "", keys: str = "{}") -> Iterator[str]:
    """The paths of a FieldsV1 value, in order; the key fields of an item aren't among them."""
    of_keys = {f"f:{name}" for name in json.loads(keys)}
    for key, inner in fields.items():
        if key == "." or key in of_keys:
            continue
        path = front + elements_of(key)
        if not inner or "." in inner:
            yield path
        yield from paths_of(inner, path, key[2:] if key.startswith("k:") else "{}")


def manager_of(entry: Value) -> str:
    """A manager as rows show it."""
    words = [entry["manager"], entry["operation"]]
    words += [entry["subresource"]] if "subresource" in entry else []
    return "/".join(words)


def entries_of(value: Value) -> list[Value]:
    """The entries of an object's managers."""
    entries: list[Value] = value.get("metadata", {}).get("managedFields", [])
    return entries


def content_of(value: Value) -> str:
    """What is printed of an object's content."""
    metadata = {
        name: it for name, it in value["metadata"].items() if name not in ENVELOPE
    }
    content = {"metadata": metadata} if metadata else {}
    parts = {name: it for name, it in value.items() if name in ("spec", "status")}
    return text_of({**content, **parts}) if {**content, **parts} else "nothing"


def owner_of(path: str, message: str, before: Value) -> str:
    """The manager of a conflict, which owned the path in the object that stood before."""
    told = CONFLICT.match(message)
    if not told:
        raise Wrong(f"no message of a conflict: {message}")
    owners = [
        manager_of(it)
        for it in entries_of(before)
        if it["manager"] == told[1] and path in paths_of(it["fieldsV1"])
    ]
    if len(owners) != 1:
        raise Wrong(f"{len(owners)} managers own {path}: {message}")
    return owners[0]


def conflicts_of(refusal: Value, before: Value) -> str:
    """The conflicts of a refusal."""
    causes = [
        (it["field"], owner_of(it["field"], it["message"], before))
        for it in refusal["details"]["causes"]
    ]
    return "conflicts:" + "".join(f" {path} {owner}" for path, owner in causes)


def managers_of(value: Value) -> str:
    """Each manager of an object, with its paths."""
    entries = [[manager_of(it), *paths_of(it["fieldsV1"])] for it in entries_of(value)]
    return "".join(f" {' '.join(words)}" for words in entries)


class Existing:
    """The object `w1`, as its last reply shows it."""

    def __init__(self, pipe: Pipe, types: str) -> None:
        self.requests, self.path = Requests(pipe), path_of(types)
        of = json.loads(types)["types"][0]
        self.names = {
            "apiVersion": f"{of['group']}/{of['version']}",
            "kind": of["kind"],
        }
        self.object: Value = {}

    def body(self, content: str) -> str:
        """A body with this content, an object of which nothing is left out, or another text as it stands."""
        front = text_of(self.names)
        if not content.startswith("{") or content == "{}":
            return front if content == "{}" else content
        return f"{front[:-1]},{content[1:]}"

    def write(self, words: str, content: str) -> Reply:
        """The reply to a write by `NAME`, `NAME!` or `NAME=`, with `/status` behind the name where it is by that."""
        name, _, subresource = words.rstrip("!=").partition("/")
        target = f"{self.path}/w1" + (f"/{subresource}" if subresource else "")
        if words.endswith("="):
            target = f"{target}?fieldManager={name}"
            return self.requests.request("PUT", target, self.body(content))
        forced = words.endswith("!")
        return self.requests.apply(target, name, self.body(content), forced)

    def written(self, words: str, content: str) -> str:
        """What stands after a write, or its conflicts."""
        reply, before = self.write(words, content), self.object
        value = json.loads(reply.body)
        if reply.status == 409:
            return conflicts_of(value, before)
        if reply.status not in (200, 201):
            raise Wrong(f"the status is {reply.status}: {reply.body[:200]}")
        self.object = value
        versions = [
            it.get("metadata", {}).get("resourceVersion") for it in (before, value)
        ]
        same = " as before" if versions[0] == versions[1] else ""
        return content_of(value) + managers_of(value) + same

    def read(self, step: str, content: str) -> str:
        """What a content is read as, by an apply of it."""
        reply = self.write(READ_BY, content)
        value = json.loads(reply.body)
        if step == "read" and reply.status in (400, 422):
            return str(value["message"])
        if reply.status not in (200, 201):
            raise Wrong(f"the status is {reply.status}: {reply.body[:200]}")
        if step == "read":
            return "read"
        if step == "print":
            return content_of(value)
        return managers_of(value).replace(f" {READ_BY}/Apply", "paths")

    def answer(self, step: str, words: str) -> str:
        """What comes at a step."""
        if step in ("read", "paths", "print"):
            return self.read(step, words)
        if step == "object":
            return self.requests.request("GET", f"{self.path}/w1").body
        if step == "elsewhere":
            reply = self.requests.apply(f"{self.path}/w2", "other", self.body("{}"))
            return str(json.loads(reply.body)["metadata"]["resourceVersion"])
        spec, _, status = words.partition(" ")
        more = f',"status":{status}' if status else ""
        return self.written(step, f'{{"spec":{spec}{more}}}')


def play(programs: Programs, example: Example) -> Iterator[str]:
    """What comes at each row."""
    named = re.search(r" on (\w+)", example.heading)
    if not named:
        raise Wrong("the heading names no types file")
    path = f"{os.path.dirname(example.path)}/{named[1]}.json"
    with open(path, encoding="utf-8") as it:
        types = it.read()
    with Pipe(programs, types) as pipe:
        existing = Existing(pipe, types)
        for row in example.rows:
            step, _, words = row.step.partition(" ")
            yield existing.answer(step, words)
