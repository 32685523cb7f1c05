#!/usr/bin/env python3
"""Writes the stored runs of ssa_replay: what the worked applies must print, and a script that meets each message that a
PATCH can be told, and watches, and what it must print.

Usage: bench/expected_replies.py   (writes crates/ssa_replay/stdout, and script.jsonl and stdout of
                                    crates/ssa_replay/runs/messages)

The program is not run here. Each request stands beside the status, the reason and the message of the tables below, or
beside the object that it has to leave; heads, lengths and versions are computed here. The last check is that no message
of the table is left out. The gate compares what the program prints with what stands in each `stdout`.
"""
import json
import os

TOP = os.path.dirname(os.path.dirname(os.path.abspath(__file__)))
PROGRAM = os.path.join(TOP, "crates", "ssa_replay")
MESSAGES = os.path.join(PROGRAM, "runs", "messages")

# code, phrase, reason, messages
TABLE = [
    (400, "Bad Request", "BadRequest", [
        "bad request head", "one Host field is needed", "bad Content-Length", "body is not JSON",
        "apiVersion and kind must be {} and {}", "metadata.name must be {}", "metadata.namespace must be {}",
        "metadata.resourceVersion: bad version", "metadata.managedFields must be empty",
        "{}: not an object", "{}: unknown field", "{}: wrong type", "bad parameter: {}"]),
    (404, "Not Found", "NotFound", ["no such path"]),
    (405, "Method Not Allowed", "MethodNotAllowed", ["method not served here"]),
    (409, "Conflict", "Conflict", [
        "version {} is not the stored one, {}", "version {} was given and there is no object",
        "Apply failed with {} conflict(s)"]),
    (410, "Gone", "Expired", ["too old resource version: {} ({})"]),
    (411, "Length Required", "LengthRequired", ["Content-Length is needed"]),
    (413, "Payload Too Large", "RequestEntityTooLarge", ["body over 262144 bytes"]),
    (415, "Unsupported Media Type", "UnsupportedMediaType", ["media type not served"]),
    (422, "Unprocessable Entity", "Invalid", [
        "{}: duplicate item", "{}: key field missing", "fieldManager: 1 to 128 printable characters",
        "metadata.name: bad name", "metadata.namespace: bad namespace", "metadata.labels: bad key",
        "metadata.labels: bad value", "metadata.annotations: bad key", "metadata.labels: more than 64",
        "object over 1048576 bytes"]),
    (431, "Request Header Fields Too Large", "RequestHeaderFieldsTooLarge", ["request head too large"]),
    (501, "Not Implemented", "NotImplemented", ["Transfer-Encoding is not served"]),
    (504, "Gateway Timeout", "Timeout", ["Too large resource version: {}, current: {}"]),
    # "revisions are used up" stands after 9223372036854775806 changes: no script has so many.
    (503, "Service Unavailable", "ServiceUnavailable", ["too many connections"]),
    (505, "HTTP Version Not Supported", "HTTPVersionNotSupported", ["HTTP/1.1 is needed"]),
]
PHRASES = {code: phrase for code, phrase, _, _ in TABLE} | {200: "OK", 201: "Created"}
FOUND = {message: (code, reason) for code, _, reason, messages in TABLE for message in messages}

API_VERSION = "demo.example/v1"
WIDGETS = "/apis/demo.example/v1/namespaces/default/widgets/"
MEDIA = "application/apply-patch+yaml"
HOST = ["Host: localhost"]


def compact(value):
    return json.dumps(value, sort_keys=True, separators=(",", ":"))


# ---- what a reply says

met = set()


def refused(message, *words, details=None):
    """The status and the body of a refusal, by its message in the table."""
    met.add(message)
    code, reason = FOUND[message]
    status = {"apiVersion": "v1", "code": code, "kind": "Status", "message": message.format(*words), "metadata": {},
              "reason": reason, "status": "Failure"}
    if details is not None:
        status["details"] = details
    return code, compact(status)


def conflicts(*causes):
    """The refusal of an apply by the fields that others own: a path and its owner each."""
    causes = [{"field": field, "message": f'conflict with "{owner}" using {API_VERSION}', "reason": "FieldManagerConflict"}
              for field, owner in causes]
    return refused("Apply failed with {} conflict(s)", len(causes), details={"causes": causes})


def widget(name, version, owners, spec=None, labels=None, namespace="default", of=(API_VERSION, "Widget")):
    """An object as it is printed; owners are pairs of a manager and its fields. What it is of is a widget, if nothing is said."""
    api_version, kind = of
    metadata = {"name": name, "namespace": namespace, "resourceVersion": str(version)}
    if owners:
        metadata["managedFields"] = [
            {"apiVersion": api_version, "fieldsType": "FieldsV1", "fieldsV1": fields, "manager": manager, "operation": "Apply"}
            for manager, fields in owners]
    if labels is not None:
        metadata["labels"] = labels
    printed = {"apiVersion": api_version, "kind": kind, "metadata": metadata}
    if spec is not None:
        printed["spec"] = spec
    return compact(printed)


def in_spec(*fields):
    return {"f:spec": {"f:" + field: {} for field in fields}}


def reply(code, body, allow=None):
    """The bytes of a reply."""
    fields = [f"HTTP/1.1 {code} {PHRASES[code]}", "Content-Type: application/json", f"Content-Length: {len(body)}",
              "Connection: close"]
    if allow is not None:
        fields.append("Allow: " + allow)
    return "".join(field + "\r\n" for field in fields) + "\r\n" + body


# ---- what a watch says

HEAD = ("HTTP/1.1 200 OK\r\nContent-Type: application/json\r\nTransfer-Encoding: chunked\r\n"
        "Connection: close\r\n\r\n")
LAST_CHUNK = "0\r\n\r\n"


def chunk(what, shown):
    """The chunk of a line: what happened, and the text of its object."""
    text = f'{{"type":"{what}","object":{shown}}}\n'
    return f"{len(text):x}\r\n{text}\r\n"


def bookmark(version):
    return chunk("BOOKMARK", compact({"apiVersion": API_VERSION, "kind": "Widget", "metadata": {"resourceVersion": str(version)}}))


# ---- the script

lines = []      # of the script
replies = []    # to the applies, in order
written = {}    # by connection, without those of applies
gone = set()    # connections whose peer has gone
last_id = 0
last_tick = 0
revision = 1


def next_id():
    global last_id
    last_id += 1
    return last_id


def next_revision():
    global revision
    revision += 1
    return revision


def line(event):
    lines.append(json.dumps(event, separators=(",", ":")))


def tick(ms):
    """A tick so many milliseconds after the last one."""
    global last_tick
    last_tick += ms
    line({"tick": last_tick})


def goes(connection):
    line({"gone": connection})
    gone.add(connection)


def body_of(**members):
    """A body with the envelope of a widget."""
    return {"apiVersion": API_VERSION, "kind": "Widget", **members}


def apply(name, body, expected, manager="alice", force=False, path=None):
    """An apply line, with the status and the body of its reply."""
    target = WIDGETS + name if path is None else path
    line({"apply": {"body": body, "force": force, "manager": manager, "target": target}})
    next_id()
    replies.append("{} {}\n".format(*expected))


def opened(expected=""):
    """A connection that opens, and what is written at once."""
    connection = next_id()
    line({"open": connection})
    written[connection] = expected
    return connection


def comes(connection, text):
    line({"in": [connection, text]})


def asked(text, expected, allow=None):
    """Bytes that come on a connection of their own, and the reply."""
    connection = opened()
    comes(connection, text)
    written[connection] = reply(*expected, allow=allow)
    return connection


def undecided(text):
    """Bytes that decide nothing yet."""
    connection = opened()
    comes(connection, text)
    return connection


def request(fields, body="", target=WIDGETS + "w9?fieldManager=alice", method="PATCH", version="HTTP/1.1"):
    return f"{method} {target} {version}\r\n" + "".join(field + "\r\n" for field in fields) + "\r\n" + body


def patch(body, fields=(), target=WIDGETS + "w9?fieldManager=alice", **rest):
    """A request with the host, the media type, the length and these fields."""
    return request(HOST + ["Content-Type: " + MEDIA, f"Content-Length: {len(body)}"] + list(fields), body, target, **rest)


# ---- the rows

def six_lines():
    """The lines of data/script.jsonl: first_apply, conflict_refused, force_takes_over, dropped_but_taken_over, and the two of
    shared_owner_keeps."""
    def w1(version, owners, replicas):
        return widget("w1", version, owners, {"image": "a", "replicas": replicas})

    def apply_w1(spec, expected, manager, force=False):
        body = body_of(metadata={"name": "w1"}, **({} if spec is None else {"spec": spec}))
        apply("w1", body, expected, manager, force)

    both = in_spec("image", "replicas")
    split = [("alice", in_spec("image")), ("bob", in_spec("replicas"))]
    apply_w1({"image": "a", "replicas": 3}, (201, w1(next_revision(), [("alice", both)], 3)), "alice")
    apply_w1({"replicas": 5}, conflicts((".spec.replicas", "alice")), "bob")
    apply_w1({"replicas": 5}, (200, w1(next_revision(), split, 5)), "bob", True)
    apply_w1({"image": "a"}, (200, w1(revision, split, 5)), "alice")
    apply_w1({"image": "a", "replicas": 5}, (200, w1(next_revision(), [("alice", in_spec("image")), ("bob", both)], 5)), "bob")
    apply_w1(None, (200, w1(next_revision(), [("bob", both)], 5)), "alice")
    assert revision == 5 and len(replies[-1]) == len("200 \n") + 315


def first_apply():
    """A first apply as bytes, whole and cut in two; what comes after it is ignored."""
    spec = {"image": "a", "replicas": 3}
    for name, pieces in (("w2", 1), ("w3", 2)):
        body = compact(body_of(metadata={"name": name}, spec=spec))
        assert len(body) == 107
        text = patch(body, target=WIDGETS + name + "?fieldManager=alice")
        created = widget(name, next_revision(), [("alice", in_spec("image", "replicas"))], spec)
        connection = opened()
        cut = len(text) if pieces == 1 else len(text) - 50
        for piece in (text[:cut], text[cut:]):
            if piece:
                comes(connection, piece)
        comes(connection, "read past")
        written[connection] = reply(201, created)
        assert len(created) == 317 and len(written[connection]) == 413
    comes(last_id + 1, "on a connection that isn't there")
    line({"open": last_id})


def hostile_heads():
    """A request's head: sizes, form, version, host, lengths."""
    undecided("a" * 16384)
    asked("a" * 16385, refused("request head too large"))
    filler = [f"X-{n}: y" for n in range(61)]
    body = compact(body_of())
    created = widget("w8", next_revision(), [])
    asked(patch(body, filler, target=WIDGETS + "w8?fieldManager=alice"), (201, created))
    asked(patch(body, filler + ["X-61: y"]), refused("request head too large"))
    undecided("\x01 \x01\r\n")
    asked("\x01 \x01\r\n\r\n", refused("bad request head"))
    asked(patch("{}", target="widgets"), refused("bad request head"))
    apply("", body_of(), refused("bad request head"), path="")
    asked(patch("{}", version="HTTP/1.0"), refused("HTTP/1.1 is needed"))
    media = "Content-Type: " + MEDIA
    asked(request([media, "Content-Length: 2"], "{}"), refused("one Host field is needed"))
    asked(patch("{}", HOST), refused("one Host field is needed"))
    for lengths in (["5", "5"], ["0005"]):
        asked(request(HOST + [media] + ["Content-Length: " + n for n in lengths], '"abc"'), refused("{}: not an object", "."))
    for lengths in (["5", "6"], ["5, 5"], ["+5"], [""]):
        asked(request(HOST + [media] + ["Content-Length: " + n for n in lengths], '"abc"'), refused("bad Content-Length"))
    asked(request(HOST + [media], "{}"), refused("Content-Length is needed"))
    asked(patch("{}", ["Transfer-Encoding: chunked"]), refused("Transfer-Encoding is not served"))


def routes():
    """The path, the method, the media type."""
    namespace = "/apis/demo.example/v1/namespaces/default/"
    for path in (namespace + "gadgets/w1", namespace + "widgets//", WIDGETS + "w1/status", "/%61pis" + WIDGETS[5:] + "w1"):
        apply("", body_of(), refused("no such path"), path=path)
    asked(patch("{}", method="PURGE"), refused("method not served here"), allow="DELETE, GET, PATCH, PUT")
    asked(request(HOST + ["Content-Type: application/json", "Content-Length: 2"], "{}"), refused("media type not served"))
    asked(request(HOST + ["Content-Length: 2"], "{}"), refused("media type not served"))


def body_limits_and_numbers():
    """A body's size, its JSON, its numbers."""
    spec = {"image": "a", "replicas": 3}
    body = compact(body_of(metadata={"name": "w4"}, spec=spec))
    created = widget("w4", next_revision(), [("alice", in_spec("image", "replicas"))], spec)
    asked(patch(body + " " * (262144 - len(body)), target=WIDGETS + "w4?fieldManager=alice"), (201, created))
    media = "Content-Type: " + MEDIA
    asked(request(HOST + [media, "Content-Length: 262145"]), refused("body over 262144 bytes"))
    asked(patch("[" * 1000 + "]" * 1000), refused("body is not JSON"))
    asked(patch("{"), refused("body is not JSON"))
    asked(patch(""), refused("body is not JSON"))
    asked(patch(compact(body_of(spec={"replicas": 0})).replace(":0", ":1e999")), refused("body is not JSON"))
    undecided(patch("{}")[:-1])
    for replicas in (1.0, 9223372036854775808, -9223372036854775809, 18446744073709551616):
        apply("w9", body_of(spec={"replicas": replicas}), refused("{}: wrong type", ".spec.replicas"))
    for name, replicas in (("most", 9223372036854775807), ("least", -9223372036854775808)):
        created = widget(name, next_revision(), [("alice", in_spec("replicas"))], {"replicas": replicas})
        apply(name, body_of(spec={"replicas": replicas}), (201, created))


def envelopes():
    """What a body says of itself, and the shape of the rest, on a widget that isn't there."""
    must_be = refused("apiVersion and kind must be {} and {}", API_VERSION, "Widget")
    rows = [
        ([], refused("{}: not an object", ".")),
        ({"apiVersion": 1, "kind": "Widget"}, refused("{}: wrong type", ".apiVersion")),
        ({"apiVersion": API_VERSION, "kind": []}, refused("{}: wrong type", ".kind")),
        ({}, must_be),
        ({"apiVersion": "demo.example/v2", "kind": "Widget"}, must_be),
        ({"apiVersion": API_VERSION, "kind": "LabelSummary"}, must_be),
        (body_of(metadata=[]), refused("{}: not an object", ".metadata")),
        (body_of(metadata={"name": 1}), refused("{}: wrong type", ".metadata.name")),
        (body_of(metadata={"name": "w1"}), refused("metadata.name must be {}", "w9")),
        (body_of(metadata={"namespace": {}}), refused("{}: wrong type", ".metadata.namespace")),
        (body_of(metadata={"namespace": "other"}), refused("metadata.namespace must be {}", "default")),
        (body_of(metadata={"resourceVersion": 4}), refused("{}: wrong type", ".metadata.resourceVersion")),
        (body_of(metadata={"resourceVersion": "01"}), refused("metadata.resourceVersion: bad version")),
        (body_of(metadata={"managedFields": {}}), refused("{}: wrong type", ".metadata.managedFields")),
        (body_of(metadata={"managedFields": [{}]}), refused("metadata.managedFields must be empty")),
        (body_of(metadata={"labels": {"tier": 1}}), refused("{}: wrong type", ".metadata.labels.tier")),
        (body_of(metadata={"nope": "x"}), refused("{}: unknown field", ".metadata.nope")),
        (body_of(nope={}), refused("{}: unknown field", ".nope")),
        (body_of(spec="x"), refused("{}: not an object", ".spec")),
        (body_of(spec={"nope": 1}), refused("{}: unknown field", ".spec.nope")),
        (body_of(spec={"config": {"a": 5}}), refused("{}: wrong type", ".spec.config.a")),
        (body_of(spec={"args": [None]}), refused("{}: wrong type", ".spec.args[0]")),
        (body_of(spec={"ports": [{"name": "web"}, 5]}), refused("{}: not an object", ".spec.ports[1]")),
        (body_of(spec={"ports": [{"name": "web"}, {"name": "web"}]}), refused("{}: duplicate item", ".spec.ports")),
        (body_of(spec={"ports": [{"port": 80}]}), refused("{}: key field missing", ".spec.ports[0]")),
        (body_of(spec={"tags": ["a", "a"]}), refused("{}: duplicate item", ".spec.tags")),
    ]
    for body, expected in rows:
        apply("w9", body, expected)


def parameters():
    """The query."""
    body = compact(body_of())
    for query, name in (("fieldManager=alice&dryRun=All", "dryRun"), ("fieldManager=alice&fieldValidation=Warn", "fieldValidation"),
                        ("fieldManager=alice&force=maybe", "force")):
        asked(patch(body, target=WIDGETS + "w9?" + query), refused("bad parameter: {}", name))


def manager_name_limits():
    """The names of managers: 1 to 128 characters that print."""
    no_manager = refused("fieldManager: 1 to 128 printable characters")
    asked(patch(compact(body_of()), target=WIDGETS + "w9"), no_manager)
    for manager in ("", "m" * 129, "tab\t", "\u00fc"):
        apply("w9", body_of(), no_manager, manager)
    for name, manager in (("long", "m" * 128), ("signs", "a b&c=d%+?#")):
        created = widget(name, next_revision(), [(manager, in_spec("image"))], {"image": "a"})
        apply(name, body_of(spec={"image": "a"}), (201, created), manager)


def names():
    """Names of objects and namespaces, keys and values of labels, keys of annotations."""
    apply("W1", body_of(), refused("metadata.name: bad name"))
    apply("", body_of(), refused("metadata.namespace: bad namespace"), path="/apis/demo.example/v1/namespaces/a.b/widgets/w1")
    rows = [({"labels": {"-a": "b"}}, "metadata.labels: bad key"), ({"labels": {"a": "-b"}}, "metadata.labels: bad value"),
            ({"annotations": {"a/b/c": "d"}}, "metadata.annotations: bad key")]
    for metadata, message in rows:
        apply("w9", body_of(metadata=metadata), refused(message))


def versions():
    """A version that isn't the stored one, or of nothing."""
    apply("w9", body_of(metadata={"resourceVersion": "7"}), refused("version {} was given and there is no object", 7))
    apply("w1", body_of(metadata={"resourceVersion": "4"}), refused("version {} is not the stored one, {}", 4, 5))


def all_conflicts_listed():
    """Every conflict with every owner."""
    owners = []
    for manager, code in (("alice", 201), ("bob", 200)):
        owners.append((manager, in_spec("replicas")))
        apply("shared", body_of(spec={"replicas": 3}), (code, widget("shared", next_revision(), owners, {"replicas": 3})), manager)
    apply("shared", body_of(spec={"replicas": 4}), conflicts((".spec.replicas", "alice"), (".spec.replicas", "bob")), "carol")


def lists():
    """Items of a set that two managers share, an atomic list, a map list, an object without content."""
    def tags(*items):
        return {"f:spec": {"f:tags": {f'v:"{item}"': {} for item in items}}}

    first = widget("set", next_revision(), [("alice", tags("a", "b"))], {"tags": ["a", "b"]})
    apply("set", body_of(spec={"tags": ["b", "a"]}), (201, first))
    joined = widget("set", next_revision(), [("alice", tags("a", "b")), ("bob", tags("b", "c"))], {"tags": ["a", "b", "c"]})
    apply("set", body_of(spec={"tags": ["b", "c"]}), (200, joined), "bob")
    apply("set", body_of(), (200, widget("set", next_revision(), [("bob", tags("b", "c"))], {"tags": ["b", "c"]})))
    apply("set", body_of(spec={"tags": ["a", "a"]}), refused("{}: duplicate item", ".spec.tags"), "bob")

    whole = widget("atomic", next_revision(), [("alice", in_spec("args"))], {"args": ["x", "y"]})
    apply("atomic", body_of(spec={"args": ["x", "y"]}), (201, whole))
    apply("atomic", body_of(spec={"args": ["x"]}), conflicts((".spec.args", "alice")), "bob")
    apply("atomic", body_of(metadata={"labels": None}, spec={"args": ["x", "y"], "config": {}}), (200, whole))

    item = {'k:{"name":"web"}': {".": {}, "f:name": {}, "f:port": {}}}
    ports = widget("keyed", next_revision(), [("alice", {"f:spec": {"f:ports": item}})], {"ports": [{"name": "web", "port": 80}]})
    apply("keyed", body_of(spec={"ports": [{"port": 80, "name": "web"}]}), (201, ports))
    apply("keyed", body_of(spec={"ports": [{"name": "web", "port": 81}]}), conflicts(('.spec.ports[name="web"].port', "alice")), "bob")

    empty = widget("empty", next_revision(), [])
    apply("empty", body_of(), (201, empty))
    apply("empty", body_of(), (200, empty))


def sizes():
    """More than 64 labels; an object that would be too long."""
    labels = {f"label-{n:02d}": "" for n in range(64)}
    fields = {"f:metadata": {"f:labels": {"f:" + key: {} for key in labels}}}
    apply("labels", body_of(metadata={"labels": labels}), (201, widget("labels", next_revision(), [("alice", fields)], labels=labels)))
    apply("labels", body_of(metadata={"labels": {"more": ""}}), refused("metadata.labels: more than 64"), "bob")

    # An item of a list of ports has 17 bytes in a body and in the object, and 46 more in its owner's entry.
    def large(names):
        return body_of(spec={"ports": [{"name": name} for name in names]})

    def fields_of(names):
        return {"f:spec": {"f:ports": {"k:" + compact({"name": name}): {".": {}, "f:name": {}} for name in names}}}

    first, second = ([f"{n:05d}" for n in places] for places in (range(2000), range(2000, 17000)))
    assert len(compact(large(second))) <= 262144
    apply("large", large(first), (201, widget("large", next_revision(), [("alice", fields_of(first))], large(first)["spec"])))
    both = [("alice", fields_of(first)), ("bob", fields_of(second))]
    assert len(widget("large", revision + 1, both, large(first + second)["spec"])) > 1048576
    apply("large", large(second), refused("object over 1048576 bytes"), "bob")


class Namespace:
    """Requests of the widgets of one namespace, and watches of them. A row of its own has one of its own."""

    def __init__(self, name):
        self.name = name
        self.path = f"/apis/demo.example/v1/namespaces/{name}/widgets"

    def object(self, name, version, replicas=None, labels=None):
        """An object whose fields alice owns."""
        fields = {}
        if labels is not None:
            fields["f:metadata"] = {"f:labels": {"f:" + key: {} for key in labels}}
        if replicas is not None:
            fields["f:spec"] = {"f:replicas": {}}
        spec = None if replicas is None else {"replicas": replicas}
        return widget(name, version, [("alice", fields)] if fields else [], spec, labels, self.name)

    def get(self, query):
        connection = opened()
        comes(connection, request(HOST, target=self.path + query, method="GET"))
        return connection

    def watch(self, query):
        connection = self.get("?watch=true" + query)
        written[connection] = HEAD
        return connection

    def list(self, *items):
        """The text of a list of these at the current revision."""
        return compact({"apiVersion": API_VERSION, "items": [json.loads(item) for item in items], "kind": "WidgetList",
                        "metadata": {"resourceVersion": str(revision)}})

    def post(self, *names):
        for name in names:
            body = compact(body_of(metadata={"name": name}))
            connection = opened()
            comes(connection, request(HOST + ["Content-Type: application/json", f"Content-Length: {len(body)}"], body, self.path, "POST"))
            written[connection] = reply(201, self.object(name, next_revision()))

    def delete(self, name, before):
        """A deletion; before makes the object by its version."""
        connection = opened()
        comes(connection, request(HOST, target=f"{self.path}/{name}", method="DELETE"))
        written[connection] = reply(200, before(next_revision()))

    def patch(self, name, code, replicas=None, labels=None):
        body = body_of(**({} if labels is None else {"metadata": {"labels": labels}}), **({} if replicas is None else {"spec": {"replicas": replicas}}))
        apply(name, body, (code, self.object(name, next_revision(), replicas, labels)), path=f"{self.path}/{name}")


def pump(connection, most, *chunks):
    """A pump, and the chunks that it writes."""
    line({"pump": [connection, most]})
    written[connection] += "".join(chunks)


def watches():
    """Watches of a namespace: one whose peer goes, one that a compaction overtakes, one that is refused; and its list."""
    watched = Namespace("watched")

    def shown(version, replicas):
        return watched.object("a", version, replicas)

    first = watched.watch("&allowWatchBookmarks=true")
    tick(500)
    written[first] += bookmark(revision)
    watched.patch("a", 201, 1)
    watched.patch("a", 200, 2)
    pump(first, 0)
    pump(first, 1, chunk("ADDED", shown(revision - 1, 1)))
    goes(first)
    pump(first, 1)
    written[watched.get("")] = reply(200, watched.list(shown(revision, 2)))

    second = watched.watch(f"&resourceVersion={revision}&timeoutSeconds=1")
    third = watched.watch(f"&resourceVersion={revision}")
    watched.delete("a", lambda version: shown(version, 2))
    pump(second, 2, chunk("DELETED", shown(revision, 2)))
    tick(999)
    tick(1)
    written[second] += LAST_CHUNK
    line({"tick": last_tick - 1})
    line({"compact": revision})
    expired = refused("too old resource version: {} ({})", revision - 1, revision)
    pump(third, 2, chunk("ERROR", expired[1]), LAST_CHUNK)
    written[watched.get(f"?watch=true&resourceVersion={revision - 1}")] = reply(*expired)


def objects_then_bookmark():
    """A bookmark is due once each object is told; an apply that changes nothing tells nothing."""
    row = Namespace("objects-then-bookmark")
    row.post("w1", "w2", "w3")
    at = revision
    watch = row.watch("&allowWatchBookmarks=true")
    pump(watch, 2, chunk("ADDED", row.object("w1", at - 2)), chunk("ADDED", row.object("w2", at - 1)))
    tick(0)
    pump(watch, 1, chunk("ADDED", row.object("w3", at)))
    tick(0)
    written[watch] += bookmark(at)
    tick(0)
    pump(watch, 1)
    row.patch("w2", 200, 3)
    apply("w2", body_of(spec={"replicas": 3}), (200, row.object("w2", revision, 3)), path=row.path + "/w2")
    pump(watch, 5, chunk("MODIFIED", row.object("w2", revision, 3)))
    tick(0)
    pump(watch, 5)
    goes(watch)


def compacted_under_a_watch():
    """Changes that a watch has still to tell are forgotten."""
    row = Namespace("compacted-under-a-watch")
    row.post("w1", "w2", "w3")
    at = revision
    watch = row.watch("&allowWatchBookmarks=true")
    pump(watch, 2, chunk("ADDED", row.object("w1", at - 2)), chunk("ADDED", row.object("w2", at - 1)))
    row.post("w4")
    line({"compact": revision})
    expired = refused("too old resource version: {} ({})", at, revision)
    pump(watch, 2, chunk("ERROR", expired[1]), LAST_CHUNK)
    pump(watch, 2)
    tick(0)


def deletion_behind_objects():
    """Objects that are left and changes share a pump."""
    row = Namespace("deletion-behind-objects")
    row.post("w1", "w2", "w3")
    at = revision
    watch = row.watch("&allowWatchBookmarks=true")
    pump(watch, 2, chunk("ADDED", row.object("w1", at - 2)), chunk("ADDED", row.object("w2", at - 1)))
    row.delete("w1", lambda version: row.object("w1", version))
    pump(watch, 2, chunk("ADDED", row.object("w3", at)), chunk("DELETED", row.object("w1", revision)))
    tick(0)
    goes(watch)


def time_is_over():
    """A watch ends by the tick at which its seconds have passed since the last tick before its opening, behind its bookmark."""
    row = Namespace("time-is-over")
    first = row.watch("&timeoutSeconds=1")
    tick(999)
    tick(1)
    written[first] += LAST_CHUNK
    pump(first, 1)
    second = row.watch("&timeoutSeconds=1&allowWatchBookmarks=true")
    tick(1000)
    written[second] += bookmark(revision) + LAST_CHUNK
    tick(100)
    third = row.watch("&timeoutSeconds=0")
    tick(10 ** 12)
    goes(third)


def watch_leaves_selector():
    """An object that leaves a watch's selector is deleted there, and added where it comes back."""
    row = Namespace("watch-leaves-selector")
    row.patch("w1", 201, labels={"tier": "web"})
    at = revision
    watch = row.watch(f"&resourceVersion={at}&labelSelector=tier%3Dweb")
    row.patch("w1", 200, labels={"tier": "db"})
    row.patch("w1", 200, labels={"tier": "web"})
    pump(watch, 10, chunk("DELETED", row.object("w1", at + 1, labels={"tier": "web"})), chunk("ADDED", row.object("w1", at + 2, labels={"tier": "web"})))
    goes(watch)


def bookmark_after_unseen_changes():
    """Changes of another namespace tell nothing but a bookmark, once they were read."""
    row, other = Namespace("bookmark-after-unseen-changes"), Namespace("unseen")
    row.post("w1")
    watch = row.watch(f"&resourceVersion={revision}&allowWatchBookmarks=true")
    other.post("a", "b", "c")
    tick(0)
    pump(watch, 10)
    tick(0)
    written[watch] += bookmark(revision)
    tick(0)
    goes(watch)


def version_still_to_come():
    """A watch from a version that is still to come waits for what follows it."""
    row = Namespace("version-still-to-come")
    watch = row.watch(f"&resourceVersion={revision + 1}&allowWatchBookmarks=true")
    pump(watch, 10)
    tick(0)
    row.post("w1")
    pump(watch, 10)
    tick(0)
    row.post("w2")
    pump(watch, 10, chunk("ADDED", row.object("w2", revision)))
    goes(watch)


def empty_lists():
    """Lists of an empty namespace, by version and match."""
    row = Namespace("empty-lists")
    written[row.get("")] = reply(200, row.list())
    written[row.get(f"?resourceVersion={revision + 1}")] = reply(*refused("Too large resource version: {}, current: {}", revision + 1, revision))
    for query, name in (("resourceVersion=0&resourceVersionMatch=Exact", "resourceVersionMatch"), ("resourceVersion=abc", "resourceVersion")):
        written[row.get("?" + query)] = reply(*refused("bad parameter: {}", name))


def request_byte_by_byte():
    """An apply that comes byte by byte, and a GET of what it made."""
    row = Namespace("request-byte-by-byte")
    text = patch(compact(body_of(metadata={"name": "w1"}, spec={"replicas": 3})), target=row.path + "/w1?fieldManager=alice")
    connection = opened()
    for byte in text:
        comes(connection, byte)
    created = row.object("w1", next_revision(), 3)
    written[connection] = reply(201, created)
    written[row.get("/w1")] = reply(200, created)


def slot_of(kind, namespace, name):
    """The slot in which the server remembers the state of an object of the type with this number."""
    total = kind
    for byte in (namespace + name).encode():
        total = (total * 31 + byte) % 2 ** 32
    return total % 64


def objects_in_one_slot():
    """Writes in turn of objects that share the place where the server remembers the last state: two of one type, one of another."""
    namespace, summary = "one-slot", ("summary.example/v1", "LabelSummary")
    row = Namespace(namespace)
    assert slot_of(0, namespace, "a1b") == slot_of(0, namespace, "b1a") == slot_of(1, namespace, "a0b")
    path = f"/apis/summary.example/v1/namespaces/{namespace}/labelsummaries/a0b"

    def summed(code, version, total):
        shown = widget("a0b", version, [("alice", in_spec("label", "total"))], {"label": "tier", "total": total}, None, namespace, summary)
        body = {"apiVersion": summary[0], "kind": summary[1], "spec": {"label": "tier", "total": total}}
        apply("a0b", body, (code, shown), path=path)
        return shown

    row.patch("a1b", 201, 1)
    row.patch("b1a", 201, 2)
    summed(201, next_revision(), 2)
    row.patch("a1b", 200, 3)
    at = revision
    summed(200, at - 1, 2)
    apply("b1a", body_of(spec={"replicas": 4}), conflicts((".spec.replicas", "alice")), "bob", path=row.path + "/b1a")
    apply("a1b", body_of(spec={"replicas": 3}), (200, row.object("a1b", at, 3)), path=row.path + "/a1b")
    row.delete("a1b", lambda version: row.object("a1b", version, 3))
    row.patch("a1b", 201, 5)
    shown = summed(200, next_revision(), 6)
    connection = opened()
    comes(connection, request(HOST, target=path, method="GET"))
    written[connection] = reply(200, shown)


def hub_refusals():
    """Events that the hub refuses: nothing is written, and nothing changes."""
    connection = opened()
    for event in ({"open": connection - 1}, {"open": connection}, {"in": [connection + 9, "GET"]}, {"gone": connection + 9},
                  {"pump": [connection + 9, 0]}, {"pump": [connection, 0]}, {"pump": [connection, 1]}, {"tick": last_tick - 1},
                  {"tick": last_tick}, {"compact": 0}, {"compact": revision + 1}, {"compact": revision}):
        line(event)
    goes(connection)
    line({"pump": [connection, 0]})
    comes(connection, "GET")


def connections():
    """So many connections that no more is served, till one has ended."""
    waiting = [connection for connection, text in written.items() if text == "" and connection not in gone]
    while len(waiting) < 1024:
        waiting.append(opened())
    full = refused("too many connections")
    body = compact(body_of(metadata={"name": "w1"}))
    refused_one = opened(reply(*full))
    comes(refused_one, patch(body, target=WIDGETS + "w1?fieldManager=alice"))
    apply("w1", body_of(), full)
    comes(waiting[-1], patch("{}", method="PURGE"))
    written[waiting[-1]] = reply(*refused("method not served here"), allow="DELETE, GET, PATCH, PUT")
    apply("w9", [], refused("{}: not an object", "."))


def main():
    for row in (six_lines, first_apply, hostile_heads, routes, body_limits_and_numbers, envelopes, parameters, manager_name_limits,
                names, versions, all_conflicts_listed, lists, sizes, watches, objects_then_bookmark, compacted_under_a_watch,
                deletion_behind_objects, time_is_over, watch_leaves_selector, bookmark_after_unseen_changes, version_still_to_come,
                empty_lists, request_byte_by_byte, objects_in_one_slot, hub_refusals, connections):
        row()
    left = set(FOUND) - met
    assert not left, left
    with open(os.path.join(PROGRAM, "data", "script.jsonl")) as script:
        six = [json.loads(text) for text in script if text != "\n"]
    assert six == [json.loads(text) for text in lines[:6]]
    with open(os.path.join(PROGRAM, "stdout"), "w", newline="") as out:
        out.write("".join(replies[:6]))
    with open(os.path.join(MESSAGES, "script.jsonl"), "w") as out:
        out.write("".join(text + "\n" for text in lines))
    with open(os.path.join(MESSAGES, "stdout"), "w", newline="") as out:
        out.write("".join(replies))
        for connection, text in sorted(written.items()):
            out.write(f"connection {connection} {len(text)}\n{text}\n")


if __name__ == "__main__":
    main()
