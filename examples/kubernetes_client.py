#!/usr/bin/python3
"""Asks a running server by Python's package `kubernetes`: apply, be refused, force, list, watch, delete, and hold a lease.

    ./ssa-server --types TYPES --port 8001 --concurrent
    examples/kubernetes_client.py http://127.0.0.1:8001

TYPES has widgets and leases (examples/types/README.md says how). The status is 0 if each reply is the expected one. The server
has no objects at first.
"""

import json
import sys
from typing import Any

from kubernetes import client, dynamic, watch
from kubernetes.dynamic.resource import Resource
from kubernetes_helper import Objects

WIDGETS = ("demo.example", "v1", "default", "widgets")
WIDGET: dict[str, Any] = {
    "apiVersion": "demo.example/v1",
    "kind": "Widget",
    "metadata": {"name": "w1"},
}


def play(api: Objects) -> None:
    """Widgets, by the calls of custom objects and by apply."""
    widget = api.apply(*WIDGETS, {**WIDGET, "spec": {"image": "a"}}, "alice")
    assert widget["metadata"]["resourceVersion"] == "2"
    other = {**WIDGET, "spec": {"image": "b"}}
    try:
        api.apply(*WIDGETS, other, "bob")
        sys.exit("no conflict")
    except client.ApiException as refusal:
        causes = json.loads(refusal.body)["details"]["causes"]
        assert (refusal.status, causes[0]["field"]) == (409, ".spec.image")
    assert api.apply(*WIDGETS, other, "bob", force=True)["spec"] == {"image": "b"}
    listed = api.list_cluster_custom_object(
        *WIDGETS[:2], WIDGETS[3], label_selector="!tier", limit=1
    )
    assert [it["metadata"]["name"] for it in listed["items"]] == ["w1"]
    api.delete_namespaced_custom_object(*WIDGETS, "w1")
    lines = watch.Watch().stream(
        api.list_namespaced_custom_object,
        *WIDGETS,
        resource_version="1",
        timeout_seconds=2
    )
    told = [(it["type"], it["object"]["metadata"]["resourceVersion"]) for it in lines]
    assert told == [("ADDED", "2"), ("MODIFIED", "3"), ("DELETED", "4")]


def play_typed(api: client.CoordinationV1Api) -> None:
    """A lease by the typed calls. They leave out apiVersion and kind, which the server asks for."""
    lease = client.V1Lease(
        api_version="coordination.k8s.io/v1",
        kind="Lease",
        metadata=client.V1ObjectMeta(name="lock"),
        spec=client.V1LeaseSpec(holder_identity="a", lease_duration_seconds=15),
    )
    stale = api.create_namespaced_lease("default", lease)
    held = api.read_namespaced_lease("lock", "default")
    held.spec.holder_identity = "b"
    assert (
        api.replace_namespaced_lease("lock", "default", held).spec.holder_identity
        == "b"
    )
    try:
        api.replace_namespaced_lease("lock", "default", stale)
        sys.exit("an old version was taken")
    except client.ApiException as refusal:
        assert refusal.status == 409


def play_dynamic(api: client.ApiClient) -> None:
    """The dynamic client, which finds no types by itself: it is told this one."""
    found = dynamic.DynamicClient(api, discoverer=lambda *_: None)
    names = {
        "group": "demo.example",
        "api_version": "v1",
        "kind": "Widget",
        "name": "widgets",
    }
    widgets = Resource(prefix="apis", namespaced=True, verbs=[], client=found, **names)
    found.create(widgets, body={**WIDGET, "spec": {"image": "a"}}, namespace="other")
    assert found.get(widgets, name="w1", namespace="other").spec.image == "a"
    assert [
        it["type"] for it in found.watch(widgets, namespace="other", timeout=1)
    ] == ["ADDED"]


def main(words: list[str]) -> None:
    """Plays all of it."""
    if len(words) != 1 or words[0] in ("-h", "--help"):
        sys.exit(__doc__)
    objects = Objects(words[0])
    play(objects)
    play_typed(client.CoordinationV1Api(objects.api_client))
    play_dynamic(objects.api_client)
    print("each reply is the expected one")


if __name__ == "__main__":
    main(sys.argv[1:])
