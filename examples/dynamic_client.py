#!/usr/bin/python3
"""Asks a running server with `--discovery` by the dynamic client of Python's package `kubernetes`, which finds the type by itself.

    ./ssa-server --types examples/widgets.json --port 8001 --concurrent --discovery
    examples/dynamic_client.py http://127.0.0.1:8001

It prints what it is told. The server has no widgets at first.
"""

import json
import os
import sys
import tempfile
from typing import Any

from kubernetes import client
from kubernetes.dynamic import DynamicClient, exceptions


def widget(image: str) -> dict[str, Any]:
    """A widget with this image."""
    names = {"apiVersion": "demo.example/v1", "kind": "Widget"}
    metadata = {"name": "w1", "labels": {"tier": "web"}}
    return {**names, "metadata": metadata, "spec": {"image": image}}


def play(found: DynamicClient) -> None:
    """Creates, applies, lists, watches, replaces and deletes a widget."""
    widgets = found.resources.get(api_version="demo.example/v1", kind="Widget")
    print(widgets.group_version, widgets.name, *widgets.verbs)
    at = {"name": "w1", "namespace": "default"}

    def applied(image: str, manager: str, **more: bool) -> str:
        # (of 22.6 it takes the body as a text alone)
        body = json.dumps(widget(image))
        done = widgets.server_side_apply(
            body=body, field_manager=manager, **at, **more
        )
        return f"{manager} applies {done.spec.image}"

    print(applied("a", "alice"))
    try:
        print(applied("b", "bob"))
    except exceptions.ConflictError as refusal:
        print("bob is refused:", refusal.summary())
    print(applied("b", "bob", force_conflicts=True))
    listed = widgets.get(namespace="default", label_selector="tier=web")
    print("tier=web", [it.metadata.name for it in listed.items])
    changed = widgets.get(**at)
    changed.spec.image = "c"
    print("replaced", widgets.replace(body=changed.to_dict(), namespace="default").spec)
    lines = widgets.watch(namespace="default", timeout=2)
    print("watched", [(it["type"], it["object"].metadata.name) for it in lines])
    print("deleted", widgets.delete(**at).metadata.resourceVersion)


def main(words: list[str]) -> None:
    """Plays all of it."""
    if len(words) != 1 or words[0] in ("-h", "--help"):
        sys.exit(__doc__)
    settings = client.Configuration()
    settings.host = words[0]
    with tempfile.TemporaryDirectory() as folder:
        api = client.ApiClient(settings)
        play(DynamicClient(api, cache_file=os.path.join(folder, "cache")))


if __name__ == "__main__":
    main(sys.argv[1:])
