"""A controller: a widget with `spec.replicas: n` gets n children, widgets of its image with the label `parent`, and `status.ready`.

There are no owner references here: it deletes the children of a widget that is gone.
"""

import threading
from typing import Any

from kubernetes import client, watch
from kubernetes_helper import Objects

GROUP, VERSION, PLURAL = "demo.example", "v1", "widgets"
WIDGET: dict[str, Any] = {"apiVersion": f"{GROUP}/{VERSION}", "kind": "Widget"}
MANAGER = "controller"


class Controller:
    """Reconciles the widgets of a namespace, in a thread, from `start` to `stop`."""

    def __init__(self, api: Objects, namespace: str) -> None:
        self.api = api
        self.place = (GROUP, VERSION, namespace, PLURAL)
        self.errors: list[client.ApiException] = []
        self.stopping = threading.Event()
        self.thread = threading.Thread(target=self.run)

    def start(self) -> None:
        """Begins."""
        self.thread.start()

    def stop(self) -> None:
        """Ends; the watch ends by its seconds."""
        self.stopping.set()
        self.thread.join()

    def run(self) -> None:
        """Lists, reconciles, then watches from there."""
        listed = self.api.list_namespaced_custom_object(*self.place)
        for name in sorted({parent_of(it) for it in listed["items"]}):
            self.try_reconcile(name)
        version = listed["metadata"]["resourceVersion"]
        while not self.stopping.is_set():
            lines = watch.Watch().stream(
                self.api.list_namespaced_custom_object,
                *self.place,
                resource_version=version,
                timeout_seconds=1,
            )
            for line in lines:
                version = line["object"]["metadata"]["resourceVersion"]
                self.try_reconcile(parent_of(line["object"]))

    def try_reconcile(self, name: str) -> None:
        """Reconciles a widget. What fails is kept for the test."""
        try:
            self.reconcile(name)
        except client.ApiException as error:
            self.errors.append(error)

    def reconcile(self, name: str) -> None:
        """Makes and deletes the children of a widget, and writes its status."""
        parent = self.get(name)
        spec = parent.get("spec", {}) if parent else {}
        wanted = [f"{name}-{n}" for n in range(spec.get("replicas", 0))]
        for child in wanted:
            metadata = {"name": child, "labels": {"parent": name}}
            body = {"metadata": metadata, "spec": {"image": spec.get("image", "none")}}
            self.apply(body)
        selector = f"parent={name}"
        found = self.api.list_namespaced_custom_object(
            *self.place, label_selector=selector
        )
        for child in [it["metadata"]["name"] for it in found["items"]]:
            if child not in wanted:
                self.delete(child)
        if parent:
            self.write_status(name, len(wanted))

    def get(self, name: str) -> dict[str, Any] | None:
        """A widget, if it is there."""
        try:
            found: dict[str, Any] = self.api.get_namespaced_custom_object(
                *self.place, name
            )
            return found
        except client.ApiException as error:
            if error.status != 404:
                raise
            return None

    def apply(self, body: dict[str, Any], subresource: str = "") -> None:
        """Applies what the controller wants."""
        body = {**WIDGET, **body}
        self.api.apply(*self.place, body, MANAGER, force=True, subresource=subresource)

    def delete(self, name: str) -> None:
        """Deletes a widget, unless somebody else did."""
        try:
            self.api.delete_namespaced_custom_object(*self.place, name)
        except client.ApiException as error:
            if error.status != 404:
                raise

    def write_status(self, name: str, ready: int) -> None:
        """Writes the status. A widget that was deleted since it was read needs none."""
        body = {"metadata": {"name": name}, "status": {"ready": ready}}
        try:
            self.apply(body, "status")
        except client.ApiException as error:
            if error.status != 404:
                raise


def parent_of(widget: dict[str, Any]) -> str:
    """The widget to reconcile where this one changed."""
    metadata = widget["metadata"]
    name: str = metadata.get("labels", {}).get("parent", metadata["name"])
    return name
