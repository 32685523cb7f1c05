"""A controller: a database's status says how many replicas are ready."""

from typing import Any

DATABASES = ("shop.example", "v1", "default", "databases")


def reconcile(api: Any, name: str) -> None:
    database = api.get_namespaced_custom_object(*DATABASES, name)
    database["status"] = {"ready": database["spec"]["replicas"]}
    api.replace_namespaced_custom_object_status(*DATABASES, name, database)
