"""Reads the built-in types of Kubernetes' OpenAPI document (version 2, `api/openapi-spec/swagger.json` of its sources)."""

from __future__ import annotations

import re
from typing import Any

from .resources import Resource, Schema

PATH = re.compile(r"/apis/([^/]+)/([^/]+)/namespaces/\{namespace\}/([^/]+)/\{name\}$")
MARK = "x-kubernetes-group-version-kind"
# Definitions of any object, which the document has as objects without fields.
ANY = (
    "io.k8s.apimachinery.pkg.apis.meta.v1.FieldsV1",
    "io.k8s.apimachinery.pkg.runtime.RawExtension",
)


def is_document(value: Schema) -> bool:
    """Whether an object is an OpenAPI document of version 2."""
    return value.get("swagger") == "2.0" and "definitions" in value


def with_list_type(schema: Schema) -> Schema:
    """A list of built-in types says how it merges by its patch strategy, too, as kube-apiserver reads it."""
    is_said = "x-kubernetes-list-type" in schema
    merges = schema.get("x-kubernetes-patch-strategy") in ("merge", "merge,retainKeys")
    if schema.get("type") != "array" or is_said or not merges:
        return schema
    if "x-kubernetes-patch-merge-key" not in schema:
        return {**schema, "x-kubernetes-list-type": "set"}
    keys = [schema["x-kubernetes-patch-merge-key"]]
    merging = {"x-kubernetes-list-type": "map", "x-kubernetes-list-map-keys": keys}
    return {**schema, **merging}


def expanded(value: Any, definitions: Schema, above: tuple[str, ...] = ()) -> Any:
    """A schema with what its references name; a reference to what contains it stays."""
    if isinstance(value, list):
        return [expanded(it, definitions, above) for it in value]
    if not isinstance(value, dict):
        return value
    name = str(value.get("$ref", "")).removeprefix("#/definitions/")
    if name in ANY:
        return {"type": "object", "x-kubernetes-preserve-unknown-fields": True}
    if name and name not in above and name in definitions:
        return expanded(definitions[name], definitions, (*above, name))
    found = {k: expanded(it, definitions, above) for k, it in value.items()}
    return with_list_type(found)


def builtins_of(document: Schema) -> list[Resource]:
    """The namespaced types of named groups."""
    definitions, paths = document["definitions"], document["paths"]
    schemas = {
        (it["group"], it["version"], it["kind"]): schema
        for schema in definitions.values()
        for it in schema.get(MARK, [])
    }
    resources = []
    for path, methods in sorted(paths.items()):
        found = PATH.match(path)
        kind = methods.get("get", {}).get(MARK, {}).get("kind")
        if not found or not kind:
            continue
        group, version, plural = found.groups()
        schema = expanded(schemas[group, version, kind], definitions)
        # It is the same of all types.
        schema["properties"].pop("metadata", None)
        has = tuple(it for it in ("scale", "status") if f"{path}/{it}" in paths)
        resources.append(Resource(group, version, kind, plural, schema, has))
    return resources
