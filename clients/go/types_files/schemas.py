"""Makes of a definition's schema one that the server takes, and notes what it loses by that."""

from __future__ import annotations

from typing import Any

from .notes import Note, shown
from .resources import Resource, Schema

DEEPEST = 16
SCALARS = ("string", "integer", "boolean")
LIST_TYPES = ("atomic", "set", "map")
MAP_TYPES = ("granular", "atomic")
# What the server does otherwise than Kubernetes where a schema has these keywords.
REASONS = {
    "nullable": "a null is absence",
    "x-kubernetes-embedded-resource": "its apiVersion, kind and metadata are fields as others",
    "x-kubernetes-preserve-unknown-fields": "unknown fields are refused",
}
# What the server has, by the type that it goes with; and what no request shows.
KEPT = {
    "type": None,
    "properties": "object",
    "additionalProperties": "object",
    "items": "array",
    "x-kubernetes-list-type": "array",
    "x-kubernetes-list-map-keys": "array",
    "x-kubernetes-map-type": "object",
}
SILENT = (
    "$schema",
    "description",
    "example",
    "externalDocs",
    "id",
    "title",
    "x-kubernetes-group-version-kind",
    "x-kubernetes-patch-merge-key",
    "x-kubernetes-patch-strategy",
    "x-kubernetes-unions",
)


class Unserved(Exception):
    """A place that the server can't have, with the reason."""


def is_mixed(schema: Schema) -> bool:
    """Whether values are whole numbers or texts."""
    is_marked = schema.get("x-kubernetes-int-or-string") is True
    return is_marked and "type" not in schema or schema.get("format") == "int-or-string"


def says_nothing(word: str, value: Any, schema: Schema, is_declared: bool) -> bool:
    """Whether a keyword of a schema is kept, or asks for nothing. A types file has no others, whatever their value is."""
    if word in KEPT:
        return KEPT[word] in (None, schema.get("type"))
    if is_declared:
        return word in ("description", "format", "title")
    if word in SILENT or value is None:
        return True
    return word != "default" and (value is False or value in ([], {}))


def stated(word: str, value: Any) -> str:
    """A keyword with its value."""
    if word == "x-kubernetes-validations":
        return "CEL: " + "; ".join(str(it.get("rule")) for it in value)
    return word if value is True else f"{word}: {shown(value)}"


class Conversion:
    """The schemas of one resource. Places are as the server's refusals have them: `.spec.ports[]`, `.*` for a map's values."""

    def __init__(
        self, resource: Resource, mixed: str | None, notes: list[Note]
    ) -> None:
        self.resource = resource
        # The type that stands for `x-kubernetes-int-or-string`.
        self.mixed = mixed
        self.notes = notes

    def note(self, kind: str, place: str, reason: str) -> None:
        """Notes a loss or a difference at a place."""
        is_fault = kind == "rule" and self.resource.is_declared
        where = f"{self.resource.place} {place or '.'}"
        self.notes.append(Note(kind, where, reason, is_fault))

    def note_rules(self, schema: Schema, place: str) -> None:
        """Notes the keywords that nobody checks here."""
        for word, value in schema.items():
            if says_nothing(word, value, schema, self.resource.is_declared):
                continue
            reason = REASONS.get(word)
            told = stated(word, value)
            self.note("rule", place, f"{told}: {reason}" if reason else told)

    def served(self, schema: Any, place: str, depth: int) -> Schema:
        """The schema with the keywords of a types file alone."""
        if depth > DEEPEST:
            raise Unserved(f"deeper than {DEEPEST}")
        if not isinstance(schema, dict):
            raise Unserved("any value")
        if is_mixed(schema):
            return self.of_mixed(schema, place)
        schema = self.with_type(schema, place)
        kind = schema.get("type")
        if kind in SCALARS:
            self.note_rules(schema, place)
            return {"type": kind}
        if kind == "object":
            return self.of_object(schema, place, depth)
        if kind == "array":
            return self.of_array(schema, place, depth)
        raise Unserved(reason_of(schema))

    def with_type(self, schema: Schema, place: str) -> Schema:
        """The schema with the type that is meant where v1beta1 leaves it out, though any value would do there."""
        for word, kind in (("properties", "object"), ("items", "array")):
            if word in schema and "type" not in schema:
                self.note("rule", place, f"no type: served as {kind}")
                return {"type": kind, **schema}
        return schema

    def of_mixed(self, schema: Schema, place: str) -> Schema:
        """Whole numbers or texts: one of both, where that was asked for."""
        if self.mixed is None:
            raise Unserved("x-kubernetes-int-or-string")
        self.note("rule", place, f"x-kubernetes-int-or-string: served as {self.mixed}")
        others = {"anyOf", "format", "type", "x-kubernetes-int-or-string"}
        self.note_rules({k: v for k, v in schema.items() if k not in others}, place)
        return {"type": self.mixed}

    def of_object(self, schema: Schema, place: str, depth: int) -> Schema:
        """A struct, or a map."""
        if self.resource.is_declared:
            check_parts(schema)
        keeps_unknown = schema.get("x-kubernetes-preserve-unknown-fields") is True
        values = schema.get("additionalProperties")
        found: Schema = {"type": "object"}
        if "x-kubernetes-map-type" in schema:
            merging = schema["x-kubernetes-map-type"]
            if merging not in MAP_TYPES:
                raise Unserved(f"x-kubernetes-map-type: {merging}")
            found["x-kubernetes-map-type"] = merging
        if schema.get("properties"):
            if values not in (None, False):
                self.note("rule", place, "additionalProperties beside properties")
            self.note_rules(schema, place)
            found["properties"] = self.fields(schema["properties"], place, depth)
        elif values not in (None, False):
            self.note_rules(schema, place)
            inner = self.served_below(values, place, ".*", depth)
            found["additionalProperties"] = inner
        elif keeps_unknown or schema.get("x-kubernetes-embedded-resource") is True:
            raise Unserved("any object: x-kubernetes-preserve-unknown-fields")
        else:
            self.note_rules(schema, place)
            reason = "a struct without fields is never stored, for {} is absence"
            self.note("warning", place, reason)
        return found

    def fields(self, properties: Schema, place: str, depth: int) -> Schema:
        """The fields of a struct that can be served: one at least."""
        found = {}
        for name, inner in properties.items():
            before = len(self.notes)
            below = f"{place}.{name}"
            try:
                found[name] = self.served(inner, below, depth + 1)
            except Unserved as error:
                # What was noted of a field that goes as a whole is moot, but for the fields that made it go.
                self.notes[before:] = [
                    it for it in self.notes[before:] if it.kind == "field"
                ]
                self.note("field", below, str(error))
        if not found:
            raise Unserved("none of its fields can be served")
        return found

    def served_below(self, schema: Any, place: str, step: str, depth: int) -> Schema:
        """The schema of a map's values or of a list's items, whose fault is one of the whole field."""
        try:
            return self.served(schema, place + step, depth + 1)
        except Unserved as error:
            at = "" if " at " in str(error) else f" at {place}{step}"
            raise Unserved(f"{error}{at}") from error

    def of_array(self, schema: Schema, place: str, depth: int) -> Schema:
        """A list."""
        self.note_rules(schema, place)
        items = self.served_below(schema.get("items"), place, "[]", depth)
        found: Schema = {"type": "array"}
        kind = schema.get("x-kubernetes-list-type", "atomic")
        if kind not in LIST_TYPES:
            raise Unserved(f"x-kubernetes-list-type: {kind}")
        if kind == "set" and items["type"] not in SCALARS:
            reason = f"x-kubernetes-list-type: set: the list is atomic, for its items are {items['type']}s"
            self.note("rule", place, reason)
        elif kind == "map":
            keys = self.keys_of(schema, items, place)
            found["x-kubernetes-list-type"] = kind
            found["x-kubernetes-list-map-keys"] = keys
        elif "x-kubernetes-list-type" in schema:
            found["x-kubernetes-list-type"] = kind
        if kind != "map" and "x-kubernetes-list-map-keys" in schema:
            self.note("rule", place, "x-kubernetes-list-map-keys: no map list")
        found["items"] = items
        return found

    def keys_of(self, schema: Schema, items: Schema, place: str) -> list[str]:
        """The key fields of a map list, whose items are made granular."""
        keys = schema.get("x-kubernetes-list-map-keys") or []
        fields = items.get("properties", {})
        for key in keys:
            if fields.get(key, {}).get("type") not in SCALARS:
                raise Unserved(f"its key field {key} can't be served")
            if "default" in schema["items"]["properties"][key]:
                reason = "a key field with a default: an item without it is refused here (422 key field missing)"
                self.note("warning", f"{place}[].{key}", reason)
        if not keys:
            raise Unserved("a map list without key fields")
        if items.pop("x-kubernetes-map-type", "granular") != "granular":
            reason = "x-kubernetes-map-type: atomic: items of a map list are granular"
            self.note("rule", f"{place}[]", reason)
        return list(dict.fromkeys(keys))


def check_parts(schema: Schema) -> None:
    """Refuses what a types file may not have as the parts of an object, and what would mean nothing in a definition."""
    parts = [it for it in ("properties", "additionalProperties") if it in schema]
    for word in parts:
        if not isinstance(schema[word], dict):
            raise Unserved(stated(word, schema[word]))
    if len(parts) > 1:
        raise Unserved(" and ".join(parts))


def reason_of(schema: Schema) -> str:
    """Why a schema can't be served that has none of the types."""
    if schema.get("x-kubernetes-preserve-unknown-fields") is True:
        return "any value: x-kubernetes-preserve-unknown-fields"
    if "type" in schema:
        return f"type: {schema['type']}"
    if "$ref" in schema:
        return f"$ref: {schema['$ref']}"
    return "no type"


def schema_of(resource: Resource, mixed: str | None, notes: list[Note]) -> Schema:
    """The schema of a type, without what every object has."""
    conversion = Conversion(resource, mixed, notes)
    schema = dict(resource.schema)
    properties = {**schema.get("properties", {})}
    for name in ("apiVersion", "kind"):
        properties.pop(name, None)
    metadata = properties.pop("metadata", {})
    note_metadata(conversion, metadata)
    if resource.is_declared and schema.get("type") != "object":
        raise Unserved(reason_of(schema))
    if resource.is_declared and "properties" in schema and not properties:
        return {"type": "object", "properties": {}}
    if not properties:
        raise Unserved("its schema has no fields")
    schema["properties"] = properties
    if schema.pop("x-kubernetes-map-type", "granular") != "granular":
        conversion.note("rule", "", "x-kubernetes-map-type: atomic")
    if resource.keeps_unknown:
        reason = "preserveUnknownFields: unknown fields are refused"
        conversion.note("rule", "", reason)
    if "scale" in resource.subresources:
        conversion.note("rule", "", "subresource scale")
    found = conversion.served({**schema, "type": "object"}, "", 1)
    if "status" in found["properties"] and "status" not in resource.subresources:
        reason = "no subresource there, but here: what a write of the object itself has of it is dropped"
        conversion.note("warning", ".status", reason)
    return found


def note_metadata(conversion: Conversion, metadata: Schema) -> None:
    """Notes what a definition asks of an object's metadata."""
    for name, inner in metadata.get("properties", {}).items():
        conversion.note_rules(inner, f".metadata.{name}")
