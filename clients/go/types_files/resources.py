"""What a document declares: resources, each with the schema of one version."""

from __future__ import annotations

import dataclasses
import re
from typing import Any

from .notes import Note

Schema = dict[str, Any]


@dataclasses.dataclass(frozen=True)
class Resource:
    """One version of a definition that is served: it becomes a type."""

    group: str
    version: str
    kind: str
    plural: str
    schema: Schema
    # The subresources that it has there, and whether unknown fields are kept.
    subresources: tuple[str, ...]
    keeps_unknown: bool = False
    # Whether it is a type of a types file, whose formats are ignored by right.
    is_declared: bool = False

    @property
    def definition(self) -> str:
        """The name of the definition, as a CustomResourceDefinition has it."""
        return f"{self.plural}.{self.group}"

    @property
    def place(self) -> str:
        """The name of the type, as the server's refusals have it."""
        return f"{self.group}/{self.version}/{self.plural}"

    def bad_name(self) -> str | None:
        """The first name that the server doesn't take."""
        label = r"[a-z0-9]([-a-z0-9]{0,61}[a-z0-9])?"
        forms = {
            "group": rf"(?=.{{1,253}}$){label}(\.{label})*",
            "version": label,
            "plural": rf"(?!namespaces$){label}",
            "kind": "[A-Za-z0-9]+",
        }
        for name, form in forms.items():
            value = getattr(self, name)
            if not isinstance(value, str) or not re.fullmatch(form, value):
                return f"{name}: {value!r}"
        return None


def is_definition(value: Schema) -> bool:
    """Whether an object is a CustomResourceDefinition."""
    group = str(value.get("apiVersion", "")).partition("/")[0]
    kind = value.get("kind")
    return kind == "CustomResourceDefinition" and group == "apiextensions.k8s.io"


def name_of(definition: Schema) -> str:
    """The name of a CustomResourceDefinition, or `?`."""
    metadata = definition.get("metadata")
    return str(metadata.get("name", "?")) if isinstance(metadata, dict) else "?"


def versions_of(spec: Schema) -> list[Schema]:
    """The versions of a definition. v1beta1 may have one by its name alone, and beside them what they share."""
    if not spec.get("versions") and "version" not in spec:
        raise KeyError("versions")
    versions = spec.get("versions") or [{"name": spec["version"], "served": True}]
    shared = {
        "schema": spec.get("validation") or {},
        "subresources": spec.get("subresources") or {},
    }
    return [
        {**shared, **{k: v for k, v in it.items() if v is not None}} for it in versions
    ]


def resources_of(definition: Schema, notes: list[Note]) -> list[Resource]:
    """The served versions of a CustomResourceDefinition."""
    try:
        spec = definition["spec"]
        if spec.get("scope", "Namespaced") != "Namespaced":
            reason = "its objects have no namespace"
            notes.append(Note("type", name_of(definition), reason))
            return []
        note_names(name_of(definition), spec, notes)
        is_old = definition["apiVersion"].endswith("/v1beta1")
        keeps_unknown = is_old and spec.get("preserveUnknownFields") is not False
        return [
            resource_of(spec, version, keeps_unknown)
            for version in versions_of(spec)
            if version.get("served", True)
        ]
    except KeyError as error:
        reason = f"no whole definition: {error.args[0]} is missing"
    except (AttributeError, TypeError) as error:
        reason = f"no whole definition: {type(error).__name__} {error}"
    notes.append(Note("type", name_of(definition), reason))
    return []


def note_names(name: str, spec: Schema, notes: list[Note]) -> None:
    """Notes short names and columns, which kubectl would learn of a definition."""
    if short := spec["names"].get("shortNames"):
        reason = f"shortNames: {', '.join(short)}: kubectl finds it by plural and kind"
        notes.append(Note("warning", name, reason))
    columns = [*(spec.get("additionalPrinterColumns") or [])]
    for version in spec.get("versions") or []:
        columns += version.get("additionalPrinterColumns") or []
    if names := list(dict.fromkeys(str(it["name"]) for it in columns)):
        reason = f"columns: {', '.join(names)}: kubectl shows name and age alone"
        notes.append(Note("warning", name, reason))


def resource_of(spec: Schema, version: Schema, keeps_unknown: bool) -> Resource:
    """One version of a definition."""
    names = spec["names"]
    return Resource(
        spec["group"],
        str(version["name"]),
        names["kind"],
        names["plural"],
        (version.get("schema") or {}).get("openAPIV3Schema") or {},
        tuple(version.get("subresources") or {}),
        keeps_unknown,
    )


def declared_of(value: Schema, notes: list[Note]) -> list[Resource]:
    """The types of a types file."""
    resources = []
    if others := sorted(set(value) - {"types"}):
        notes.append(Note("type", "types", f"beside it: {', '.join(others)}"))
    for number, it in enumerate(value["types"]):
        try:
            more = set(it) - {"group", "version", "kind", "plural", "schema"}
            if more or not isinstance(it["schema"], dict):
                raise TypeError(", ".join(sorted(more)) or "schema")
            resource = Resource(
                it["group"],
                it["version"],
                it["kind"],
                it["plural"],
                it["schema"],
                ("status",),
                is_declared=True,
            )
        except (KeyError, TypeError) as error:
            reason = f"no whole type: {type(error).__name__} {error}"
            notes.append(Note("type", f"types[{number}]", reason))
            continue
        resources.append(resource)
    return resources
