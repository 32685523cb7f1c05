"""Makes the types of what files declare."""

from __future__ import annotations

from collections.abc import Sequence
from typing import Any

from .notes import Note
from .openapi import builtins_of, is_document
from .resources import Resource, declared_of, is_definition, name_of, resources_of
from .schemas import Unserved, schema_of

NOT_CONVERTED = "each has objects of its own, for none is converted"


class Making:
    """The types that are made, and what is noted on the way."""

    def __init__(self, only: list[str], mixed: str | None) -> None:
        self.only = only
        self.mixed = mixed
        self.types: list[dict[str, Any]] = []
        self.notes: list[Note] = []
        # The versions of each definition that were taken, and the names that were asked for and found.
        self.versions: dict[str, list[str]] = {}
        self.found: set[str] = set()

    def take(self, value: dict[str, Any]) -> None:
        """Takes an object of a file: a definition, OpenAPI, or a types file. Any other is ignored."""
        if is_definition(value):
            if self.is_wanted(name_of(value)):
                self.take_all(resources_of(value, self.notes))
        elif is_document(value):
            self.take_all(builtins_of(value))
        elif isinstance(value.get("types"), list):
            self.take_all(declared_of(value, self.notes))

    def is_wanted(self, definition: str) -> bool:
        """Whether a definition, or a version of it, was asked for."""
        return not self.only or definition in {it.partition("/")[0] for it in self.only}

    def take_all(self, resources: list[Resource]) -> None:
        """Takes the versions that were asked for."""
        for resource in resources:
            names = {resource.definition, f"{resource.definition}/{resource.version}"}
            self.found |= names & set(self.only)
            if not self.only or not names.isdisjoint(self.only):
                self.take_resource(resource)

    def take_resource(self, resource: Resource) -> None:
        """Makes a type of a version."""
        if bad := resource.bad_name():
            self.notes.append(Note("type", resource.place, bad))
            return
        versions = self.versions.setdefault(resource.definition, [])
        if resource.version in versions:
            reason = "declared before: the first declaration counts"
            self.notes.append(Note("type", resource.place, reason))
            return
        before = len(self.notes)
        try:
            schema = schema_of(resource, self.mixed, self.notes)
        except Unserved as error:
            self.notes[before:] = [
                it for it in self.notes[before:] if it.kind == "field"
            ]
            self.notes.append(Note("type", resource.place, str(error)))
            return
        except (AttributeError, KeyError, TypeError, ValueError) as error:
            reason = f"no whole schema: {type(error).__name__} {error}"
            self.notes[before:] = [Note("type", resource.place, reason)]
            return
        versions.append(resource.version)
        names = {
            "group": resource.group,
            "version": resource.version,
            "kind": resource.kind,
            "plural": resource.plural,
        }
        self.types.append({**names, "schema": schema})

    def nothing(self, files: Sequence[str]) -> str:
        """What is said where there are no types."""
        if self.notes:
            return "nothing is left to serve"
        return f"no CustomResourceDefinition in {', '.join(files)}"

    def end(self) -> None:
        """Notes what is to be said of all files together."""
        for definition, versions in self.versions.items():
            if len(versions) > 1:
                reason = f"of {', '.join(versions)} {NOT_CONVERTED}"
                self.notes.append(Note("warning", definition, reason))
        for name in self.only:
            known = {f"{it}/{v}" for it, vs in self.versions.items() for v in vs}
            if name not in self.found and name not in known:
                self.notes.append(Note("type", name, "no file declares it"))
