"""Reads the documents of files: JSON by the standard library, YAML by Debian's python3-yaml."""

from __future__ import annotations

import json
import os
import sys
import types
from collections.abc import Iterator
from typing import Any

# The files of a folder that are read.
ENDINGS = (".yaml", ".yml", ".json")
# PyYAML has no text for a plain `=` (an enum of some definitions has it), and makes dates of texts that look like one.
TEXTS = ("tag:yaml.org,2002:value", "tag:yaml.org,2002:timestamp")


class BadFile(Exception):
    """A file that can't be read, with the reason."""


def text_of(path: str) -> str:
    """The text of a file, or of the standard input where its name is `-`."""
    try:
        if path == "-":
            return sys.stdin.read()
        with open(path, encoding="utf-8") as it:
            return it.read()
    except (OSError, UnicodeDecodeError) as error:
        raise BadFile(f"{path}: {error}") from error


def yaml_documents(yaml: types.ModuleType, text: str) -> list[Any]:
    """The documents of a YAML text."""

    class Loader(getattr(yaml, "CSafeLoader", yaml.SafeLoader)):  # type: ignore[misc]
        """The safe loader, but for the scalars that are texts here."""

    for tag in TEXTS:
        Loader.add_constructor(tag, lambda loader, node: loader.construct_scalar(node))
    return list(yaml.load_all(text, Loader))


def files_of(folder: str) -> list[str]:
    """The files of a folder that may have definitions."""
    names = sorted(it for it in os.listdir(folder) if it.endswith(ENDINGS))
    if not names:
        raise BadFile(
            f"{folder}: no file of this folder ends with {', '.join(ENDINGS)}"
        )
    return [os.path.join(folder, it) for it in names]


def documents_of(path: str) -> list[Any]:
    """The documents of a file, which is JSON, or else YAML, or of a folder's files."""
    if os.path.isdir(path):
        return [it for file in files_of(path) for it in documents_of(file)]
    try:
        return documents_of_text(path, text_of(path))
    except RecursionError as error:
        raise BadFile(f"{path}: nested too deep") from error


def documents_of_text(path: str, text: str) -> list[Any]:
    """The documents of a text, which is JSON, or else YAML."""
    try:
        return [json.loads(text)]
    except json.JSONDecodeError as error:
        not_json = f"{path}: not JSON ({error})"
    try:
        import yaml  # pylint: disable=import-outside-toplevel
    except ImportError as error:
        raise BadFile(f"{not_json}; YAML needs Debian's python3-yaml") from error
    try:
        return yaml_documents(yaml, text)
    except yaml.YAMLError as error:
        raise BadFile(f"{not_json}, and not YAML: {error}") from error


def objects_of(documents: list[Any]) -> Iterator[dict[str, Any]]:
    """The objects of documents, those of lists one by one."""
    for document in documents:
        if not isinstance(document, dict):
            continue
        if isinstance(document.get("items"), list):
            yield from objects_of(document["items"])
        else:
            yield document
