"""Types: of a types file, of CustomResourceDefinitions, or of a value."""

from __future__ import annotations

import atexit
import importlib
import importlib.util
import json
import os
import shutil
import sys
import tempfile
import warnings
from os import PathLike
from pathlib import Path
from typing import Any, Mapping, Optional, Sequence, Union

from nazhuvem.errors import TypesError

__tracebackhide__ = True

_Path = Union[str, "PathLike[str]"]
#: A types file, a CustomResourceDefinition, a bundle or a folder of them, by its path
#: or by paths; or a value, `{"types": [..]}` or one definition.
Types = Union[_Path, Mapping[str, Any], Sequence[_Path]]

# The tool that makes types of definitions: a wheel carries it, a repository and a
# release have it in tools/.
_TOOL = "nazhuvem_types_files"
_PACKAGE = Path(__file__).resolve().parent
_MOST_LINES = 12

# The files that were made of definitions, by their files as they were then.
_made: dict[tuple[object, ...], str] = {}
# The values of files, by these as they were then.
_read: dict[tuple[object, ...], Any] = {}


class TypesWarning(UserWarning):
    """What of CustomResourceDefinitions isn't served, or isn't checked."""


def tool(name: str) -> Any:
    """A module of the tool that makes types of definitions."""
    if _TOOL not in sys.modules:
        tools = [it / "tools" for it in list(_PACKAGE.parents)[2:3]]
        folders = [_PACKAGE / "types_files", *(it / "types_files" for it in tools)]
        for folder in folders:
            if (folder / "__init__.py").is_file():
                _load(folder)
                break
        else:
            raise TypesError(
                "the package has no tools/crd, which reads CustomResourceDefinitions: "
                "install the wheel, or give a types file"
            )
    return importlib.import_module(f"{_TOOL}.{name}")


def _load(folder: Path) -> None:
    path = folder / "__init__.py"
    places = [str(folder)]
    found = importlib.util.spec_from_file_location(
        _TOOL, path, submodule_search_locations=places
    )
    assert found and found.loader
    sys.modules[_TOOL] = importlib.util.module_from_spec(found)
    found.loader.exec_module(sys.modules[_TOOL])


def _made_of(paths: Sequence[str], values: Sequence[Any] = ()) -> str:
    """The text of the types file of definitions. What is lost is a warning."""
    documents, notes = tool("documents"), tool("notes")
    making = tool("making").Making([], None)
    try:
        for path in paths:
            values = [*values, *documents.objects_of(documents.documents_of(path))]
    except documents.BadFile as error:
        raise TypesError(str(error)) from None
    for value in values:
        making.take(value)
    making.end()
    lines = [str(note) for note in notes.ordered(notes.summed(making.notes))]
    if not making.types:
        raise TypesError("\n".join([making.nothing(paths), *lines]))
    if lines:
        whose = ", ".join(paths) or "the definition"
        _warn(f"{whose}: {notes.counted(making.notes)} (tools/crd tells all)", lines)
    return json.dumps({"types": making.types})


def _warn(head: str, lines: Sequence[str]) -> None:
    more = len(lines) - _MOST_LINES
    told = [head, *lines[:_MOST_LINES], *([f".. {more} more"] if more > 0 else [])]
    level, frame = 1, sys._getframe()
    while frame and "__tracebackhide__" in frame.f_globals:
        level, frame = level + 1, frame.f_back  # type: ignore[assignment]
    warnings.warn("\n".join(told), TypesWarning, stacklevel=level)


def _is_types_file(value: object) -> bool:
    return isinstance(value, Mapping) and "types" in value


def _state_of(path: str) -> tuple[object, ...]:
    """What says whether a file, or a folder's files, are as they were."""
    names = sorted(os.listdir(path)) if os.path.isdir(path) else []
    stats = [os.stat(it) for it in (path, *(os.path.join(path, it) for it in names))]
    return (os.path.abspath(path), *((it.st_mtime_ns, it.st_size) for it in stats))


def _temporary(text: str) -> str:
    descriptor, path = tempfile.mkstemp(".json", "nazhuvem-types-")
    with os.fdopen(descriptor, "w", encoding="utf-8") as file:
        file.write(text)
    return path


def _remove(path: str, process: int) -> None:
    if os.getpid() == process and os.path.exists(path):
        os.unlink(path)


class TypesFile:
    """A types file as a path: the one given, or a temporary one of definitions or of
    a value."""

    def __init__(self, types: Types) -> None:
        self._is_own = False
        self._is_temporary = True
        self._value: Any = None
        if isinstance(types, Mapping):
            is_plain = _is_types_file(types)
            text = json.dumps(types) if is_plain else _made_of([], [dict(types)])
            self.path: str = _temporary(text)
            self._is_own = True
            self._value = json.loads(text)
            return
        if isinstance(types, (str, PathLike)):
            types = [types]
        self._take([os.fspath(path) for path in types])

    def _take(self, paths: Sequence[str]) -> None:
        try:
            states = tuple(_state_of(path) for path in paths)
        except OSError as error:
            raise TypesError(f"{error.filename}: {error.strerror}") from None
        if len(paths) == 1 and not os.path.isdir(paths[0]):
            if states not in _read:
                _read[states] = _json_of(paths[0])
            self._value = _read[states]
            if _is_types_file(self._value):
                self.path = paths[0]
                self._is_temporary = False
                return
        if states not in _made:
            _made[states] = _temporary(_made_of(paths))
            atexit.register(_remove, _made[states], os.getpid())
        self.path = _made[states]
        self._value = _json_of(self.path)

    def first(self) -> dict[str, Any]:
        """The first type; nothing where the file is none of types, as the program
        will say."""
        try:
            one = self._value["types"][0]
            return {it: one[it] for it in ("group", "version", "kind", "plural")}
        except (TypeError, LookupError):
            return {}

    @property
    def names(self) -> list[str]:
        """The types as clients name them: `widgets.demo.example`."""
        return [f"{it['plural']}.{it['group']}" for it in self._value["types"]]

    def kept(self, beside: str) -> str:
        """A path that is there after this; a temporary file is copied beside
        another."""
        if not self._is_temporary:
            return os.path.abspath(self.path)
        path = f"{os.path.splitext(beside)[0]}.types.json"
        shutil.copyfile(self.path, path)
        return path

    def remove(self) -> None:
        """Removes the file, where it is one of its own."""
        if self._is_own:
            self._is_own = False
            os.unlink(self.path)


def _json_of(path: str) -> Optional[Any]:
    """The value of a file of JSON; nothing where it is none."""
    try:
        with open(path, encoding="utf-8") as file:
            return json.load(file)
    except OSError as error:
        raise TypesError(f"{path}: {error.strerror}") from None
    except (ValueError, RecursionError):
        return None
