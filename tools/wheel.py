#!/usr/bin/env python3
"""Makes a Python wheel that carries the released programs.

    tools/wheel.py [FOLDER]

It takes the package `nazhuvem` of clients/python as the release's archive has it, puts the programs into `nazhuvem/bin` and what
tools/crd is made of beside them, and writes FOLDER/nazhuvem-VERSION-py3-none-manylinux_X_Y_x86_64.whl; FOLDER is release/out where none is named. It needs no kit.
The same archive gives the same bytes.
"""
from __future__ import annotations

import base64
import hashlib
import io
import os
import re
import sys
import tomllib
import zipfile

import released
from released import PLACE, Manifest

PACKAGE = "nazhuvem"
HOME = "clients/python"
LICENCES = ("LICENSE", "NOTICE.md")
DAY = (1980, 1, 1, 0, 0, 0)
Files = dict[str, tuple[bytes, int]]


def package_of(files: Files) -> Files:
    """The package's own files, from where a wheel has them, without its tests."""
    for home in (f"{HOME}/{PACKAGE}/", f"{HOME}/src/{PACKAGE}/"):
        found = {
            f"{PACKAGE}/{path[len(home):]}": files[path]
            for path in files
            if path.startswith(home)
        }
        if found:
            return {
                path: it
                for path, it in found.items()
                if not path.startswith(f"{PACKAGE}/tests/")
            }
    sys.exit(f"wheel: the release's archive has no {HOME}/{PACKAGE}")


def tool_of(files: Files) -> Files:
    """What tools/crd is made of, by which the package reads definitions."""
    return {
        f"{PACKAGE}/{path[len('tools/'):]}": it
        for path, it in files.items()
        if path.startswith("tools/types_files/")
    }


def programs_of(files: Files, release: Manifest) -> Files:
    """The programs with what starts them and tells what they are."""
    paths = [
        "MANIFEST",
        *release.programs,
        *(f"programs/{name}" for name in release.programs),
    ]
    return {f"{PACKAGE}/bin/{path}": files[path] for path in paths}


def tag(release: Manifest) -> str:
    """The wheel's platform, by the C library that the programs need."""
    found = re.search(r"\bglibc (\d+)\.(\d+)$", release.needs)
    if not found:
        sys.exit("wheel: the manifest names no C library")
    return f"py3-none-manylinux_{found[1]}_{found[2]}_x86_64"


def metadata(files: Files, release: Manifest) -> str:
    """The wheel's METADATA, by the package's pyproject.toml."""
    project = tomllib.loads(files[f"{HOME}/pyproject.toml"][0].decode())["project"]
    rows = ["Metadata-Version: 2.1", f"Name: {PACKAGE}", f"Version: {release.version}"]
    rows += [f"Summary: {project['description']}"] if "description" in project else []
    rows += (
        [f"Requires-Python: {project['requires-python']}"]
        if "requires-python" in project
        else []
    )
    rows += [f"Requires-Dist: {it}" for it in project.get("dependencies", [])]
    rows += [
        "License: Apache-2.0",
        *(f"License-File: {name}" for name in LICENCES if name in files),
    ]
    page = files.get(f"{HOME}/README.md")
    rows += (
        ["Description-Content-Type: text/markdown", "", without_links(page[0].decode())]
        if page
        else [""]
    )
    return "\n".join(rows)


def without_links(page: str) -> str:
    """A page without the links to others of the repository, which lead nowhere on an index."""
    return re.sub(r"\[([^\[\]]+)\]\((?!\w+:|#)[^()\s]+\)", r"\1", page)


def entry_points(files: Files) -> str:
    """What the package gives to installers and to pytest, by its pyproject.toml."""
    project = tomllib.loads(files[f"{HOME}/pyproject.toml"][0].decode())["project"]
    groups = {"console_scripts": project.get("scripts", {})}
    groups |= project.get("entry-points", {})
    return "\n".join(
        f"[{group}]\n" + "".join(f"{name} = {it}\n" for name, it in points.items())
        for group, points in groups.items()
        if points
    )


def record_line(path: str, data: bytes) -> str:
    """A file's line in RECORD."""
    digest = (
        base64.urlsafe_b64encode(hashlib.sha256(data).digest()).rstrip(b"=").decode()
    )
    return f"{path},sha256={digest},{len(data)}\n"


def wheel_of(files: Files, release: Manifest) -> bytes:
    """The wheel: a zip of the package, the programs and what an installer reads."""
    info = f"{PACKAGE}-{release.version}.dist-info"
    held = package_of(files) | tool_of(files) | programs_of(files, release)
    held |= {f"{info}/{name}": files[name] for name in LICENCES if name in files}
    held[f"{info}/METADATA"] = metadata(files, release).encode(), 0o644
    if points := entry_points(files):
        held[f"{info}/entry_points.txt"] = points.encode(), 0o644
    wheel = f"Wheel-Version: 1.0\nGenerator: tools/wheel.py\nRoot-Is-Purelib: false\nTag: {tag(release)}\n"
    held[f"{info}/WHEEL"] = wheel.encode(), 0o644
    record = (
        "".join(record_line(path, data) for path, (data, _) in sorted(held.items()))
        + f"{info}/RECORD,,\n"
    )
    held[f"{info}/RECORD"] = record.encode(), 0o644
    whole = io.BytesIO()
    with zipfile.ZipFile(whole, "w") as it:
        for path, (data, mode) in held.items():
            entry = zipfile.ZipInfo(path, DAY)
            entry.create_system, entry.external_attr = 3, (0o100000 | mode) << 16
            it.writestr(entry, data, zipfile.ZIP_DEFLATED, 9)
    return whole.getvalue()


def main(words: list[str]) -> int:
    """Writes the wheel."""
    if len(words) > 1 or any(word.startswith("-") for word in words):
        print(__doc__)
        return int(words not in (["-h"], ["--help"]))
    release = released.manifest()
    if not release or not release.archive:
        sys.exit("wheel: there is no release here")
    files = {
        path: (data, mode)
        for path, data, mode in released.members(f"{PLACE}/{release.archive[0]}")
    }
    data = wheel_of(files, release)
    path = f"{os.path.realpath(words[0]) if words else f'{PLACE}/out'}/{PACKAGE}-{release.version}-{tag(release)}.whl"
    try:
        released.write_whole(path, data, 0o644)
    except OSError as error:
        sys.exit(f"wheel: {path}: {error.strerror}")
    print(f"{path}\n{len(data)} bytes")
    return 0


if __name__ == "__main__":
    sys.exit(main(sys.argv[1:]))
