#!/usr/bin/env python3
"""Finds a released program, and says what the programs are made of.

    tools/released.py NAME         prints the path of the released program NAME (ssa-server, ..), unpacked where it wasn't yet
    tools/released.py --all        unpacks all programs, and prints their folder
    tools/released.py --sources    prints the sum of the sources that the programs are made of

The status is 0 where there is such a program of these sources; also, with a note on standard error, where it is of other ones
and there is no kit that could build it. It is 2 where nothing can be run, and 3 where the kit has to build it.
"""
from __future__ import annotations

import hashlib
import lzma
import os
import shutil
import stat
import sys
import tarfile
import typing

TOP = os.path.dirname(os.path.dirname(os.path.realpath(__file__)))
PLACE = f"{TOP}/release"
PARTS = ("src", "specs", "proofs")
# The programs that another one is, too, where it is called by their names, each with the crate of that one.
NAMES = {"ssa-pipe": "ssa_replay"}
NOTHING, NEEDS_KIT = 2, 3


class Manifest(typing.NamedTuple):
    """What a release's MANIFEST says. The sums are SHA-256; the archive is absent in the archive's own manifest."""

    version: str
    kit: str
    sources: str
    needs: str
    programs: dict[str, str]
    archive: tuple[str, str] | None

    def text(self) -> str:
        """The manifest as a file has it: a line for each fact."""
        rows = [
            f"version {self.version}",
            f"kit {self.kit}",
            f"sources {self.sources}",
            f"needs {self.needs}",
        ]
        rows += [
            f"program {name} {its_sum}"
            for name, its_sum in sorted(self.programs.items())
        ]
        rows += ["archive " + " ".join(self.archive)] if self.archive else []
        return "\n".join(rows) + "\n"


def manifest_of(text: str) -> Manifest:
    """The manifest that a file's text says."""
    facts: dict[str, str] = {}
    programs: dict[str, str] = {}
    for line in text.splitlines():
        word, _, rest = line.partition(" ")
        if word == "program":
            name, its_sum = rest.split()
            programs[name] = its_sum
        else:
            facts[word] = rest
    name, _, its_sum = facts.get("archive", "").partition(" ")
    return Manifest(
        facts["version"],
        facts["kit"],
        facts["sources"],
        facts["needs"],
        programs,
        (name, its_sum) if name else None,
    )


def manifest() -> Manifest | None:
    """The manifest of the release that stands here."""
    try:
        with open(f"{PLACE}/MANIFEST", encoding="utf-8") as it:
            return manifest_of(it.read())
    except FileNotFoundError:
        return None


def lines_of_crates() -> dict[str, str]:
    """The line of each crate in crates.txt, by name."""
    with open(f"{TOP}/crates.txt", encoding="utf-8") as it:
        rows = [line.partition("#")[0].strip() for line in it]
    return {row.partition(":")[0].strip(): row for row in rows if row}


def programs(lines: dict[str, str]) -> dict[str, str]:
    """The crate of each program, by the program's name; a program that another one is, too, stands behind that one."""
    found: dict[str, str] = {}
    for crate in lines:
        if os.path.isfile(f"{TOP}/crates/{crate}/src/main.rt"):
            found[crate.replace("_", "-")] = crate
            found |= {name: it for name, it in NAMES.items() if it == crate}
    return found


def built_file(name: str) -> str:
    """Where a program stands that was built here."""
    file = name.replace("-", "_")
    return f"{TOP}/crates/{NAMES.get(name, file)}/out/{file}"


def crates_below(lines: dict[str, str]) -> list[str]:
    """The crates of this repository that the programs are made of, in order of name."""
    found: set[str] = set()
    left = list(programs(lines).values())
    while left:
        name = left.pop()
        if name in lines and name not in found:
            found.add(name)
            left += lines[name].partition(":")[2].split()
    return sorted(found)


def files_of(crate: str) -> list[str]:
    """The files that a crate is made of, from the top on, in order."""
    found = []
    for part in PARTS:
        for at, _, files in os.walk(f"{TOP}/crates/{crate}/{part}"):
            found += [f"{at}/{name}"[len(TOP) + 1 :] for name in files]
    return sorted(found)


def sources_text(kit: str) -> str:
    """What the sum of the sources is the sum of: the kit, the lines of the crates, and their files as sha256sum lists them."""
    lines = lines_of_crates()
    crates = crates_below(lines)
    rows = [f"kit {kit}", *(lines[name] for name in crates)]
    for path in (path for name in crates for path in files_of(name)):
        with open(f"{TOP}/{path}", "rb") as it:
            rows.append(f"{sum_of(it.read())}  {path}")
    return "\n".join(rows) + "\n"


def sources(kit: str) -> str:
    """The sum of the sources as this kit makes programs of them."""
    return sum_of(sources_text(kit).encode())


def sum_of(data: bytes) -> str:
    """The SHA-256 of some bytes."""
    return hashlib.sha256(data).hexdigest()


def stop(why: str) -> typing.NoReturn:
    """Ends with the status for nothing to run."""
    print(f"released: {why}", file=sys.stderr)
    sys.exit(NOTHING)


def members(archive: str) -> typing.Iterator[tuple[str, bytes, int]]:
    """The files of an archive in order: the path below its one folder, the contents, the mode. A hard link stands behind
    its file, and is another file of the same contents."""
    last, data = "", b""
    with tarfile.open(archive, "r|xz") as it:
        for member in it:
            if member.isfile():
                stream = it.extractfile(member)
                assert stream is not None
                last, data = member.name, stream.read()
            elif not member.islnk():
                continue
            elif member.linkname != last:
                raise tarfile.TarError(f"{member.name} stands not behind its file")
            yield member.name.partition("/")[2], data, member.mode


def write_whole(path: str, data: bytes, mode: int) -> None:
    """Writes a file so that nobody sees half of it."""
    os.makedirs(os.path.dirname(path), exist_ok=True)
    half = f"{path}.{os.getpid()}"
    with open(half, "wb") as it:
        it.write(data)
    os.chmod(half, stat.S_IMODE(mode))
    os.replace(half, path)


def unpacked(release: Manifest, names: list[str]) -> str:
    """The folder where these programs of a release stand, each of the sum that the manifest says."""
    assert release.archive
    folder = f"{PLACE}/out/{release.version}-{release.archive[1][:16]}"
    # A program is written last, so where it stands its launcher does, too.
    left = {
        f"programs/{name}"
        for name in names
        if not os.path.exists(f"{folder}/programs/{name}")
    }
    for path, data, mode in members(f"{PLACE}/{release.archive[0]}") if left else ():
        if path in left:
            if sum_of(data) != release.programs[os.path.basename(path)]:
                stop(
                    f"{path} of {release.archive[0]} is not the program that release/MANIFEST names"
                )
            left.remove(path)
        elif path not in release.programs and path != "MANIFEST":
            continue
        write_whole(f"{folder}/{path}", data, mode)
        if not left:
            return folder
    if left:
        stop(f"{release.archive[0]} lacks {', '.join(sorted(left))}")
    return folder


def has_kit() -> bool:
    """Whether programs can be built here."""
    return shutil.which("rt") is not None


def folder_with(names: list[str]) -> str | int:
    """The folder where these released programs may be run, or the status that says why there is none."""
    release = manifest()
    lacks = [name for name in names if not release or name not in release.programs]
    if not release or lacks:
        if has_kit():
            return NEEDS_KIT
        print(
            f"released: there is no release of {', '.join(lacks) or 'these programs'} here, and no kit (`rt`) to build it",
            file=sys.stderr,
        )
        return NOTHING
    if sources(release.kit) != release.sources:
        if has_kit():
            return NEEDS_KIT
        print(
            f"released: the sources here are others than those of release {release.version}, which is run",
            file=sys.stderr,
        )
    return unpacked(release, names)


def main(words: list[str]) -> int:
    """Answers one of the three calls."""
    if len(words) != 1 or words[0] in ("-h", "--help"):
        print(__doc__)
        return 0 if words else NOTHING
    release = manifest()
    if words == ["--sources"]:
        print(sources(release.kit if release else ""))
        return 0
    names = (
        list(release.programs if release else programs(lines_of_crates()))
        if words == ["--all"]
        else words
    )
    try:
        folder = folder_with(names)
    except (OSError, EOFError, lzma.LZMAError, tarfile.TarError) as fault:
        stop(f"the release can't be unpacked: {fault}")
    if isinstance(folder, int):
        return folder
    print(folder if words == ["--all"] else f"{folder}/{words[0]}")
    return 0


if __name__ == "__main__":
    sys.exit(main(sys.argv[1:]))
