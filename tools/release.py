#!/usr/bin/env python3
"""Makes the release of the programs that the gate built, or compares what it built with the release.

    tools/release.py            writes release/nazhuvem-VERSION-x86_64-linux.tar.xz and release/MANIFEST
    tools/release.py --check    says where the release is not what its manifest says, and, where the sources and the kit are
                                those of the manifest, which program that was built here is another one; the status is then 1

A release has the programs of crates/*/out without their symbols, the pages, the examples, the packages of clients/,
tools/crd and the licence. The version is the constant VERSION of the crate `programs`. The same files give the same bytes.
"""
from __future__ import annotations

import glob
import io
import lzma
import os
import re
import stat
import subprocess
import sys
import tarfile
import tempfile

import released
from released import PLACE, TOP, Manifest

VERSION_FILE = f"{TOP}/crates/programs/src/commands.rt"
PAGES = (
    "README.md",
    "LICENSE",
    "NOTICE.md",
    "CHANGELOG.md",
    "docs",
    "examples",
    "clients",
    "tools/crd",
    "tools/types_files",
)
FIRST = ("MANIFEST", "ssa-server")
# What a system has to have: the C library and its loader.
LIBRARIES = {"libc.so.6", "libm.so.6", "ld-linux-x86-64.so.2"}
LOADER = "/lib64/ld-linux-x86-64.so.2"
# What the kit's compiler makes programs for (its verdict says `cpu=`).
PROCESSOR = "x86-64-v2"
# 1980-01-01, the first day that both a tar and a wheel can name.
DAY = 315532800
Files = dict[str, tuple[bytes, int]]


def said(*words: str, executable: str | None = None) -> str:
    """What a command prints, or a program that is called by the command's name."""
    return subprocess.run(
        words,
        executable=executable,
        cwd=TOP,
        stdout=subprocess.PIPE,
        text=True,
        check=True,
    ).stdout.strip()


def version() -> str:
    """The version that the programs print."""
    with open(VERSION_FILE, encoding="utf-8") as it:
        found = re.search(r'^const VERSION: &str = "([^"]+)";$', it.read(), re.M)
    if not found:
        sys.exit(
            f"release: no constant VERSION in {os.path.relpath(VERSION_FILE, TOP)}"
        )
    return found[1]


def llvm(tool: str, *words: str) -> str:
    """What one of the tools prints that stand in the kit's compiler; so the kit alone decides which bytes a release has."""
    kit = os.path.dirname(said("rt", "doc"))
    ran = subprocess.run(
        [tool, *words],
        executable=f"{kit}/toolchain/bin/clang",
        stdout=subprocess.PIPE,
        text=True,
        check=True,
    )
    return ran.stdout


def built_file(crate: str) -> str:
    """Where a program stands that was built."""
    return f"{TOP}/crates/{crate}/out/{crate}"


def stripped(path: str) -> bytes:
    """A program without its symbols."""
    with tempfile.TemporaryDirectory() as room:
        llvm("llvm-strip", "--strip-all", "-o", f"{room}/program", path)
        with open(f"{room}/program", "rb") as it:
            return it.read()


def built() -> dict[str, bytes]:
    """The programs that were built, without their symbols, by name."""
    crates = released.programs(released.lines_of_crates())
    return {
        name: stripped(built_file(crate))
        for name, crate in crates.items()
        if os.path.exists(built_file(crate))
    }


def needs(paths: list[str]) -> str:
    """What a system has to have for these programs; anything but the C library ends this."""
    versions = set()
    for path in paths:
        text = llvm(
            "llvm-readelf", "--program-headers", "--dynamic", "--version-info", path
        )
        libraries = set(re.findall(r"Shared library: \[(.*?)\]", text))
        loader = re.findall(r"program interpreter: (.*?)\]", text)
        if (
            not libraries <= LIBRARIES
            or loader != [LOADER]
            or re.search(r"\((RPATH|RUNPATH)\)", text)
        ):
            sys.exit(
                f"release: {os.path.basename(path)} needs {', '.join(sorted(libraries))} by {loader}, and not the C library alone"
            )
        versions |= {
            tuple(map(int, found.split(".")))
            for found in re.findall(r"\bGLIBC_([0-9.]+)", text)
        }
    return f"Linux on {PROCESSOR} with glibc {'.'.join(map(str, max(versions)))}"


def pages() -> Files:
    """The files beside the programs: those of the pages and folders that git knows."""
    found: Files = {}
    for path in filter(None, said("git", "ls-files", "-z", *PAGES).split("\0")):
        with open(f"{TOP}/{path}", "rb") as it:
            found[path] = (
                it.read(),
                0o755 if os.fstat(it.fileno()).st_mode & stat.S_IXUSR else 0o644,
            )
    return found


def filters(size: int) -> list[dict[str, int]]:
    """How so many bytes are compressed: the dictionary spans all programs, which are alike in great parts. A filter for
    x86 would spare little, and the tools that make images don't read it."""
    span = 1 << max(20, (size - 1).bit_length())
    return [
        {"id": lzma.FILTER_LZMA2, "preset": 9 | lzma.PRESET_EXTREME, "dict_size": span}
    ]


def archive_of(folder: str, files: Files, links: dict[str, str]) -> bytes:
    """The archive of these files in this order, in one folder; those that are hard links are named with their files."""
    whole = io.BytesIO()
    with tarfile.open(fileobj=whole, mode="w", format=tarfile.USTAR_FORMAT) as it:
        for path, (data, mode) in files.items():
            member = tarfile.TarInfo(f"{folder}/{path}")
            member.mode, member.mtime = mode, DAY
            if path in links:
                member.type = tarfile.LNKTYPE
                member.linkname = f"{folder}/{links[path]}"
            else:
                member.size = len(data)
            it.addfile(member, io.BytesIO(data))
    data = whole.getvalue()
    return lzma.compress(data, format=lzma.FORMAT_XZ, filters=filters(len(data)))


def release_of(programs: dict[str, bytes], its: Manifest) -> tuple[Manifest, bytes]:
    """The manifest and the archive of these programs."""
    with open(f"{TOP}/tools/launcher", "rb") as it:
        launcher = it.read()
    files: Files = {"MANIFEST": (its.text().encode(), 0o644)}
    files |= {name: (launcher, 0o755) for name in sorted(programs)}
    # The server's program comes first, so that its start needn't unpack the others. The names of one program follow each
    # other, and all but the first of them are links.
    names = {data: name for name, data in sorted(programs.items(), reverse=True)}
    first = {name: names[data] for name, data in programs.items()}
    links: dict[str, str] = {}
    for name in sorted(programs, key=lambda it: (it not in FIRST, first[it], it)):
        files[f"programs/{name}"] = programs[name], 0o755
        if first[name] != name:
            links[f"programs/{name}"] = f"programs/{first[name]}"
    data = archive_of(f"nazhuvem-{its.version}", files | pages(), links)
    name = f"nazhuvem-{its.version}-x86_64-linux.tar.xz"
    return its._replace(archive=(name, released.sum_of(data))), data


def stop_on_stale(programs: dict[str, bytes], crates: dict[str, str]) -> None:
    """Ends this where a program isn't built, or is of another version."""
    for name, crate in crates.items():
        if name not in programs:
            sys.exit(f"release: {name} is not built; ./test builds all programs")
        its = said(name, "--version", executable=built_file(crate))
        if its != f"{name} {version()}":
            sys.exit(
                f"release: {os.path.relpath(built_file(crate), TOP)} is {its}, and not of version {version()}"
            )


def make() -> int:
    """Writes the release of what was built, in place of one that stands here."""
    programs, crates = built(), released.programs(released.lines_of_crates())
    stop_on_stale(programs, crates)
    kit, sums = said("rt", "version"), {
        name: released.sum_of(data) for name, data in programs.items()
    }
    its = Manifest(
        version(),
        kit,
        released.sources(kit),
        needs([built_file(it) for it in crates.values()]),
        sums,
        None,
    )
    release, data = release_of(programs, its)
    assert release.archive
    for former in glob.glob(f"{PLACE}/nazhuvem-*-x86_64-linux.tar.xz"):
        os.unlink(former)
    released.write_whole(f"{PLACE}/{release.archive[0]}", data, 0o644)
    released.write_whole(f"{PLACE}/MANIFEST", release.text().encode(), 0o644)
    print(release.text(), end="")
    print(f"{len(data)} bytes, of {sum(map(len, programs.values()))} of programs")
    return 0


def archive_faults(release: Manifest) -> list[str]:
    """Where the archive is not what the manifest says."""
    if not release.archive:
        return ["release/MANIFEST names no archive"]
    path = f"{PLACE}/{release.archive[0]}"
    if not os.path.exists(path):
        return [f"there is no release/{release.archive[0]}"]
    with open(path, "rb") as it:
        faults = (
            []
            if released.sum_of(it.read()) == release.archive[1]
            else [f"{release.archive[0]} has another sum"]
        )
    try:
        held = {path: data for path, data, _ in released.members(path)}
    except (tarfile.TarError, lzma.LZMAError, EOFError) as fault:
        return [*faults, f"{release.archive[0]} can't be unpacked: {fault}"]
    if held.get("MANIFEST") != release._replace(archive=None).text().encode():
        faults.append("its MANIFEST is another one")
    sums = {
        path[9:]: released.sum_of(data)
        for path, data in held.items()
        if path.startswith("programs/")
    }
    return faults + differences(release.programs, sums, "in the archive")


def differences(wanted: dict[str, str], sums: dict[str, str], where: str) -> list[str]:
    """Which programs are others than those of the manifest, by their sums."""
    faults = [f"{name} is not {where}" for name in wanted if name not in sums]
    faults += [
        f"{name} is {where}, and not in release/MANIFEST"
        for name in sums
        if name not in wanted
    ]
    return faults + [
        f"{name} {where} is another program than the released one"
        for name in wanted
        if sums.get(name, wanted[name]) != wanted[name]
    ]


def built_faults(release: Manifest, kit: str) -> list[str]:
    """Where what was built of the manifest's sources is not what it names."""
    if kit != release.kit or released.sources(kit) != release.sources:
        print(
            f"release {release.version} is of other sources, or of another kit: what was built here is not compared with it"
        )
        return []
    faults = (
        []
        if version() == release.version
        else [f"the programs say version {version()}"]
    )
    sums = {name: released.sum_of(data) for name, data in built().items()}
    return faults + differences(release.programs, sums, "built here")


def check() -> int:
    """Says where the release is not what it says, and ends with a count."""
    release = released.manifest()
    if not release:
        print("no release stands here: nothing to compare")
        return 0
    faults = archive_faults(release)
    if released.has_kit():
        faults += built_faults(release, said("rt", "version"))
    else:
        print("no kit: the archive alone is compared with its manifest")
    for fault in faults:
        print(f"FAILED: release {release.version}: {fault}")
    print(
        f"release {release.version}: {len(release.programs)} programs, {len(faults)} differences"
    )
    return int(bool(faults))


def main(words: list[str]) -> int:
    """Makes the release, or checks it."""
    if words not in ([], ["--check"]):
        print(__doc__)
        return int(words not in (["-h"], ["--help"]))
    return check() if words else make()


if __name__ == "__main__":
    sys.exit(main(sys.argv[1:]))
