#!/usr/bin/env python3
"""Proves and builds a program that times layers, over the crates of this tree or of a commit.

Usage: bench/build.py PROGRAM FOLDER [COMMIT]     leaves FOLDER/PROGRAM; `tables` times the revisioned store over tables,
                                                  `connections` a hub that serves many, one after another, `layers`
                                                  selectors, indexer, the reader of replies, objects' texts and the client,
                                                  and `runs` a server and a client in one run, beside the hub alone

It makes a repository of its own, FOLDER/source-PROGRAM, with the program and the crates below it, and calls `rt run` in it, so the
program is proved before it is built; what the folder has kept of an earlier build is used again. These programs aren't in the
gate, which they cost minutes. Their files are always those of this tree: bench/PROGRAM and bench/timing.rt.txt, which end in
.txt, since the gate refuses a source that no check reads. For the same reason FOLDER must lie outside of this repository. Where
bench/PROGRAM has files args and stdout, the program is run once with these words, and must print that.
"""
import glob
import os
import shutil
import subprocess
import sys

TOP = os.path.dirname(os.path.dirname(os.path.realpath(__file__)))
LIBRARIES = {
    "tables": "history revtable revstore anyhow",
    "connections": "api_types serde_json verbs httpedge anyhow",
    "layers": "selector indexer wireclient decoder reflector schema api_types typed ownership serde_json anyhow",
    "runs": "api_types verbs httpedge wireclient indexer world serde_json anyhow",
}


def put(source, commit, names):
    """Puts these files and folders there, as they stand at the commit or in this tree."""
    pack = ["git", "archive", commit, *names] if commit else ["tar", "-c", "--exclude=out", *names]
    files = subprocess.run(pack, cwd=TOP, stdout=subprocess.PIPE, check=True).stdout
    subprocess.run(["tar", "-x", "-C", source], input=files, check=True)


def lines_below(source, program):
    """The lines of crates.txt for the crates that the program stands on, lowest first, and its own."""
    with open(os.path.join(source, "crates.txt"), encoding="utf-8") as listed:
        lines = {line.partition(":")[0].strip(): line for line in listed if ":" in line.partition("#")[0]}
    wanted, more = {program}, LIBRARIES[program].split()
    while more:
        name = more.pop()
        if name in lines and name not in wanted:
            wanted.add(name)
            more += lines[name].partition(":")[2].split()
    return {name: line for name, line in lines.items() if name in wanted}


def put_crates(source, program, commit):
    """Puts the crates below the program there, in place of those of an earlier build, and lists them with the program."""
    put(source, commit, ["crates.txt", "HANDLES"])
    lines = lines_below(source, program)
    for name in lines:
        crate = os.path.join(source, "crates", name)
        for part in os.listdir(crate) if os.path.isdir(crate) else []:
            if part != "out":
                shutil.rmtree(os.path.join(crate, part))
    put(source, commit, [f"crates/{name}" for name in lines])
    with open(os.path.join(source, "crates.txt"), "w", encoding="utf-8") as listed:
        listed.writelines([*lines.values(), f"{program}: {LIBRARIES[program]}\n"])


def put_program(source, program):
    folder = os.path.join(source, "crates", program, "src")
    shutil.rmtree(folder, ignore_errors=True)
    os.makedirs(folder)
    for given in [*glob.glob(f"{TOP}/bench/{program}/*.rt.txt"), f"{TOP}/bench/timing.rt.txt"]:
        shutil.copyfile(given, os.path.join(folder, os.path.basename(given).removesuffix(".txt")))


def try_once(binary, program):
    """Runs the program with the words that stand beside its sources, and compares what it prints."""
    words, printed = f"{TOP}/bench/{program}/args", f"{TOP}/bench/{program}/stdout"
    if not os.path.exists(words):
        return
    with open(words, encoding="utf-8") as it:
        told = subprocess.run([binary, *it.read().split()], stdout=subprocess.PIPE, stderr=subprocess.DEVNULL, text=True, check=True)
    with open(printed, encoding="utf-8") as it:
        if it.read() != told.stdout:
            sys.exit(f"{binary} prints something else than bench/{program}/stdout")


def main(words):
    if len(words) not in (2, 3) or words[0] not in LIBRARIES:
        sys.exit(__doc__)
    program, folder, commit = words[0], os.path.realpath(words[1]), (words[2:] or [None])[0]
    if os.path.commonpath([folder, TOP]) == TOP:
        sys.exit(f"{folder} lies in this repository, whose gate would refuse the sources there: name a folder outside of it")
    source = os.path.join(folder, f"source-{program}")
    os.makedirs(source, exist_ok=True)
    put_crates(source, program, commit)
    put_program(source, program)
    crate = os.path.join(source, "crates", program)
    subprocess.run(["rt", "run"], cwd=crate, check=True)
    binary = os.path.join(folder, program)
    shutil.copy(os.path.join(crate, "out", program), binary)
    try_once(binary, program)


if __name__ == "__main__":
    main(sys.argv[1:])
