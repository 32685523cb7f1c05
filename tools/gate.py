#!/usr/bin/env python3
"""The gate, and what can be asked of it. `./test` runs it.

    ./test              proves everything, tries wrong bodies, runs all tests and programs
    ./test edits        proves every crate, and for five minutes tries other wrong bodies than the listed ones
    ./test quick        runs the tests, the programs and the commands of the pages without a proof
    ./test CRATE..      proves and tests these crates alone, and tries their listed wrong bodies

The last line is `N passed, M failed`, of all that is said above it; the status is 0 where M is 0. A crate counts by its
proof, a program by its stored run, and apart from these count each test, each wrong body that was tried, each test in
which each allocation is refused, each command of the pages, each generated page and each stored file.

The proofs are those of `rt ci`, over a copy of the working folder without `must-fail/`, so that no crate waits for wrong
bodies. These are tried beside it where a processor is idle, and after it, over the libraries that it has built, by checks
of the functions that they turn (tools/edits.py); then, for a minute at most, those of `more-edits/` that turn functions which
changed (tools/trials.py). What was built stays in crates/NAME/out/, and in out/needs.txt what the provers took (tools/needs.py).
Of the proofs the lines above the last one say which were made in this run, and which were taken from an earlier run on this
machine, by the sums of all that they were made of (tools/proofs.py).
"""

from __future__ import annotations

import contextlib
import hashlib
import os
import re
import shutil
import signal
import subprocess
import sys
import tempfile
import time
import traceback
from collections.abc import Iterator
from types import ModuleType

import edits
import gate_cost
import needs
import proofs
import quick
import repository
import trials
from repository import TOP
from results import Results

SECONDS_OF_CHANGED, SECONDS_OF_OTHERS = 60, 300
EDIT = re.compile(r"[A-Za-z0-9_-][A-Za-z0-9_.-]*\.edit")
LISTED, OTHERS = "must-fail", "more-edits"
# The file in the run's folder that says which proofs were made in the run.
PROOFS = "proofs"


@contextlib.contextmanager
def room() -> Iterator[str]:
    """A folder for the run, which is removed at its end, and in it a copy of the repository's files as a repository of its own."""
    signal.signal(signal.SIGTERM, lambda *_: sys.exit(128 + signal.SIGTERM))
    with tempfile.TemporaryDirectory(
        prefix="gate-", ignore_cleanup_errors=True
    ) as folder:
        paths = repository.files()
        repository.copy(
            f"{folder}/tree", (it for it in paths if f"/{LISTED}/" not in it)
        )
        repository.copy(
            f"{folder}/edits",
            (it for it in paths if re.match(rf"crates/\w+/({LISTED}|{OTHERS})/", it)),
        )
        subprocess.run(["git", "init", "-q", f"{folder}/tree"], check=True)
        yield folder


def edits_in(folder: str, kind: str, results: Results) -> dict[str, list[str]]:
    """The edits of each crate; what is no edit in their folders is a failure."""
    found: dict[str, list[str]] = {}
    for crate in repository.crates():
        for above, _, names in os.walk(f"{folder}/edits/crates/{crate}/{kind}"):
            for name in sorted(names):
                path = f"{above}/{name}"
                is_plain = above.endswith(f"/{kind}") and not os.path.islink(path)
                if is_plain and EDIT.fullmatch(name):
                    found.setdefault(crate, []).append(path)
                elif not name.endswith(".md"):
                    why = "BAD EDIT: an edit is a file NAME.edit right in this folder"
                    results.failed(f"{crate}/{kind}/{name}", why)
    return found


def prove(
    folder: str, listed: dict[str, list[str]], tries: trials.Trials, results: Results
) -> set[str]:
    """Runs `rt ci` over the copy, and has a crate's listed edits tried once it is proved; returns the crates that passed."""
    proved: set[str] = set()
    said, lost = "", ""
    words = [f"{TOP}/tools/proofs.py", "--told", f"{folder}/{PROOFS}"]
    command = [*tries.rt.rtlib.guarded(), *words]
    with repository.started(command, f"{folder}/tree") as started:
        for line in started.stdout or ():
            print(line, end="", flush=True)
            said = line.strip() or said
            done = re.fullmatch(r"rt: (\w+) proved\n", line)
            if done and done[1] not in proved:
                proved.add(done[1])
                tries.add(done[1], listed.get(done[1], []), is_listed=True)
            if line.startswith("rt: FAILED: "):
                lost = re.sub(r" \((tests|run)\)", r":\1", line[12:])
    results.counted("rt ci", said, started.returncode, lost.split())
    if started.returncode == 0:
        for crate in sorted({*repository.crates()} - proved):
            proved.add(crate)
            tries.add(crate, listed.get(crate, []), is_listed=True)
    return proved - {it.partition(":")[0] for it in lost.split()}


def take_built(folder: str, passed: set[str], results: Results) -> None:
    """Brings the programs and the programs of tests to the repository, and counts them; one that isn't there is a failure."""
    for crate in repository.crates():
        out = f"{TOP}/crates/{crate}/out"
        for name, is_wanted in (
            (crate, repository.is_program(crate)),
            (f"{crate}_tests", repository.has_tests(crate)),
        ):
            made = f"{folder}/tree/crates/{crate}/out/{name}"
            if os.path.isfile(f"{out}/{name}"):
                os.remove(f"{out}/{name}")
            if is_wanted and not os.path.isfile(made):
                results.failed(name, "it wasn't built")
            elif is_wanted:
                os.makedirs(out, exist_ok=True)
                shutil.copy2(made, f"{out}/{name}")
                print(f"gate: {name} has the sum {sum_of(made)}", flush=True)
                if crate in passed:
                    count_run(name, made, name != crate, results)
    for tree in (TOP, f"{folder}/tree"):
        quick.link_names(tree)


def sum_of(path: str) -> str:
    """The SHA-256 sum of a file."""
    with open(path, "rb") as it:
        return hashlib.file_digest(it, "sha256").hexdigest()


def count_run(name: str, made: str, is_tests: bool, results: Results) -> None:
    """Counts what `rt ci` has run: the program's stored run, or each test."""
    if not is_tests:
        results.passed()
        return
    ran = subprocess.run([made, "--list"], capture_output=True, text=True, check=False)
    tests = re.findall(r"^.+: test$", ran.stdout, re.M)
    results.passed(len(tests))
    if not tests:
        results.failed(name, "it lists no test")


def try_others(
    folder: str,
    proved: set[str],
    tries: trials.Trials,
    is_changed_alone: bool,
    results: Results,
) -> None:
    """Tries edits of `more-edits/`: for a minute those of functions that changed, or for some minutes all."""
    by_crate = {
        crate: paths
        for crate, paths in edits_in(folder, OTHERS, results).items()
        if crate in proved
    }
    chosen = trials.sample(f"{folder}/tree", by_crate, is_changed_alone)
    for crate, together in chosen:
        tries.add(crate, together, is_listed=False)
    before, began = results.counted_in_all(), time.monotonic()
    tries.finish(SECONDS_OF_CHANGED if is_changed_alone else SECONDS_OF_OTHERS)
    count = sum(len(together) for _, together in chosen)
    of = "that turn functions which changed" if is_changed_alone else "there are"
    tried = results.counted_in_all() - before
    seconds = time.monotonic() - began
    print(
        f"gate: tried {tried} of {count} edits of {OTHERS}/ {of}, in {seconds:.0f} seconds",
        flush=True,
    )


def note(rt: ModuleType, watch: gate_cost.Watch) -> None:
    """Writes what the provers took."""
    taken = watch.taken()
    guesses = {it.name: rt.need(it) for it in rt.crates_of(TOP)}
    seen = {
        key: needs.Noted(
            most // needs.MEGABYTE,
            guesses[key[0]] // needs.MEGABYTE,
            round(taken[key]),
        )
        for key, most in watch.most.items()
        if key[0] in guesses
    }
    needs.write(seen)


def whole(results: Results, is_of_edits: bool = False) -> None:
    """The gate, or the proofs and other wrong bodies than the listed ones alone."""
    rt = repository.kit()
    watch = gate_cost.Watch(os.getpid())
    watch.start()
    if not is_of_edits:
        of_pages(results)
    with room() as folder:
        over_a_copy(folder, rt, watch, is_of_edits, results)
        told = proofs.told(f"{folder}/{PROOFS}")
    if not is_of_edits:
        release(results)
    watch.ended.set()
    watch.join()
    note(rt, watch)
    print(gate_cost.table(watch), told, sep="\n\n", end="", flush=True)


def of_pages(results: Results) -> None:
    """Compares what is generated with the sources."""
    results.run("the generated pages", ["tools/pages.py", "--check"])
    results.run("the links of the pages", ["tools/links.py"])
    results.run("the heads of the sources", ["tools/heads.py"])
    results.run("the picture of the layers", ["tools/layers.py", "--check"])
    results.run("the lines of crates.txt", ["tools/edges.py"])
    results.run("where calls and refusals are shown", ["tools/calls.py"])


def over_a_copy(
    folder: str,
    rt: ModuleType,
    watch: gate_cost.Watch,
    is_of_edits: bool,
    results: Results,
) -> None:
    """Proves all, tries wrong bodies, and runs what was built; or proves all and tries other wrong bodies."""

    def tell(tried: edits.Tried, _: bool) -> None:
        is_well = tried.kind in (edits.REFUSED, edits.WEAKLY)
        results.told(edits.label(tried.edit), is_well, tried.text)

    listed = {} if is_of_edits else edits_in(folder, LISTED, results)
    tries = trials.Trials(rt, folder, watch, tell)
    try:
        proved = prove(folder, listed, tries, results)
        take_built(folder, proved, results)
        tries.finish()
        for crate in sorted({*listed} - proved):
            results.failed(
                f"{crate}/{LISTED}", "not tried, since the crate isn't proved"
            )
        try_others(folder, proved, tries, not is_of_edits, results)
    finally:
        tries.end()
    if is_of_edits:
        return
    lacking = quick.lacking(f"{folder}/tree")
    if lacking:
        # (each of what follows would fail, and hide why)
        results.failed(
            "what runs over the programs", f"not run: no {', '.join(lacking)}"
        )
        return
    stored_runs(folder, results)
    results.run("refused memory", [f"{folder}/tree/tools/failing_memory.py", "--gate"])
    quick.play_rows(f"{folder}/tree", results)
    quick.over_the_programs(f"{folder}/tree", results)


def release(results: Results) -> None:
    """Holds what was built to the release of the same sources, and sees that a difference is told."""
    results.run("planted differences of a release", ["tools/test_release.py"])
    results.run("the release", ["tools/release.py", "--check"])


def stored_runs(folder: str, results: Results) -> None:
    """Makes the stored runs anew and compares them with what is stored."""
    quick.stored_runs(f"{folder}/tree", results)


def alone(names: list[str], results: Results) -> None:
    """Proves and tests crates alone, and tries their listed edits."""
    version = subprocess.run(
        ["rt", "version"], stdout=subprocess.PIPE, text=True, check=True
    ).stdout
    unknown = [name for name in names if name not in repository.crates()]
    if unknown:
        repository.stop(f"crates.txt names no crate {unknown[0]}")
    if not version.startswith("rattle-kit-13b"):
        with tempfile.TemporaryDirectory(prefix="gate-") as folder:
            words = ["tools/proofs.py", "--told", f"{folder}/{PROOFS}", *names]
            results.run(f"rt ci {' '.join(names)}", words)
            print(proofs.told(f"{folder}/{PROOFS}"), end="", flush=True)
        return
    # (the `rt ci` of 13b takes no name)
    for name in names:
        results.run(f"{name}: proof", ["rt", "verdict"], f"{TOP}/crates/{name}")
        results.run(f"{name}: tests", ["rt", "test"], f"{TOP}/crates/{name}")
        if os.path.isdir(f"{TOP}/crates/{name}/{LISTED}"):
            results.run(f"{name}: {LISTED}", ["rt", "must-fail", name])


def main(words: list[str]) -> int:
    """Runs what the words ask, and ends with the line that counts it."""
    results = Results()
    try:
        if words == ["quick"]:
            with room() as folder:
                quick.run(f"{folder}/tree", results)
        elif words == ["edits"]:
            whole(results, is_of_edits=True)
        elif words:
            alone(words, results)
        else:
            whole(results)
    except (SystemExit, KeyboardInterrupt) as ended:
        results.failed("the gate", f"it ended early: {ended or 'interrupted'}")
    except Exception as error:
        traceback.print_exc()
        results.failed("the gate", f"it ended early: {error!r}")
    return results.close()


if __name__ == "__main__":
    if set(sys.argv[1:]) & {"-h", "--help"}:
        sys.exit(__doc__)
    sys.exit(main(sys.argv[1:]))
