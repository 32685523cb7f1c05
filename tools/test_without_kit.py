#!/usr/bin/env python3
"""Runs over the released programs what can be run where there is no kit, and says what is not shown by that.

    tools/test_without_kit.py

`./test` calls it on such a machine. The last line is "N passed, M failed".
"""

from __future__ import annotations

import os
import sys
import tempfile

import quick
import released
import repository
from released import TOP
from results import Results

NOT_SHOWN = """not shown here, since it needs the kit (`rt`):
  that the programs meet their contracts (the proofs), that the prover refuses the wrong bodies, the layout of the sources
  the tests of crates/*_tests, and that each allocation may be refused
  that the released programs are the ones that their sources make (tools/release.py --check, after the gate)"""


def of_the_files(results: Results) -> None:
    """What is held of the release, the pages and the stored files."""
    results.run("planted differences of a release", ["tools/test_release.py"])
    results.run("the release", ["tools/release.py", "--check"])
    results.run("the generated pages", ["tools/pages.py", "--check"])
    results.run("the links of the pages", ["tools/links.py"])
    results.run("the heads of the sources", ["tools/heads.py"])
    results.run("the picture of the layers", ["tools/layers.py", "--check"])
    results.run("where calls and refusals are shown", ["tools/calls.py"])
    with tempfile.TemporaryDirectory() as room:
        paths = (
            it for it in repository.files() if it.startswith(("bench/", "crates/"))
        )
        repository.copy(room, paths)
        quick.stored_runs(room, results)


def of_the_programs(folder: str, results: Results) -> None:
    """What is held of the programs of a folder."""
    for crate in filter(repository.is_program, repository.crates()):
        program = f"{folder}/{crate.replace('_', '-')}"
        if os.path.exists(program):
            quick.stored_run(crate, program, TOP, results)
    os.environ["NAZHUVEM_BIN"] = folder
    quick.play_rows(TOP, results, folder)
    quick.over_the_programs(TOP, results, folder)


def run(results: Results) -> None:
    """All that can be run without the kit."""
    release = released.manifest()
    if not release:
        results.failed("the programs", "there is neither a kit (`rt`) nor a release")
        return
    if released.sources(release.kit) != release.sources:
        print(
            f"the sources here are others than those of release {release.version}, which is run: what they changed may fail"
        )
    of_the_files(results)
    of_the_programs(released.unpacked(release, list(release.programs)), results)
    print(NOT_SHOWN)


def main(words: list[str]) -> int:
    """Runs all, and ends with the line that counts it."""
    if words in (["-h"], ["--help"]):
        print(__doc__)
        return 0
    if words:
        print("without the kit (`rt`) all that can be run is run, whatever is named")
    results = Results()
    try:
        run(results)
    except (SystemExit, KeyboardInterrupt) as ended:
        results.failed("the tests", f"they ended early: {ended or 'interrupted'}")
    return results.close()


if __name__ == "__main__":
    sys.exit(main(sys.argv[1:]))
