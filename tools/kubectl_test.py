#!/usr/bin/env python3
"""Runs the commands of docs/KUBECTL.md by kubectl and by Python's package `kubernetes`, and compares what they print.

    tools/kubectl_test.py [--write] [PROGRAM]

PROGRAM is crates/ssa_server/out/ssa_server where none is named; it is started with --discovery. The commands are run as
tools/examples_test.py runs those of its pages. A section whose client isn't installed, or is too old, is skipped, and said
so; PATH says which kubectl is run. --write writes into the page what the commands print. The last line counts the commands,
`N passed, M failed`; the status is 1 where something differs.
"""

import json
import os
import re
import shutil
import subprocess
import sys

from examples_test import has, played, read, write
from running import BUILT

PAGE = "docs/KUBECTL.md"
SECTION = "\n## "
# The sections with commands, by how they begin, each with the client that it needs: the least minor version of kubectl, or a
# package.
NEEDS: dict[str, int | str] = {
    "# kubectl": 20,
    "From kubectl 1.29 on": 29,
    "Python's dynamic client": "python3-kubernetes",
}


def minor_version() -> int:
    """The minor version of kubectl; -1 where there is none."""
    if not shutil.which("kubectl"):
        return -1
    words = ["kubectl", "version", "--client", "-o", "json"]
    said = subprocess.run(words, stdout=subprocess.PIPE, check=True).stdout
    return int(json.loads(said)["clientVersion"]["minor"].rstrip("+"))


def lack_of(need: int | str, minor: int) -> str:
    """What a section lacks of what it needs; nothing where all is there."""
    if isinstance(need, str):
        return "" if has(need) else need
    return "" if minor >= need else f"kubectl 1.{need}"


def commands(section: str) -> list[str]:
    """The commands of a section, each with what it prints."""
    blocks = section.split("```\n")[1::2]
    return [it for block in blocks for it in re.split(r"^(?=\$ )", block, flags=re.M)]


def main(words: list[str]) -> int:
    """Runs the page's sections. Returns the exit status."""
    is_write = "--write" in words
    words = [it for it in words if it != "--write"]
    program = os.path.realpath(words[0]) if words else BUILT
    if not os.access(program, os.X_OK):
        sys.exit(f"kubectl_test: {program} isn't built: run `rt run` in crates/ssa_server")
    os.environ["no_proxy"] = "127.0.0.1"
    minor, left = minor_version(), dict(NEEDS)
    sections, passed, failed = read(PAGE).split(SECTION), 0, 0
    for at, section in enumerate(sections):
        name = next((it for it in left if section.startswith(it)), None)
        if name is None:
            if "```\n$ " in section:
                print(f"{PAGE}: no client is known for {section.splitlines()[0]}")
                failed += 1
            continue
        lack = lack_of(left.pop(name), minor)
        if lack:
            print(f"{PAGE}: {name}: skipped, without {lack}")
            continue
        sections[at], differences, count = played(section, program)
        print(*differences, f"{PAGE}: {name}: {count} commands", sep="\n")
        pairs = zip(commands(section), commands(sections[at]), strict=True)
        wrong = sum(was != now for was, now in pairs)
        passed, failed = passed + count - wrong, failed + wrong + (count == 0)
    if left:
        print(f"{PAGE}: no section begins with {', '.join(left)}")
    if is_write:
        write(PAGE, SECTION.join(sections))
    print(f"{passed} passed, {failed + len(left)} failed")
    return int(failed + len(left) > 0)


if __name__ == "__main__":
    if set(sys.argv[1:]) & {"-h", "--help"}:
        sys.exit(__doc__)
    sys.exit(main(sys.argv[1:]))
