#!/usr/bin/env python3
"""Runs the commands of the examples' pages and of docs/TEN_MINUTES.md, compares what they print, and runs the examples' own tests.

    tools/examples_test.py [--write] [PROGRAM]

PROGRAM is crates/ssa_server/out/ssa_server where none is named. The commands are the lines "$ COMMAND" of the code blocks that
begin with such a line; the lines behind one are what it prints, on either output. All commands of a page are run by one bash, in
order, with a TMPDIR of its own; `./ssa-server` starts in the background, on a free port in place of the page's 8001. What needs a
package that isn't installed is skipped, and said so. --write writes into the pages what the commands print.
The status is 1 where something differs.
"""

import contextlib
import dataclasses
import difflib
import importlib.util
import itertools
import os
import re
import shlex
import shutil
import signal
import subprocess
import sys
import tempfile
import threading

from running import BUILT, TOP, Server, begun, has_client_go

PORT = "8001"
MARK = "---- the end of a command ----"
BLOCK = re.compile(r"^```(\w*)\n(.*?)^```\n", re.M | re.S)
COMMAND = re.compile(r"^\$ (.*)$", re.M)
# After so long a command is over.
SECONDS = 600


@dataclasses.dataclass(frozen=True)
class Page:
    """A page, or its part below a heading, with what its commands need beside the server."""

    path: str
    needs: tuple[str, ...] = ()
    heading: str = ""

    @property
    def name(self) -> str:
        """How the page is told."""
        return f"{self.path}, {self.heading}" if self.heading else self.path

    def parts(self) -> tuple[str, str, str]:
        """The text before the part, the part, and the text behind it."""
        text = read(self.path)
        if not self.heading:
            return "", text, ""
        begin = text.index(f"\n## {self.heading}\n") + 1
        end = text.find("\n## ", begin) + 1 or len(text)
        return text[:begin], text[begin:end], text[end:]


PAGES = (
    Page("docs/TEN_MINUTES.md", ("python3-kubernetes", "python3-pytest"), "In Python"),
    Page("docs/TEN_MINUTES.md", ("golang-go", "python3-yaml"), "In Go"),
    Page("examples/README.md"),
    Page("examples/crd.md", ("python3-yaml",)),
    Page("examples/types/README.md"),
    Page("examples/python.md", ("python3-kubernetes",)),
    Page("examples/go.md", ("golang-go", "client-go")),
)


def has(package: str) -> bool:
    """Whether what a page needs is installed."""
    match package:
        case "python3-yaml":
            return importlib.util.find_spec("yaml") is not None
        case "python3-kubernetes" | "python3-pytest":
            name = package.removeprefix("python3-")
            words = ["/usr/bin/python3", "-c", f"import {name}"]
            return subprocess.run(words, stderr=subprocess.DEVNULL).returncode == 0
        case "client-go":
            return has_client_go(os.environ.get("GOPATH", ""))
        case "golang-go":
            return shutil.which("go") is not None
    return shutil.which(package) is not None


class Session:
    """The commands of a page, run one by one by one bash. It ends with the block."""

    def __init__(self, program: str, folder: str) -> None:
        self.program = program
        self.folder = folder
        self.server: Server | None = None
        cache = os.environ.get("XDG_CACHE_HOME", os.path.expanduser("~/.cache"))
        own = {"TMPDIR": folder, "HOME": folder, "SSA_SERVER": program}
        variables = {"XDG_CACHE_HOME": cache, **own}
        self.bash = begun(["bash"], TOP, variables, subprocess.PIPE, is_apart=True)

    def __enter__(self) -> "Session":
        return self

    def __exit__(self, *_: object) -> None:
        if self.server:
            self.server.end()
        with contextlib.suppress(ProcessLookupError):
            os.killpg(self.bash.pid, signal.SIGKILL)
        self.bash.communicate()

    @property
    def port(self) -> str:
        """The port of the server."""
        return self.server.address.rpartition(":")[2] if self.server else PORT

    def run(self, command: str) -> str:
        """What a command prints."""
        if command.startswith("./ssa-server "):
            return self.start(command)
        assert self.bash.stdin and self.bash.stdout
        timer = threading.Timer(SECONDS, self.bash.kill)
        timer.start()
        asked = command.replace(PORT, self.port)
        self.bash.stdin.write(f"{{ {asked}\n}} < /dev/null\necho; echo '{MARK}'\n")
        self.bash.stdin.flush()
        lines = list(
            itertools.takewhile(lambda it: it != f"{MARK}\n", self.bash.stdout)
        )
        timer.cancel()
        return "".join(lines).rstrip("\n").replace(f":{self.port}", f":{PORT}")

    def start(self, command: str) -> str:
        """Starts the server of a command."""
        words = shlex.split(command)
        types = words[words.index("--types") + 1].replace("$TMPDIR", self.folder)
        options = tuple(it for it in words if it == "--discovery")
        self.server = Server(self.program, os.path.join(TOP, types), None, options)
        return f"listening on 127.0.0.1:{PORT}"


def read(path: str) -> str:
    """The text of a page."""
    with open(f"{TOP}/{path}", encoding="utf-8") as it:
        return it.read()


def write(path: str, text: str) -> None:
    """Makes this the text of a page."""
    with open(f"{TOP}/{path}", "w", encoding="utf-8") as it:
        it.write(text)


def played(page: str, program: str) -> tuple[str, list[str], int]:
    """The text of a page with what its commands print, where that differs, and how many commands it has."""
    count = 0
    differences: list[str] = []

    def printed(block: re.Match[str]) -> str:
        """A block with what its commands print."""
        nonlocal count
        if block[1] or not block[2].startswith("$ "):
            return block[0]
        lines = []
        for command in COMMAND.findall(block[2]):
            said = session.run(command)
            lines += [f"$ {command}", *([said] if said else [])]
            count += 1
        text = "".join(f"{it}\n" for it in lines)
        if text != block[2]:
            both = block[2].splitlines(), text.splitlines()
            rows = difflib.unified_diff(*both, "page", "printed", lineterm="")
            differences.append("\n".join(rows))
        return f"```\n{text}```\n"

    with tempfile.TemporaryDirectory() as folder, Session(program, folder) as session:
        return BLOCK.sub(printed, page), differences, count


def main(words: list[str]) -> int:
    """Runs the pages. Returns the exit status."""
    is_write = "--write" in words
    words = [it for it in words if it != "--write"]
    program = os.path.realpath(words[0]) if words else BUILT
    if not os.access(program, os.X_OK):
        sys.exit(
            f"examples_test: {program} isn't built: run `rt run` in crates/ssa_server"
        )
    os.environ["no_proxy"] = "127.0.0.1"
    failed = commands = 0
    skipped = []
    for page in PAGES:
        lacking = [it for it in page.needs if not has(it)]
        if lacking:
            skipped.append(page.name)
            print(f"{page.name}: skipped, without {', '.join(lacking)}")
            continue
        before, part, behind = page.parts()
        text, differences, count = played(part, program)
        print(
            *differences,
            f"{page.name}: {count} commands, {len(differences)} differences",
            sep="\n",
        )
        failed += len(differences) + (count == 0)
        commands += count
        if is_write:
            write(page.path, before + text + behind)
    print(
        f"{commands} commands of {len(PAGES) - len(skipped)} pages, {failed} failed, {len(skipped)} pages skipped"
    )
    return int(failed > 0)


if __name__ == "__main__":
    if set(sys.argv[1:]) & {"-h", "--help"}:
        sys.exit(__doc__)
    sys.exit(main(sys.argv[1:]))
