"""Runs the server for the tests of this folder and of the examples."""

import json
import os
import subprocess
import urllib.error
import urllib.request
from typing import Any

TOP = os.path.dirname(os.path.dirname(os.path.realpath(__file__)))
BUILT = f"{TOP}/crates/ssa_server/out/ssa_server"


def begun(
    command: list[str],
    where: str,
    variables: dict[str, str],
    takes: int = subprocess.DEVNULL,
    is_apart: bool = False,
) -> subprocess.Popen[str]:
    """A command in a folder, with variables beside those that are set, and what it takes
    as its standard input; all that it says comes on its standard output. Where it is apart
    it and what it starts are a group of their own."""
    return subprocess.Popen(
        command,
        cwd=where,
        env={**os.environ, **variables},
        stdin=takes,
        stdout=subprocess.PIPE,
        stderr=subprocess.STDOUT,
        text=True,
        errors="replace",
        start_new_session=is_apart,
    )


def has_client_go(gopath: str) -> bool:
    """Whether one of these folders has client-go."""
    return any(os.path.isdir(f"{it}/src/k8s.io/client-go") for it in gopath.split(":"))


class Server:
    """A server of the types of a file, on a free port, with options beside. It ends with the block."""

    def __init__(
        self,
        program: str,
        types: str,
        errors: int | None = None,
        options: tuple[str, ...] = (),
    ) -> None:
        words = [program, "--types", types, "--port", "0", "--concurrent", *options]
        self.process = subprocess.Popen(
            words, stdout=subprocess.PIPE, stderr=errors, text=True
        )
        assert self.process.stdout is not None
        self.address = self.process.stdout.readline().rpartition(" ")[2].rstrip()
        self.base = f"http://{self.address}"

    def __enter__(self) -> "Server":
        return self

    def __exit__(self, *_: object) -> None:
        self.end()

    def end(self) -> None:
        """Ends the server."""
        self.process.kill()
        self.process.communicate()

    def ask(
        self, method: str, path: str, body: object = None, media: str = "json"
    ) -> tuple[int, Any]:
        """The status and the value of a reply."""
        data = None if body is None else json.dumps(body).encode()
        headers = {"Content-Type": f"application/{media}"} if data else {}
        request = urllib.request.Request(self.base + path, data, headers, method=method)
        try:
            with urllib.request.urlopen(request, timeout=30) as reply:
                return reply.status, json.load(reply)
        except urllib.error.HTTPError as refusal:
            with refusal:
                return refusal.code, json.load(refusal)
