"""What Python's package `kubernetes` needs for a test with this server: the server, its truth values, and apply."""

import contextlib
import json
import os
import re
import signal
import subprocess
from collections.abc import Iterator
from typing import Any

from kubernetes import client

TOP = os.path.dirname(os.path.dirname(os.path.realpath(__file__)))


@contextlib.contextmanager
def serving(types: str) -> Iterator[str]:
    """The address of a server of the types of a file, which ends with the block. SSA_SERVER names another program."""
    program = os.environ.get("SSA_SERVER", f"{TOP}/ssa-server")
    words = [program, "--types", types, "--port", "0", "--concurrent"]
    # A program that is compiled first says on standard error when it listens.
    process = subprocess.Popen(
        words,
        stdout=subprocess.PIPE,
        stderr=subprocess.STDOUT,
        text=True,
        start_new_session=True,
    )
    assert process.stdout is not None
    try:
        for line in process.stdout:
            if listening := re.search(r"listening on (127\.0\.0\.1:\d+)$", line):
                yield f"http://{listening[1]}"
                return
        raise RuntimeError("the server has ended")
    finally:
        os.killpg(process.pid, signal.SIGTERM)
        process.communicate()


class Lowercase(client.ApiClient):
    """Sends `true` where the package has `True`, which the server refuses."""

    def request(
        self, method: str, url: str, query_params: Any = None, **rest: Any
    ) -> Any:
        """Makes a request."""
        query = [
            (name, str(value).lower() if isinstance(value, bool) else value)
            for name, value in query_params or []
        ]
        return super().request(method, url, query_params=query, **rest)


class Objects(client.CustomObjectsApi):
    """The package's calls, and apply: its own patches have other media types, and it sends a text as it is."""

    def __init__(self, address: str) -> None:
        configuration = client.Configuration()
        configuration.host = address
        super().__init__(Lowercase(configuration))

    def apply(
        self,
        group: str,
        version: str,
        namespace: str,
        plural: str,
        body: dict[str, Any],
        field_manager: str,
        force: bool = False,
        subresource: str = "",
    ) -> dict[str, Any]:
        """Applies an object, which the body names, or its subresource `status`."""
        place = f"/apis/{group}/{version}/namespaces/{namespace}/{plural}"
        path = "/".join(
            it for it in (place, body["metadata"]["name"], subresource) if it
        )
        found: dict[str, Any] = self.api_client.call_api(
            path,
            "PATCH",
            query_params=[("fieldManager", field_manager), ("force", force)],
            header_params={"Content-Type": "application/apply-patch+yaml"},
            body=json.dumps(body),
            response_type="object",
        )[0]
        return found
