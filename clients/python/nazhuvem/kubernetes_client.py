"""The package `kubernetes` over a hub, and what it needs beyond that."""

from __future__ import annotations

import json
from typing import Any, Mapping, Optional

from kubernetes import client

from nazhuvem.hub import Hub
from nazhuvem.urllib3_pool import PoolManager


class ApiClient(client.ApiClient):  # type: ignore[misc]
    """An `ApiClient` of a hub: `CustomObjectsApi(ApiClient(hub))`.

    Truth values are sent as `true` and `false`, which the package writes with a
    capital.
    """

    def __init__(self, hub: Hub) -> None:
        configuration = client.Configuration(host="http://hub")
        super().__init__(configuration)
        self.rest_client.pool_manager = PoolManager(hub)

    def request(
        self, method: str, url: str, query_params: Any = None, **rest: Any
    ) -> Any:
        """As the package's, with truth values in lower case."""
        query = [
            (name, str(value).lower() if isinstance(value, bool) else value)
            for name, value in query_params or []
        ]
        return super().request(method, url, query_params=query, **rest)

    def apply(
        self,
        path: str,
        manager: str,
        body: Mapping[str, Any],
        force: Optional[bool] = None,
    ) -> Any:
        """Server-Side Apply, which the package's own patches don't do."""
        query: list[tuple[str, Any]] = [("fieldManager", manager)]
        if force:
            query.append(("force", True))
        return self.call_api(
            path,
            "PATCH",
            query_params=query,
            header_params={"Content-Type": "application/apply-patch+yaml"},
            body=json.dumps(body),
            response_type="object",
            _return_http_data_only=True,
        )
