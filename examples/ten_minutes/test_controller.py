"""The test of the controller."""

import pytest
from controller import reconcile
from kubernetes.client import CustomObjectsApi

from nazhuvem import Hub, Schedule, play, schedules
from nazhuvem.kubernetes_client import ApiClient

TYPES = "crd"
DATABASE = "/apis/shop.example/v1/namespaces/default/databases/db"


def scenario(hub: Hub) -> None:
    names = {"apiVersion": "shop.example/v1", "kind": "Database"}
    hub.apply("alice", DATABASE, {**names, "spec": {"replicas": 2}})
    api = CustomObjectsApi(ApiClient(hub))
    hub.run(lambda: hub.settle(lambda: reconcile(api, "db")))
    database = hub.get(DATABASE)
    assert database is None or database["status"]["ready"] == 2


@pytest.mark.parametrize("schedule", schedules(scenario, TYPES))
def test_controller(schedule: Schedule) -> None:
    play(scenario, TYPES, schedule)
