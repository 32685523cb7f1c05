"""Types of CustomResourceDefinitions, without a step between."""

from __future__ import annotations

import importlib.util
import json
import shutil
import sys
import tempfile
import unittest
import warnings
from pathlib import Path
from typing import Any
from unittest import mock

from nazhuvem import Hub, Server, TypesError, TypesWarning, explore
from nazhuvem import definitions
from tests.common import TYPES, WIDGETS, widget

DEFINITIONS = TYPES.parents[1] / "tools" / "definitions"
HAS_YAML = importlib.util.find_spec("yaml") is not None
CERTIFICATES = "/apis/cert-manager.io/v1/namespaces/default/certificates"
CERTIFICATE = {"apiVersion": "cert-manager.io/v1", "kind": "Certificate"}


class DefinitionTest(unittest.TestCase):
    """Each test has a folder for definitions."""

    def setUp(self) -> None:
        folder = tempfile.TemporaryDirectory()
        self.addCleanup(folder.cleanup)
        self.folder = Path(folder.name)

    def take(self, *names: str) -> None:
        """Puts definitions into the folder."""
        for name in names:
            shutil.copy(DEFINITIONS / name, self.folder)

    def plurals(self, types: Any) -> list[str]:
        """The types that a hub serves."""
        with warnings.catch_warnings():
            warnings.simplefilter("ignore", TypesWarning)
            with Hub(types) as hub:
                listed = hub.request("GET", "/apis").value["groups"]
                found = []
                for group in listed:
                    path = f"/apis/{group['preferredVersion']['groupVersion']}"
                    names = hub.request("GET", path).value["resources"]
                    found += [it["name"] for it in names if "/" not in it["name"]]
                return found

    def test_a_definition(self) -> None:
        self.take("certificate.json")
        path = self.folder / "certificate.json"
        self.assertEqual(self.plurals(path), ["certificates"])
        self.assertEqual(self.plurals(json.loads(path.read_text())), ["certificates"])

    def test_a_folder_and_a_bundle(self) -> None:
        self.take("certificate.json", "kustomization.json")
        (self.folder / "other.json").write_text('{"kind": "ConfigMap"}')
        both = ["certificates", "kustomizations"]
        self.assertEqual(sorted(self.plurals(str(self.folder))), both)
        items = [
            json.loads((self.folder / f"{it[:-1]}.json").read_text()) for it in both
        ]
        bundle = self.folder / "bundle.json"
        bundle.write_text(json.dumps({"kind": "List", "items": items}))
        self.assertEqual(sorted(self.plurals(bundle)), both)
        several = [self.folder / "certificate.json", TYPES]
        self.assertEqual(sorted(self.plurals(several)), ["certificates", "widgets"])

    @unittest.skipUnless(HAS_YAML, "python3-yaml isn't installed")
    def test_yaml(self) -> None:
        self.assertEqual(self.plurals(TYPES.with_suffix(".yaml")), ["widgets"])

    def test_a_server_and_an_exploration(self) -> None:
        self.take("certificate.json")

        def scenario(hub: Hub) -> None:
            hub.apply("alice", CERTIFICATES + "/c", {**CERTIFICATE})
            hub.run(lambda: hub.request("GET", CERTIFICATES + "/c"))

        with self.assertWarns(TypesWarning):
            self.assertGreater(explore(scenario, self.folder), 1)
        with warnings.catch_warnings():
            warnings.simplefilter("error")
            with Server(self.folder) as server:
                self.assertIn("http://127.0.0.1:", server.url)

    def test_what_is_lost_is_a_warning(self) -> None:
        self.take("issuer.json")
        with self.assertWarns(TypesWarning) as warned:
            Hub(self.folder).close()
        said = str(warned.warning)
        for text in (
            f"{self.folder}: 1 type, 1 field, 5 rules, 1 warning (tools/crd tells all)",
            "type    clusterissuers.cert-manager.io: its objects have no namespace",
            "field   cert-manager.io/v1/issuers .spec.acme.solvers[].dns01.webhook",
            "rule    cert-manager.io/v1/issuers: required 5",
        ):
            self.assertIn(text, said)
        self.assertEqual(warned.filename, __file__)

    def test_changed_definitions_are_read_again(self) -> None:
        self.take("certificate.json")
        self.assertEqual(self.plurals(self.folder), ["certificates"])
        self.take("kustomization.json")
        self.assertEqual(len(self.plurals(self.folder)), 2)

    def test_what_has_none(self) -> None:
        with self.assertRaisesRegex(TypesError, "no file of this folder ends with"):
            Hub(self.folder)
        path = self.folder / "a.json"
        for text, wanted in (
            ('{"kind": "ConfigMap"}', f"no CustomResourceDefinition in {path}"),
            ("{", f"{path}: not JSON"),
        ):
            path.write_text(text)
            for _ in "12":
                with self.assertRaisesRegex(TypesError, wanted):
                    Hub(path)

    def test_yaml_without_a_reader(self) -> None:
        with mock.patch.dict("sys.modules", yaml=None):
            path = self.folder / "a.yaml"
            path.write_text("kind: CustomResourceDefinition\n")
            with self.assertRaisesRegex(TypesError, "YAML needs .*python3-yaml"):
                Hub(path)

    def test_a_package_without_the_tool(self) -> None:
        self.take("certificate.json")
        with mock.patch.object(definitions, "_PACKAGE", self.folder), mock.patch.dict(
            "sys.modules"
        ):
            sys.modules.pop("nazhuvem_types_files", None)
            with self.assertRaisesRegex(TypesError, "install the wheel"):
                Hub(self.folder / "certificate.json")

    def test_a_types_file_is_taken_as_it_is(self) -> None:
        with Hub(TYPES) as hub:
            hub.request("POST", WIDGETS, widget("w"))
            self.assertIn(f"--types {TYPES} ", hub.replay_command("script.jsonl"))


if __name__ == "__main__":
    unittest.main()
