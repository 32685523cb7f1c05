#!/usr/bin/env python3
"""Tests tools/crd by definitions written after well-known ones, and that the server takes the types files that it makes.

    tools/crd_test.py [PROGRAM]
    tools/crd_test.py --write

PROGRAM is crates/ssa_server/out/ssa_server where none is named. Of each definition of tools/definitions (NAME.json or
NAME.yaml) `expected/NAME.json` is the types file that --drop prints, and `expected/NAME.said` what it says with --verbose; --write
writes them.
What needs python3-yaml or the server is skipped where that isn't there.
"""

import importlib.util
import json
import os
import shutil
import subprocess
import sys
import tempfile
import unittest
from typing import Any

from running import BUILT, TOP, Server

FOLDER = f"{TOP}/tools/definitions"
HAS_YAML = importlib.util.find_spec("yaml") is not None
program = BUILT


def crd(*words: str) -> tuple[int, str, str]:
    """The status of a call of tools/crd, and what it prints and says."""
    words = (sys.executable, f"{TOP}/tools/crd", *words)
    done = subprocess.run(words, capture_output=True, text=True, check=False)
    return done.returncode, done.stdout, done.stderr


def definitions() -> list[str]:
    """The files of definitions."""
    return sorted(it for it in os.listdir(FOLDER) if it.endswith((".json", ".yaml")))


def expected(name: str, ending: str) -> str:
    """The path of what is expected of a definition."""
    return f"{FOLDER}/expected/{name.rpartition('.')[0]}.{ending}"


def text_of(path: str) -> str:
    """A file's text; none where it isn't there."""
    if not os.path.exists(path):
        return ""
    with open(path, encoding="utf-8") as it:
        return it.read()


def write() -> None:
    """Writes what is expected."""
    for name in definitions():
        _, printed, said = crd("--drop", "--verbose", f"{FOLDER}/{name}")
        for ending, text in (("json", printed), ("said", said)):
            if text:
                with open(expected(name, ending), "w", encoding="utf-8") as it:
                    it.write(text)


class EachDefinition(unittest.TestCase):
    """What tools/crd makes of each definition, and says."""

    maxDiff = None

    def test_is_made_as_expected(self) -> None:
        """With --drop the types file is printed, without it what it would lose is said."""
        for name in definitions():
            with self.subTest(name):
                if name.endswith(".yaml") and not HAS_YAML:
                    self.skipTest("python3-yaml isn't installed")
                status, printed, said = crd("--drop", "--verbose", f"{FOLDER}/{name}")
                self.assertEqual(said, text_of(expected(name, "said")))
                self.assertEqual(printed, text_of(expected(name, "json")))
                self.assertEqual(status, 0 if printed else 1)
                is_whole = not said.startswith(("type ", "field "))
                wanted = (0, printed) if is_whole else (1, "")
                status, printed, all_said = crd("--verbose", f"{FOLDER}/{name}")
                self.assertEqual((status, printed), wanted)
                self.assertTrue(all_said.startswith(said.partition("crd: ")[0]))

    @unittest.skipUnless(HAS_YAML, "python3-yaml isn't installed")
    def test_examples_are_made_of_theirs(self) -> None:
        """The types files of the examples are those of their definitions."""
        for name in ("crontabs", "widgets"):
            _, printed, _ = crd("--drop", f"{TOP}/examples/{name}.yaml")
            served = json.loads(text_of(f"{TOP}/examples/{name}.json"))
            self.assertEqual(json.loads(printed), served)


class Usage(unittest.TestCase):
    """Options, and files that can't be read."""

    def test_nothing_lost_needs_no_drop(self) -> None:
        """A types file goes over as it is, beside others."""
        leases = f"{TOP}/examples/types/leases.json"
        status, printed, said = crd(f"{TOP}/examples/widgets.json", leases)
        kinds = [it["kind"] for it in json.loads(printed)["types"]]
        self.assertEqual((status, said, kinds), (0, "", ["Widget", "Lease"]))

    def test_faults_of_types_files(self) -> None:
        """All that the server refuses is told, each with its place."""
        ports = {
            "type": "array",
            "items": {"type": "number"},
            "x-kubernetes-list-type": "bag",
        }
        fields: dict[str, Any] = {
            "a": {"type": "string", "nullable": True},
            "b": {},
            "ports": ports,
            "c": {"type": "string"},
        }
        schema = {"type": "object", "properties": fields}
        names: dict[str, Any] = {
            "group": "a.b",
            "version": "v1",
            "kind": "A",
            "plural": "as",
        }
        types: list[object] = [
            {**names, "schema": schema},
            {**names, "kind": "A-B", "schema": schema},
            names,
            1,
        ]
        status, printed, said = self.of_value({"types": types})
        self.assertEqual(
            (status, json.loads(printed)["types"][0]["schema"]["properties"]),
            (0, {"a": {"type": "string"}, "c": {"type": "string"}}),
        )
        for line in (
            "type    types[2]: no whole type: KeyError 'schema'",
            "field   a.b/v1/as .b: no type",
            "field   a.b/v1/as .ports: type: number at .ports[]",
            "rule    a.b/v1/as .a: nullable: a null is absence",
            "type    a.b/v1/as: kind: 'A-B'",
        ):
            self.assertIn(f"{line}\n", said)

    def of_value(self, value: object) -> tuple[int, str, str]:
        """What tools/crd says of a file with a value."""
        with tempfile.NamedTemporaryFile("w", suffix=".json") as it:
            json.dump(value, it)
            it.flush()
            return crd("--drop", it.name)

    def test_only(self) -> None:
        """Others than those asked for aren't told of."""
        issuer = f"{FOLDER}/issuer.json"
        status, printed, said = crd(
            "--drop", "--only", "issuers.cert-manager.io", issuer
        )
        self.assertEqual((status, len(json.loads(printed)["types"])), (0, 1))
        self.assertNotIn("clusterissuers", said)
        status, printed, said = crd("--drop", "--only", "a.b/v1", issuer)
        self.assertEqual((status, printed), (1, ""))
        self.assertTrue(said.startswith("type    a.b/v1: no file declares it\n"), said)

    def test_rules_are_counted(self) -> None:
        """Nothing but rules is lost, so no --drop is asked for; --verbose has places."""
        certificate = f"{FOLDER}/certificate.json"
        status, printed, said = crd(certificate)
        self.assertEqual((status, len(json.loads(printed)["types"])), (0, 1))
        place = "cert-manager.io/v1/certificates"
        self.assertIn(f"rule    {place}: enum 4, format 4, required 3\n", said)
        self.assertEqual(said.count("rule "), 1)
        self.assertEqual(crd("--verbose", certificate)[2].count("rule "), 11)

    def test_names_and_columns(self) -> None:
        """What kubectl would learn of a definition, and of no types file."""
        place = "certificates.cert-manager.io"
        said = crd(f"{FOLDER}/certificate.json")[2]
        self.assertIn(f"warning {place}: shortNames: cert, certs: ", said)
        self.assertIn(f"warning {place}: columns: Ready: ", said)

    def test_folders(self) -> None:
        """A folder is its files of JSON and YAML."""
        with tempfile.TemporaryDirectory() as folder:
            status, printed, said = crd(folder)
            self.assertEqual((status, printed), (2, ""))
            self.assertIn("no file of this folder ends with .yaml", said)
            for name in ("certificate", "kustomization"):
                shutil.copy(f"{FOLDER}/{name}.json", folder)
            with open(f"{folder}/README.md", "w", encoding="utf-8") as it:
                it.write("- [")
            kinds = [it["kind"] for it in json.loads(crd(folder)[1])["types"]]
            self.assertEqual(kinds, ["Certificate", "Kustomization"])

    def test_int_or_string(self) -> None:
        """It is served as the type that was asked for."""
        words = ("--drop", "--int-or-string", "string", f"{FOLDER}/servicemonitor.json")
        _, printed, said = crd("--verbose", *words)
        self.assertIn('"targetPort": {"type": "string"}', printed)
        self.assertIn("x-kubernetes-int-or-string: served as string", said)

    def test_bad_files(self) -> None:
        """A file that can't be read is status 2; a definition that isn't whole, a loss."""
        self.assertEqual(crd("/nowhere")[0], 2)
        self.assertEqual(crd()[0], 2)
        head: dict[str, Any] = {
            "apiVersion": "apiextensions.k8s.io/v1",
            "kind": "CustomResourceDefinition",
        }
        names = {"kind": "A", "plural": "as"}
        schema = {"openAPIV3Schema": {"type": "object", "properties": ["spec"]}}
        version = {"name": "v1", "served": True, "schema": schema}
        spec = {"group": "a.b", "names": names, "versions": [version]}
        for value in ({**head, "spec": {}}, {**head, "spec": spec}, {}, []):
            status, printed, said = self.of_value(value)
            self.assertEqual((status, printed), (1, ""), said)
            self.assertNotIn("Traceback", said)
        for value, wanted in (
            ({**head, "spec": {}}, "no whole definition: names is missing"),
            (
                {**head, "spec": {"names": {}}},
                "no whole definition: versions is missing",
            ),
            ({"kind": "ConfigMap"}, "no CustomResourceDefinition in /"),
        ):
            self.assertIn(wanted, self.of_value(value)[2])

    def test_nested_too_deep(self) -> None:
        """It is status 2, and no traceback."""
        with tempfile.NamedTemporaryFile("w", suffix=".json") as it:
            it.write("[" * 20_000)
            it.flush()
            status, _, said = crd(it.name)
        self.assertEqual((status, said), (2, f"crd: {it.name}: nested too deep\n"))


FAULTS: tuple[dict[str, Any], ...] = (
    {},
    {"type": "number"},
    {"type": "string", "enum": ["a"]},
    {"type": "string", "items": {"type": "string"}},
    {"type": "array"},
    {"type": "array", "items": {"type": "string"}, "x-kubernetes-list-type": "bag"},
    {"type": "array", "items": {"type": "object"}, "x-kubernetes-list-type": "set"},
    {"type": "array", "items": {"type": "object"}, "x-kubernetes-list-type": "map"},
    {"type": "object", "additionalProperties": True},
    {"type": "object", "additionalProperties": {"type": "string"}, "properties": {}},
    {"type": "object", "x-kubernetes-map-type": "loose"},
    {"type": "object", "properties": {"a": {"type": "string", "nullable": False}}},
)


class FaultsOfTypesFiles(unittest.TestCase):
    """What tools/crd calls a fault of a types file, the server refuses."""

    def test_are_refused(self) -> None:
        """Each of some faults; and none of a file without one."""
        if not os.access(program, os.X_OK):
            self.skipTest(f"{program} isn't built")
        for fault in ({"type": "string", "format": "any"}, *FAULTS):
            schema = {
                "type": "object",
                "properties": {"a": fault, "b": {"type": "string"}},
            }
            names = {"group": "a.b", "version": "v1", "kind": "A", "plural": "as"}
            with self.subTest(fault), tempfile.NamedTemporaryFile(
                "w", suffix=".json"
            ) as it:
                json.dump({"types": [{**names, "schema": schema}]}, it)
                it.flush()
                server = Server(program, it.name, subprocess.DEVNULL)
                server.end()
                is_refused = not server.address
                self.assertEqual(is_refused, fault in FAULTS)
                self.assertEqual(crd(it.name)[0], int(is_refused))


class Served(unittest.TestCase):
    """The server takes the types files, and does what the warnings say."""

    server: Server
    types: list[dict[str, Any]]

    @classmethod
    def setUpClass(cls) -> None:
        """Starts a server of the types of all definitions."""
        if not os.access(program, os.X_OK):
            raise unittest.SkipTest(f"{program} isn't built")
        files = [expected(name, "json") for name in definitions()]
        values = [json.loads(text_of(it)) for it in files if os.path.exists(it)]
        # Two definitions are of foos; a type is declared once.
        found = {
            (it["group"], it["version"], it["plural"]): it
            for value in values
            for it in value["types"]
        }
        with tempfile.NamedTemporaryFile("w", suffix=".json") as it:
            json.dump({"types": list(found.values())}, it)
            it.flush()
            cls.server = Server(program, it.name)
        cls.types = list(found.values())

    @classmethod
    def tearDownClass(cls) -> None:
        """Ends the server."""
        cls.server.end()

    def create(self, place: str, kind: str, **value: object) -> tuple[int, Any]:
        """Creates an object `a` of a type in a namespace of the test's own."""
        group, version, plural = place.split("/")
        body: dict[str, object] = {
            "apiVersion": f"{group}/{version}",
            "kind": kind,
            "metadata": {"name": "a"},
        }
        path = f"/apis/{group}/{version}/namespaces/{self.id_of_test()}/{plural}"
        return self.server.ask("POST", path, {**body, **value})

    def id_of_test(self) -> str:
        """The test's name as a namespace."""
        return self.id().rpartition(".")[2].replace("_", "-")

    def test_each_type_takes_an_object(self) -> None:
        """Each type of all files is served."""
        self.assertGreater(len(self.types), 12)
        for it in self.types:
            place = f"{it['group']}/{it['version']}/{it['plural']}"
            with self.subTest(place):
                self.assertEqual(self.create(place, it["kind"])[0], 201)

    def test_rules_are_not_checked(self) -> None:
        """A certificate without an issuer, of an algorithm that there isn't."""
        spec = {"privateKey": {"algorithm": "NONE"}}
        status, found = self.create(
            "cert-manager.io/v1/certificates", "Certificate", spec=spec
        )
        self.assertEqual((status, found["spec"]), (201, spec))

    def test_status_is_dropped(self) -> None:
        """Of a definition whose status is no subresource."""
        status, found = self.create(
            "argoproj.io/v1alpha1/applications",
            "Application",
            spec={"project": "p"},
            status={"health": {"status": "Healthy"}},
        )
        self.assertEqual((status, found.get("status")), (201, None))

    def test_key_fields_have_no_default(self) -> None:
        """An item without its protocol."""
        ports = [{"containerPort": 80}]
        spec = {"template": {"spec": {"containers": [{"name": "a", "ports": ports}]}}}
        status, found = self.create(
            "argoproj.io/v1alpha1/rollouts", "Rollout", spec=spec
        )
        told = ".spec.template.spec.containers[0].ports[0]: key field missing"
        self.assertEqual((status, found["message"]), (422, told))

    def test_versions_are_not_converted(self) -> None:
        """An object of one version isn't one of another."""
        group = "gateway.networking.k8s.io"
        self.assertEqual(self.create(f"{group}/v1/httproutes", "HTTPRoute")[0], 201)
        path = f"/apis/{group}/v1beta1/namespaces/{self.id_of_test()}/httproutes/a"
        self.assertEqual(self.server.ask("GET", path)[0], 404)

    def test_empty_structs_are_absence(self) -> None:
        """A struct without fields isn't stored, and takes none."""
        issuers = "cert-manager.io/v1/issuers"
        status, found = self.create(issuers, "Issuer", spec={"selfSigned": {}})
        self.assertEqual((status, found.get("spec")), (201, None))
        status, found = self.create(issuers, "Issuer", spec={"selfSigned": {"a": 1}})
        self.assertEqual(found["message"], ".spec.selfSigned.a: unknown field")


if __name__ == "__main__":
    if set(sys.argv[1:]) & {"-h", "--help"}:
        sys.exit(__doc__)
    if sys.argv[1:] == ["--write"]:
        write()
        sys.exit()
    program = os.path.realpath(sys.argv[1]) if sys.argv[1:] else BUILT
    unittest.main(argv=sys.argv[:1], verbosity=2)
