#!/usr/bin/env python3
"""Measures this server beside what else a controller can be tested with, all in one run:
the first table of docs/PERFORMANCE.md, which --write puts there.

    bench/beside.py [--server PROGRAM] [--kubernetes FOLDER] [--apiserver PROGRAM]
                    [--etcd PROGRAM] [--write]

PROGRAM of --server is ssa-server (default: the released one, or else one built here).
FOLDER has the sources of Kubernetes with their folder `vendor`, as Debian 12's source
package `kubernetes` has them: Go builds kube-apiserver of them (where --apiserver names
none) and the fake clientset of client-go, and fetches nothing; the first build takes
some minutes. --etcd names etcd (default: that of PATH). The merge library is Debian's,
as for merge_library/run.py. A column whose software isn't there stays empty, and
standard error says what it needs.

Of starts the least counts, of goes the most. The clients are Python, on the same
processors. Of this server each request has a connection of its own; of kube-apiserver
one connection is kept, by TLS, and etcd's files are in memory where /dev/shm is. The
fake clientset is called in its own process.
"""

from __future__ import annotations

import argparse
import contextlib
import glob
import json
import multiprocessing
import os
import platform
import re
import shutil
import socket
import ssl
import subprocess
import sys
import tempfile
import time
from collections.abc import Callable, Iterator
from typing import Protocol

import load

HERE = os.path.dirname(os.path.realpath(__file__))
sys.path.append(f"{HERE}/merge_library")

import run as merge_library  # noqa: E402

TOP = os.path.dirname(HERE)
PAGE = f"{TOP}/docs/PERFORMANCE.md"
PACKAGE = "golang-k8s-sigs-structured-merge-diff-dev"
GOCODE = "/usr/share/gocode/src"
LIBRARY = f"{GOCODE}/sigs.k8s.io/structured-merge-diff"
REFLECT = "github.com/modern-go/reflect2"
# In the sources of Kubernetes: the generator of schemas, where its file belongs, and the packages
# whose types kube-apiserver serves.
OPENAPI_GEN = "vendor/k8s.io/kube-openapi/cmd/openapi-gen"
SCHEMAS = "pkg/generated/openapi"
SERVED_BY_KUBERNETES = (
    "pkg/apis",
    "vendor/k8s.io/api",
    "vendor/k8s.io/apimachinery/pkg",
    "vendor/k8s.io/apiserver/pkg/apis",
    "vendor/k8s.io/client-go/pkg",
    "vendor/k8s.io/kube-aggregator/pkg/apis",
    "vendor/k8s.io/apiextensions-apiserver/pkg/apis",
)
OBJECTS, WATCHES, WRITES = 10_000, 50, 1_000
STARTS, GOES, SECONDS = 3, 3, 2.0
COLUMNS = ("this server", "merge library", "kube-apiserver and etcd", "fake clientset")
ROWS = {
    "start": "from the start to the first list",
    "rest": "memory at rest",
    "filled": "memory with 10,000 objects of 1 KB",
    "applies": "applies of 10 fields a second",
    "gets": "GETs of 1 KB a second",
    "lines": "lines of 50 watches a second",
}
NEEDS_OF_BUILDS = f"--kubernetes with Debian's golang-go and {PACKAGE}"
# What the line of a watch begins with.
LINE = b'{"type":"'
# What is measured, by row; None where it is refused.
Column = dict[str, "float | None"]
# Software that is there: its name, and what measures it.
Ready = tuple[str, Callable[[], Column]]


class Place(Protocol):
    """A server that is up, with widgets."""

    def ask(self, method: str, target: str, body: str | None = None) -> bytes:
        """What is answered to a request."""

    def stream(self, target: str) -> socket.socket:
        """A connection on which this watch was asked for."""

    def memory(self) -> float:
        """What its processes hold, in MiB."""


# What starts a server anew.
Anew = Callable[[], contextlib.AbstractContextManager[Place]]


def served(what: str, reply: bytes) -> bytes:
    """A reply that is no refusal."""
    if not load.is_served(reply):
        sys.exit(f"beside.py: {what}: {reply[:600].decode(errors='replace')}")
    return reply


def held(process: int) -> float:
    """What the system says that a process holds, in MiB."""
    with open(f"/proc/{process}/status", encoding="utf-8") as it:
        rows = [line.split() for line in it]
    return next(int(row[1]) for row in rows if row[:1] == ["VmRSS:"]) / 1024


def is_listened_on(port: int) -> bool:
    """Whether a program listens on this port of loopback."""
    with socket.socket() as it:
        return it.connect_ex(("127.0.0.1", port)) == 0


def free_port() -> int:
    """A port of loopback that nothing listens on."""
    with socket.socket() as it:
        it.bind(("127.0.0.1", 0))
        return int(it.getsockname()[1])


def until(holds: Callable[[], bool], what: str) -> None:
    """Waits until this holds, at most for two minutes."""
    ends = time.monotonic() + 120
    while not holds():
        if time.monotonic() > ends:
            sys.exit(f"beside.py: after two minutes it isn't so that {what}")
        time.sleep(0.01)


class Ours:
    """This server."""

    def __init__(self, server: load.Server) -> None:
        self.server = server

    def ask(self, method: str, target: str, body: str | None = None) -> bytes:
        request = load.request(method, target, body)
        return served(target, load.sent(self.server.port, request))

    def stream(self, target: str) -> socket.socket:
        peer = socket.create_connection(("127.0.0.1", self.server.port))
        peer.sendall(load.request("GET", target))
        return peer

    def memory(self) -> float:
        return held(self.server.process.pid)


@contextlib.contextmanager
def ours(program: str) -> Iterator[Place]:
    """This server, until it has listed."""
    with load.Server(program, ["--concurrent"]) as server:
        place = Ours(server)
        place.ask("GET", load.WIDGETS)
        yield place


class Kubernetes:
    """kube-apiserver and etcd, asked by one kept connection."""

    def __init__(self, port: int, processes: list[int]) -> None:
        self.port, self.processes = port, processes
        self.context = ssl.SSLContext(ssl.PROTOCOL_TLS_CLIENT)
        self.context.check_hostname = False
        self.context.verify_mode = ssl.CERT_NONE
        self.kept: ssl.SSLSocket | None = None

    def connect(self) -> ssl.SSLSocket:
        peer = socket.create_connection(("127.0.0.1", self.port))
        peer.setsockopt(socket.IPPROTO_TCP, socket.TCP_NODELAY, 1)
        return self.context.wrap_socket(peer)

    def request(self, method: str, target: str, body: str | None) -> bytes:
        first, _, rest = load.request(method, target, body).partition(b"\r\n")
        return first + b"\r\nAuthorization: Bearer beside\r\n" + rest

    def reply(self, method: str, target: str, body: str | None = None) -> bytes:
        """What is answered, refusals too."""
        self.kept = self.kept or self.connect()
        self.kept.sendall(self.request(method, target, body))
        reply = b""
        while True:
            part = self.kept.recv(1 << 16)
            reply += part
            head, ended, read = reply.partition(b"\r\n\r\n")
            if not part:
                raise ConnectionError("the connection was closed")
            length = re.search(rb"\r\nContent-Length: (\d+)", head)
            if ended and length and len(read) == int(length[1]):
                return reply
            if ended and not length and read.endswith(b"\r\n0\r\n\r\n"):
                return reply

    def ask(self, method: str, target: str, body: str | None = None) -> bytes:
        return served(target, self.reply(method, target, body))

    def is_served(self, target: str) -> bool:
        """Whether it answers this GET by now."""
        try:
            return bool(load.is_served(self.reply("GET", target)))
        except OSError:
            self.kept = None
            return False

    def stream(self, target: str) -> socket.socket:
        peer = self.connect()
        peer.sendall(self.request("GET", target, None))
        return peer

    def memory(self) -> float:
        return sum(map(held, self.processes))


def definition() -> str:
    """The CustomResourceDefinition of the type that this server is given."""
    its = load.TYPES["types"][0]
    names = {"kind": its["kind"], "plural": its["plural"], "singular": "widget"}
    version = {"name": its["version"], "served": True, "storage": True}
    version["schema"] = {"openAPIV3Schema": its["schema"]}
    spec = {"group": its["group"], "names": names, "scope": "Namespaced"}
    return json.dumps(
        {
            "apiVersion": "apiextensions.k8s.io/v1",
            "kind": "CustomResourceDefinition",
            "metadata": {"name": f"{its['plural']}.{its['group']}"},
            "spec": {**spec, "versions": [version]},
        }
    )


def options_of_etcd(folder: str, port: int) -> list[str]:
    """The options of etcd, alone and on this port."""
    client, peer = f"http://127.0.0.1:{port}", f"http://127.0.0.1:{free_port()}"
    return [
        f"--data-dir={folder}/etcd",
        f"--listen-client-urls={client}",
        f"--advertise-client-urls={client}",
        f"--listen-peer-urls={peer}",
        f"--initial-advertise-peer-urls={peer}",
        f"--initial-cluster=default={peer}",
    ]


def options_of_apiserver(folder: str, etcd: int, port: int) -> list[str]:
    """The options of kube-apiserver, as envtest has them, for the token of this script."""
    return [
        f"--etcd-servers=http://127.0.0.1:{etcd}",
        f"--cert-dir={folder}/certificates",
        f"--secure-port={port}",
        "--bind-address=127.0.0.1",
        "--advertise-address=127.0.0.1",
        "--endpoint-reconciler-type=none",
        "--service-cluster-ip-range=10.0.0.0/24",
        "--service-account-issuer=https://localhost",
        f"--service-account-key-file={folder}/key",
        f"--service-account-signing-key-file={folder}/key",
        "--disable-admission-plugins=ServiceAccount",
        "--authorization-mode=RBAC",
        f"--token-auth-file={folder}/tokens",
    ]


@contextlib.contextmanager
def kubernetes(apiserver: str, etcd: str, folder: str) -> Iterator[Place]:
    """kube-apiserver and etcd, until the first list of the type is served."""
    its_etcd, port = free_port(), free_port()
    running: list[subprocess.Popen[bytes]] = []
    with open(f"{folder}/log", "ab") as log:

        def start(program: str, options: list[str]) -> None:
            running.append(
                subprocess.Popen([program, *options], stdout=log, stderr=log)
            )

        try:
            start(etcd, options_of_etcd(folder, its_etcd))
            until(lambda: is_listened_on(its_etcd), "etcd listens")
            start(apiserver, options_of_apiserver(folder, its_etcd, port))
            place = Kubernetes(port, [it.pid for it in running])
            for target in ("/readyz", "/api/v1/namespaces/default"):
                until(lambda: place.is_served(target), f"{target} is served")
            definitions = "/apis/apiextensions.k8s.io/v1/customresourcedefinitions"
            place.ask("POST", definitions, definition())
            until(lambda: place.is_served(load.WIDGETS), "widgets are served")
            yield place
        except SystemExit:
            with open(f"{folder}/log", encoding="utf-8", errors="replace") as said:
                print(*said.readlines()[-20:], sep="", file=sys.stderr)
            raise
        finally:
            for it in reversed(running):
                it.kill()
                it.wait()


@contextlib.contextmanager
def kubernetes_anew(apiserver: str, etcd: str) -> Iterator[Anew]:
    """What starts kube-apiserver and etcd anew, each time without objects."""
    memory = "/dev/shm" if os.access("/dev/shm", os.W_OK) else None
    with tempfile.TemporaryDirectory(dir=memory) as folder:
        key = ["openssl", "genrsa", "-out", f"{folder}/key", "2048"]
        subprocess.run(key, check=True, capture_output=True)
        with open(f"{folder}/tokens", "w", encoding="utf-8") as it:
            it.write('beside,beside,beside,"system:masters"\n')

        def anew() -> contextlib.AbstractContextManager[Place]:
            shutil.rmtree(f"{folder}/etcd", ignore_errors=True)
            return kubernetes(apiserver, etcd, folder)

        yield anew


def rate(ask: Callable[[int], object]) -> float:
    """How many of these are done a second, by one client."""
    best, turn = 0.0, 0
    for _ in range(GOES):
        first, start = turn, time.perf_counter()
        while time.perf_counter() - start < SECONDS:
            turn += 1
            ask(turn)
        best = max(best, (turn - first) / (time.perf_counter() - start))
    return best


def count_lines(place: Place, target: str, told: multiprocessing.Queue[int]) -> None:
    """Reads a watch until it has told all writes; first it tells that it was asked for."""
    peer, seen, rest = place.stream(target), 0, b""
    told.put(0)
    while seen < WRITES:
        part = peer.recv(1 << 20)
        if not part:
            sys.exit("beside.py: a watch ended")
        rest += part
        seen += rest.count(LINE)
        # (what may be the beginning of a line that goes on in the next part)
        rest = rest[1 - len(LINE) :]
    told.put(seen)


def lines(place: Place, apply: Callable[[int], object]) -> float:
    """How many lines of all watches are read a second while one client applies."""
    listed = place.ask("GET", f"{load.WIDGETS}?limit=1").partition(b"\r\n\r\n")[2]
    version = json.loads(listed)["metadata"]["resourceVersion"]
    target = f"{load.WIDGETS}?watch=true&resourceVersion={version}"
    told: multiprocessing.Queue[int] = multiprocessing.Queue()
    peers = [
        multiprocessing.Process(target=count_lines, args=(place, target, told))
        for _ in range(WATCHES)
    ]
    for peer in peers:
        peer.start()
    for _ in peers:
        told.get(timeout=60)
    time.sleep(1)
    start = time.perf_counter()
    for turn in range(1, WRITES + 1):
        apply(turn)
    seen = sum(told.get(timeout=600) for _ in peers)
    took = time.perf_counter() - start
    for peer in peers:
        peer.join()
    return seen / took


def of_server(anew: Anew) -> Column:
    """A column of a server: each start is of a new one; the first is asked, the second filled."""
    found: Column = {}
    starts = []
    for start in range(STARTS):
        began = time.perf_counter()
        with anew() as place:
            starts.append(time.perf_counter() - began)
            if start == 0:

                def apply(turn: int) -> object:
                    target = f"{load.WIDGETS}/c?fieldManager=alice"
                    return place.ask("PATCH", target, load.widget("c", 10, turn))

                place.ask("POST", load.WIDGETS, load.filled("w000000", 0))
                found["applies"] = rate(apply)
                found["gets"] = rate(
                    lambda _: place.ask("GET", f"{load.WIDGETS}/w000000")
                )
                found["lines"] = lines(place, apply)
            if start == 1:
                time.sleep(2)
                found["rest"] = place.memory()
                for n in range(OBJECTS):
                    place.ask("POST", load.WIDGETS, load.filled(f"w{n:06d}", n))
                found["filled"] = place.memory()
    return {**found, "start": min(starts) * 1000}


def of_library(program: str) -> Column:
    """The column of the merge library: the same applies, without HTTP and without a store."""
    with tempfile.TemporaryDirectory() as folder:
        path = f"{folder}/script"
        with open(path, "w", encoding="utf-8") as it:
            for turn in range(4_000):
                event = {"body": json.loads(load.widget("c", 10, turn)), "force": False}
                event |= {"manager": "alice", "target": f"{load.WIDGETS}/c"}
                it.write(json.dumps({"apply": event}) + "\n")
        rates = [merge_library.by_library(program, path) for _ in range(GOES)]
    return {"applies": max(rates)}


def overlay(vendor: str, path: str, more: dict[str, str]) -> str:
    """The file that has Go read Debian's reflect2 in place of the one in `vendor`: that one of
    2018 reads maps in a way that Go of 1.18 and later has no longer. With more such files."""
    old = f"{vendor}/{REFLECT}"
    replaced = {it: "" for it in glob.glob(f"{old}/*.go")}
    for it in glob.glob(f"{GOCODE}/{REFLECT}/*.go"):
        replaced[f"{old}/{os.path.basename(it)}"] = it
    with open(path, "w", encoding="utf-8") as out:
        json.dump({"Replace": replaced | more}, out)
    return path


def of_go(gopath: str) -> dict[str, str]:
    """The variables by which Go takes what the GOPATH has alone."""
    its = {"GOPATH": gopath, "GO111MODULE": "off", "GOFLAGS": "", "CGO_ENABLED": "0"}
    return {**os.environ, **its}


def build(
    package: str, cwd: str, gopath: str, vendor: str, more: dict[str, str] | None = None
) -> str:
    """A program of Go, of what the GOPATH has alone, and more files in place of its own."""
    name = os.path.basename(package).strip(".") or "program"
    program = f"{gopath}/{name}"
    replaced = overlay(vendor, f"{gopath}/{name}.overlay", more or {})
    # (without the folder's path, what Go keeps of one run is used in the next)
    options = ["-trimpath", "-overlay", replaced, "-o", program]
    command = ["go", "build", *options, package]
    subprocess.run(command, cwd=cwd, env=of_go(gopath), check=True)
    return program


def has_schema(path: str) -> bool:
    """Whether types of a file of Go are to have schemas."""
    with open(path, encoding="utf-8") as it:
        return re.search(r"^// *\+k8s:openapi-gen=", it.read(), re.M) is not None


def schemas(place: str, gopath: str) -> dict[str, str]:
    """The file with the schemas of what kube-apiserver serves. Its sources lack it, since their
    own build makes it too, by the generator that they have."""
    vendor, top = f"{place}/vendor", "k8s.io/kubernetes"
    generator = build(f"{top}/{OPENAPI_GEN}", place, gopath, vendor)
    folders = set()
    for root in SERVED_BY_KUBERNETES:
        for path in glob.glob(f"{place}/{root}/**/*.go", recursive=True):
            if has_schema(path):
                folders.add(f"{top}/{os.path.relpath(os.path.dirname(path), place)}")
    words = ["-i", ",".join(sorted(folders)), "-p", f"{top}/{SCHEMAS}"]
    words += ["-O", "zz_generated.openapi", "-h", os.devnull, "-r", f"{gopath}/report"]
    # (it finds `vendor` by the folder's path within the GOPATH, which is that of a link)
    its = {**of_go(gopath), "PWD": place}
    subprocess.run([generator, *words, "-o", gopath], cwd=place, env=its, check=True)
    made = f"{SCHEMAS}/zz_generated.openapi.go"
    return {f"{place}/{made}": f"{gopath}/{top}/{made}"}


def build_apiserver(sources: str, folder: str) -> str:
    """kube-apiserver, of the sources of Kubernetes."""
    gopath = f"{folder}/of_kubernetes"
    place = f"{gopath}/src/k8s.io/kubernetes"
    os.makedirs(os.path.dirname(place))
    os.symlink(sources, place)
    package = "k8s.io/kubernetes/cmd/kube-apiserver"
    more = schemas(place, gopath)
    return build(package, folder, gopath, f"{place}/vendor", more)


def build_fake(sources: str, folder: str) -> str:
    """The program over the fake clientset, of what the sources of Kubernetes have in `vendor`."""
    gopath = f"{folder}/of_vendor"
    os.makedirs(gopath)
    os.symlink(f"{sources}/vendor", f"{gopath}/src")
    return build(".", f"{HERE}/beside", gopath, f"{gopath}/src")


def of_fake(program: str) -> Column:
    """The column of the fake clientset."""
    with tempfile.TemporaryDirectory() as folder:
        for name, text in (
            ("stored", load.filled("w000000", 1)),
            ("changed", load.filled("w000000", 2)),
        ):
            with open(f"{folder}/{name}", "w", encoding="utf-8") as it:
                it.write(text)
        said = subprocess.run(
            [program, folder], stdout=subprocess.PIPE, text=True, check=True
        ).stdout
    return dict(json.loads(said))


def cell(row: str, of: Column) -> str:
    """What the table has of a figure."""
    if row not in of:
        return ""
    figure = of[row]
    if figure is None:
        return "refused"
    if row == "start":
        return f"{figure / 1000:.1f} s" if figure >= 1000 else f"{figure:.1f} ms"
    if row in ("rest", "filled"):
        return f"{figure:.0f} MiB" if figure >= 100 else f"{figure:.1f} MiB"
    return f"{figure:,.0f}"


def version_of(program: str) -> str:
    """The version that a program says."""
    ran = subprocess.run([program, "--version"], capture_output=True, text=True)
    found = re.search(r"\d+\.\d+[.\d]*", ran.stdout)
    return found[0] if found else "of no version"


def version_of_sources(sources: str) -> str:
    """The version of the sources of Kubernetes, by the name of their folder, which Debian also writes `A+reallyB`."""
    found = re.search(r"kubernetes-(?:[\d.]+\+really)?([\d.]+)$", sources)
    return found[1] if found else "of no version"


def of_debian(package: str) -> str:
    """The version of an installed package."""
    ran = subprocess.run(
        ["dpkg-query", "-W", "-f", "${Version}", package],
        capture_output=True,
        text=True,
    )
    return re.split(r"[-+~]", ran.stdout.partition(":")[2] or ran.stdout)[0]


def our_name(program: str) -> str:
    """This server: a released one has a manifest beside it."""
    folder = os.path.dirname(program)
    places = (f"{folder}/MANIFEST", f"{os.path.dirname(folder)}/MANIFEST")
    kind = "released" if any(map(os.path.isfile, places)) else "built here"
    return f"`ssa-server` {version_of(program)}, {kind}"


class Lack(Exception):
    """What a column's software lacks."""


def our_column(asked: argparse.Namespace) -> Ready:
    """This server."""
    return our_name(asked.server), lambda: of_server(lambda: ours(asked.server))


def library_column(folder: str) -> Ready:
    """The merge library."""
    if not shutil.which("go") or not os.path.isdir(LIBRARY):
        raise Lack(f"Debian's golang-go and {PACKAGE}")
    os.makedirs(f"{folder}/of_library")
    program = merge_library.build(f"{folder}/of_library")
    name = f"structured-merge-diff {of_debian(PACKAGE)}"
    return name, lambda: of_library(program)


def can_build_of(sources: str | None) -> bool:
    """Whether programs of these sources of Kubernetes can be built."""
    has_go = shutil.which("go") is not None and os.path.isdir(f"{GOCODE}/{REFLECT}")
    return has_go and sources is not None and os.path.isdir(f"{sources}/vendor")


def kubernetes_column(asked: argparse.Namespace, folder: str) -> Ready:
    """kube-apiserver and etcd."""
    can_build = can_build_of(asked.kubernetes)
    if not (asked.etcd and shutil.which("openssl") and (asked.apiserver or can_build)):
        raise Lack(f"etcd, openssl, and either --apiserver or {NEEDS_OF_BUILDS}")
    if asked.apiserver:
        apiserver, version = asked.apiserver, version_of(asked.apiserver)
    else:
        apiserver = build_apiserver(asked.kubernetes, folder)
        version = version_of_sources(asked.kubernetes)

    def figures() -> Column:
        with kubernetes_anew(apiserver, asked.etcd) as anew:
            return of_server(anew)

    return f"kube-apiserver {version}, etcd {version_of(asked.etcd)}", figures


def fake_column(asked: argparse.Namespace, folder: str) -> Ready:
    """The fake clientset."""
    if not can_build_of(asked.kubernetes):
        raise Lack(NEEDS_OF_BUILDS)
    version = version_of_sources(asked.kubernetes).removeprefix("1.")
    program = build_fake(asked.kubernetes, folder)
    return f"the dynamic fake of client-go 0.{version}", lambda: of_fake(program)


def measured(asked: argparse.Namespace) -> list[str]:
    """The table, and what was measured, on which machine. All is built before the first figure."""
    makers: list[Callable[[str], Ready]] = [
        lambda _: our_column(asked),
        library_column,
        lambda folder: kubernetes_column(asked, folder),
        lambda folder: fake_column(asked, folder),
    ]
    ready: list[Ready | None] = []
    with tempfile.TemporaryDirectory() as folder:
        for what, make in zip(COLUMNS, makers):
            try:
                ready.append(make(folder))
            except Lack as lack:
                ready.append(None)
                print(f"beside.py: no {what}: it needs {lack}", file=sys.stderr)
        found = [its[1]() if its else {} for its in ready]
    lines = [f"| | {' | '.join(COLUMNS)} |", "|---" * (len(COLUMNS) + 1) + "|"]
    for row, what in ROWS.items():
        lines.append(f"| {what} | {' | '.join(cell(row, of) for of in found)} |")
    names = "; ".join(its[0] for its in ready if its)
    machine = f"{os.cpu_count()} processors ({processor()})"
    return [*lines, "", f"Measured on {machine}: {names}."]


def processor() -> str:
    """What the system calls the processor."""
    with open("/proc/cpuinfo", encoding="utf-8") as it:
        found = re.search(r"^model name\s*: (.*)", it.read(), re.M)
    return found[1].strip() if found else platform.machine()


def write(lines: list[str]) -> None:
    """Puts the table into the page, in place of the one that is there."""
    with open(PAGE, encoding="utf-8") as it:
        page = it.read()
    old = re.compile(rf"^\| \| {COLUMNS[0]} \|.*\n(?:\|.*\n)+\nMeasured .*$", re.M)
    if len(old.findall(page)) != 1:
        sys.exit(f"beside.py: {PAGE} has no such table")
    with open(PAGE, "w", encoding="utf-8") as it:
        it.write(old.sub(lambda _: "\n".join(lines), page))


def our_program() -> str:
    """The released ssa-server, or else the one that was built here."""
    command = [f"{TOP}/tools/released.py", "ssa-server"]
    said = subprocess.run(command, stdout=subprocess.PIPE, text=True).stdout.strip()
    return said or f"{TOP}/crates/ssa_server/out/ssa_server"


def whole(path: str) -> str:
    """A path from the root on, without links."""
    return os.path.realpath(path)


def main() -> None:
    """Measures what is there, prints the table, and writes it where that is asked."""
    words = argparse.ArgumentParser(
        description=__doc__, formatter_class=argparse.RawDescriptionHelpFormatter
    )
    words.add_argument("--server", type=whole)
    words.add_argument("--kubernetes", type=whole)
    words.add_argument("--apiserver", type=whole)
    words.add_argument("--etcd", type=whole, default=shutil.which("etcd"))
    words.add_argument("--write", action="store_true")
    asked = words.parse_args()
    asked.server = asked.server or our_program()
    if not os.access(asked.server, os.X_OK):
        sys.exit(f"beside.py: {asked.server} can't be run: name a program by --server")
    # (as the script ssa-server does)
    os.environ.setdefault("GLIBC_TUNABLES", "glibc.malloc.tcache_count=2000")
    lines = measured(asked)
    print("\n".join(lines))
    if asked.write:
        write(lines)


if __name__ == "__main__":
    main()
