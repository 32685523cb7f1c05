"""The plugin of pytest: fixtures of a hub and of a server, and test ids of schedules.

A wheel installs it; elsewhere `-p nazhuvem.pytest_plugin` loads it.
"""

from __future__ import annotations

from collections.abc import Generator, Iterator
from pathlib import Path
from typing import Any, Mapping, Optional
from weakref import WeakKeyDictionary

import pytest

from nazhuvem import exploring
from nazhuvem.definitions import Types
from nazhuvem.hub import Hub
from nazhuvem.schedule import Schedule
from nazhuvem.server import Server, servers
from nazhuvem.telling import Rows

MARKER = "nazhuvem_types"
OPTION = "--nazhuvem-types"
NO_TYPES = (
    f"which types? Mark the test by @pytest.mark.{MARKER}(PATH..), or give {OPTION} PATH "
    f"or the ini-file's {MARKER}; a PATH is a types file or CustomResourceDefinitions"
)
_MOST_LINES = 40

# What the hub of the running test has seen, and how much each server had said before.
_hubs: list[Rows] = []
_said: WeakKeyDictionary[Server, int] = WeakKeyDictionary()


def pytest_addoption(parser: pytest.Parser) -> None:
    """The types of the fixtures, where a test isn't marked."""
    group = parser.getgroup("nazhuvem")
    what = "types that the fixtures of nazhuvem serve, where a test isn't marked"
    group.addoption(OPTION, metavar="PATH", help=what)
    parser.addini(MARKER, what)


def pytest_configure(config: pytest.Config) -> None:
    """The marker of the types; scripts of failures are kept with pytest's own
    temporary files, of which it keeps those of the last three runs."""
    exploring.folder = lambda: _folder(config)
    said = f"{MARKER}(path..): the types that nazhuvem_hub and nazhuvem_server serve"
    config.addinivalue_line("markers", said)


def _folder(config: pytest.Config) -> Optional[str]:
    """A folder of pytest's; none where its plugin of temporary files is left out."""
    factory = getattr(config, "_tmp_path_factory", None)
    return str(factory.mktemp("nazhuvem")) if factory else None


def pytest_make_parametrize_id(val: object) -> Optional[str]:
    """The id of a schedule is the word that plays it again."""
    return val.word if isinstance(val, Schedule) else None


@pytest.fixture
def nazhuvem_types(request: pytest.FixtureRequest) -> Types:
    """The types of a test: of its marker, else of the command line, else of the
    ini-file. A relative path begins at the rootdir, on the command line where pytest
    was called."""
    config = request.config
    top = Path(config.rootpath)
    if marker := request.node.get_closest_marker(MARKER):
        found = marker.args
        if len(found) == 1 and isinstance(found[0], Mapping):
            return dict(found[0])
        if found:
            return [Path(top, path) for path in found]
        raise pytest.UsageError(NO_TYPES)
    if option := config.getoption(OPTION):
        return Path(str(config.invocation_params.dir), option)
    if ini := config.getini(MARKER):
        return top / str(ini)
    raise pytest.UsageError(NO_TYPES)


@pytest.fixture
def nazhuvem_hub(nazhuvem_types: Types) -> Iterator[Hub]:
    """A hub of the test's own. Where the test fails its events are shown."""
    rows = Rows()
    _hubs.append(rows)
    with Hub(nazhuvem_types, observer=rows) as hub:
        yield hub


@pytest.fixture
def nazhuvem_server(nazhuvem_types: Types) -> Iterator[Server]:
    """A server of the test's own, on a free port. Where the test fails its log is
    shown."""
    with Server(nazhuvem_types) as server:
        yield server


@pytest.hookimpl(tryfirst=True)
def pytest_runtest_setup() -> None:
    """Before a test: what servers said until now is none of its."""
    _hubs.clear()
    _said.clear()
    _said.update({server: server.said for server in servers()})


@pytest.hookimpl(hookwrapper=True)
def pytest_runtest_makereport() -> Generator[None, Any, None]:
    """What hub and servers saw stands beside the captured output of a failure."""
    outcome = yield
    report = outcome.get_result()
    if not report.failed:
        return
    for rows in _hubs:
        if lines := rows.shown():
            report.sections.append(("events of nazhuvem_hub", "\n".join(lines)))
    for server in servers():
        log = server.log_since(_said.get(server, 0)).splitlines()
        if log:
            text = "\n".join(log[-_MOST_LINES:])
            report.sections.append((f"log of {server.url}", text))
