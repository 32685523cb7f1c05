"""Types files, as `ssa-pipe` reads them at its start, and those that it is told later.

| step | what comes |
|---|---|
| `file TEXT` | `read`, or the first fault of the types file |
| `schema TEXT`, `property TEXT` | the same of a file of one type with this schema, or with this property in it |
| `depth N` | the same where the schema is so deep: a struct with lists of lists of texts |
| `places TEXT` | each fault of the file that has a place, with it |
| `change TEXT -> TEXT`, `becomes TEXT -> TEXT` | whether the second file may follow the first; the same of files of one type with these properties |

The program numbers its faults and says of some of them more than which they are: here a fault has the library's name, and
in front of a place the library's words.
"""

from __future__ import annotations

import json
import re
import tempfile
from collections.abc import Iterator

from pipe import Pipe
from programs import Programs, Ran
from rows import Example, Wrong

# The names of the faults and their words, by the program's numbers.
FAULTS = {
    "1": ("UnknownKeyword", "unknown keyword"),
    "2": ("UnknownType", "unknown type"),
    "3": ("Misfit", "list or map kind that does not fit"),
    "4": ("TooDeep", "schema deeper than 16"),
    "5": ("SameNames", "two types with one name"),
    "6": ("NotTheForm", "not the form of a types file"),
}
# How the program ends: with the standard input, without a type to follow, and by a bad file.
READ, NO_TYPE, BAD = 0, 2, 3
ONE = '{"types":[{"group":"demo.example","kind":"Widget","plural":"widgets","version":"v1","schema":%s}]}'
OF_ONE = '{"type":"object","properties":{"a":%s}}'
NOT_LAWFUL = "not a lawful change of types"
STEPS = ("file", "schema", "property", "depth", "places", "change", "becomes")


def file_of(step: str, text: str) -> str:
    """The types file that a step is about."""
    if step == "depth":
        lists = int(text) - 2
        text = '{"type":"array","items":' * lists + '{"type":"string"}' + "}" * lists
    if step in ("property", "depth", "becomes"):
        text = OF_ONE % text
    return text if step in ("file", "places", "change") else ONE % text


def begun(programs: Programs, types: str) -> Ran:
    """How the program ends with a types file and no line."""
    with tempfile.NamedTemporaryFile("w", suffix=".json", encoding="utf-8") as it:
        it.write(types)
        it.flush()
        return programs.run("ssa-pipe", ["--types", it.name])


def faults_of(ran: Ran) -> list[tuple[str, str]]:
    """The number of each fault that was told, and its words."""
    told = ran.err.decode()
    found = re.findall(r": refusal (\d+): (.*)\n", told)
    if ran.status not in (READ, NO_TYPE) and not (ran.status == BAD and found):
        raise Wrong(f"the program ended with status {ran.status}: {told[:200]}")
    return found if ran.status == BAD else []


def placed(number: str, words: str) -> str:
    """A fault with its place, in the library's words; none where it has no place."""
    said, at, place = words.partition(" at ")
    if not at:
        return ""
    quoted = re.search(' "[^"]*"$', said)
    return f"{FAULTS[number][1]}{quoted[0] if quoted else ''}{at}{place};"


def changed(programs: Programs, old: str, new: str) -> str:
    """Whether a types file may follow another."""
    with Pipe(programs, old) as pipe:
        did = pipe.on({"types": json.loads(new)})
    if did.refused not in (None, NOT_LAWFUL):
        raise Wrong(f"it is refused: {did.refused}")
    return "NotLawful" if did.refused else "lawful"


def answer(programs: Programs, step: str, text: str) -> str:
    """What comes at a step."""
    if step in ("change", "becomes"):
        old, _, new = text.partition(" -> ")
        return changed(programs, file_of(step, old), file_of(step, new))
    faults = faults_of(begun(programs, file_of(step, text)))
    if step == "places":
        return "".join(placed(number, words) for number, words in faults)
    return FAULTS[faults[0][0]][0] if faults else "read"


def play(programs: Programs, example: Example) -> Iterator[str]:
    """What comes at each row."""
    for row in example.rows:
        step, _, text = row.step.partition(" ")
        if step not in STEPS:
            raise Wrong(f"there is no step `{step}`")
        yield answer(programs, step, text)
