#!/usr/bin/env python3
"""What a contract rests on: the definitions of specs/ that it names, and all that these name in turn.

    tools/rests_on.py [CRATE FUNCTION]

prints the page of docs/generated that `tools/pages.py` writes of the headline, `run` of `world`, or the same of another
public function. It reads the definitions by their lines, in the form that `rt fmt` gives them.
"""

from __future__ import annotations

import collections
import functools
import os
import re
import sys
from typing import NamedTuple

import pages

CRATE, FUNCTION = "world", "run"
# Laws that tie a definition to something simpler: the law, the definition (its file and name), and what the law says of it without
# the definition's own cases. Each must be named by the law, and the headline must rest on it.
TIED = (
    (
        "wire_laws::heads_end",
        "Heads.head_end",
        "the first empty line, in the words of RFC 9112",
    ),
    (
        "wireclient::reply_reads_back",
        "Reads.Items",
        "of each reply of the grammar within the limits: its status, its body, its end",
    ),
    (
        "wireclient::chunks_read_back",
        "Reads.Items",
        "of chunks, however lines lie in them: the lines",
    ),
    ("wireclient::prefixes_stand", "Reads.Items", "of a prefix: a prefix"),
    (
        "wire_laws::malformed_is_final",
        "Reads.Items",
        "of malformed bytes: the same, whatever follows them",
    ),
    (
        "wire_laws::requests_are_read",
        "Heads.ReadsHead",
        "of what the client prints: the method, the target and the media type that it meant",
    ),
    (
        "wire_laws::requests_ask",
        "Asks.Asks",
        "of what the client prints: what its path, method and body lead to",
    ),
    (
        "wire_laws::replies_are_read",
        "ReplyBytes.reply",
        "what a client reads back as the status and the body",
    ),
    (
        "wire_laws::watches_are_read",
        "ReplyBytes.chunks",
        "what a client reads back as the lines",
    ),
    (
        "fieldset::written_is_read",
        "FieldsV1.fields_v1_of",
        "what is read back as the same set of paths",
    ),
    (
        "fieldset::readings_are_written",
        "FieldsV1.read_fields_v1",
        "the set of which the value is written",
    ),
    (
        "typed::printed_reads_back",
        "Printing.print",
        "what is read back as the same content",
    ),
    (
        "lists::pages_go_on",
        "Lists.page_of",
        "pages that, joined, are the whole list, and come to an end",
    ),
    (
        "lists::tokens_are_read",
        "Body.continued_at",
        "what is read back as the revision and the key",
    ),
    (
        "history::kept_is_enough",
        "History.compacted_to",
        "what leaves each state and change from there on as it was",
    ),
    (
        "history::seen_changes_lead_on",
        "Seen.seen_among",
        "what leads from the objects before to those after",
    ),
    (
        "line_laws::watches_send_all",
        "Watches.coming",
        "what was sent and is still to come: the objects that were left, and each seen change once, in order",
    ),
    (
        "wire_laws::watches_write_changes",
        "Connections.written_on",
        "of a watch: the changes that it sees, each once and in order, and bookmarks behind them",
    ),
    (
        "line_laws::bookmarks_come_behind",
        "Watches.is_bookmark_due",
        "where all up to the bookmark's revision was sent",
    ),
    (
        "watchline::positions_skip_nothing",
        "Watches.pumped",
        "a turn after which no change is passed that was not sent",
    ),
    (
        "line_laws::lines_are_read",
        "Lines.line_in",
        "of a printed line: the object, the bookmark or the error that it says",
    ),
    (
        "line_laws::pages_are_read",
        "Body.list_text",
        "what a client reads back as the page",
    ),
    (
        "line_laws::labels_are_of_contents",
        "Labels.labels_of",
        "the labels of the content that the text was printed of",
    ),
    (
        "line_laws::keys_name_texts",
        "Labels.attributes_of",
        "what the object's text says: its name and its labels",
    ),
    ("httpedge::pieces", "Runs.Steps", "the same, however bytes were cut"),
    (
        "reflector::follows_the_server",
        "Run.receives_all",
        "what gives the server's objects at the revision that is told",
    ),
    (
        "summary::counts_follow",
        "Counts.counts_of",
        "how many objects have each value, one notice at a time",
    ),
    ("world_laws::each_happens", "World.Steps", "each event leads on from each world"),
    ("world_laws::one_world", "Reports.Runs", "to one end, with one list of reports"),
)
WORD = r"[^\W\d][\w'-]*"
# A definition's signature, at the indent of its block: its name stands before the colon or before its parameters.
SIGNATURE = re.compile(
    rf"(?:abbrev |unfoldable )?(?:pub )?(?:record |data )?({WORD})(?: [({{].*| :(?: .*|$)|$)"
)


class Name(NamedTuple):
    """A definition: the crate, the file below its specs/ without the ending, and its name."""

    crate: str
    file: str
    name: str


class Module(NamedTuple):
    """A file of definitions: each definition's lines, by name, and what its imports stand for."""

    texts: dict[str, list[str]]
    names: dict[str, Name]
    aliases: dict[str, tuple[str, str]]
    kit: dict[str, str]
    declared: dict[str, str]


class Rests(NamedTuple):
    """All that a contract rests on."""

    definitions: set[Name]
    kit: set[str]
    declared: set[str]


def lines_by_name(text: str) -> dict[str, list[str]]:
    """The lines of each definition, without comments."""
    found: dict[str, list[str]] = {}
    name, indent = "", ""
    for line in text.split("\n"):
        bare = line.strip()
        if not bare or bare.startswith(("--", "use ", "pub mod ", "mod ")):
            continue
        if bare in ("mutual", "abbrev mutual"):
            indent = "  "
            continue
        if not line.startswith(" "):
            indent = ""
        begins = (
            line.startswith(indent)
            and not line.startswith(indent + " ")
            and SIGNATURE.match(bare)
        )
        if begins and begins[1] != name and " = " not in bare.partition(" : ")[0]:
            name = begins[1]
        if name:
            found.setdefault(name, []).append(bare)
    return found


def type_in(home: str, path: str) -> str:
    """The type of the code that a module of its declarations has."""
    words = path.removeprefix("specs.declared.").split(".")
    return f"{home}: {next((it for it in words if it[0].isupper()), words[-1])}"


def read_imports(
    text: str,
) -> tuple[dict[str, Name], dict[str, tuple[str, str]], dict[str, str], dict[str, str]]:
    """What imported names, modules under another name, names of the kit, and types of the code stand for."""
    names: dict[str, Name] = {}
    aliases: dict[str, tuple[str, str]] = {}
    kit: dict[str, str] = {}
    declared: dict[str, str] = {}
    own = set(pages.crates())
    for home, path, rest in re.findall(
        r"^\s*(?:ghost )?(?:pub )?use Rattle\.(\w+)\.([\w.]+?)(?:\.\{([^}]*)\}| as [\w]+)?;?$",
        text,
        re.M,
    ):
        pairs = [
            it.strip().partition(" as ")[::2] for it in rest.split(",") if it.strip()
        ]
        for name, alias in pairs:
            if home not in own or not path.startswith("specs."):
                kit[alias or name] = f"{home}: {path.removeprefix('specs.')}"
            elif path.startswith("specs.declared."):
                declared[alias or name] = type_in(home, path)
            else:
                names[alias or name] = Name(home, path.removeprefix("specs."), name)
    for home, path, alias in re.findall(
        r"^\s*(?:ghost )?use Rattle\.(\w+)\.([\w.]+) as (\w+);?$", text, re.M
    ):
        if home not in own or not path.startswith("specs."):
            kit[alias] = f"{home}: {path.removeprefix('specs.')}"
        elif path.startswith("specs.declared."):
            declared[alias] = type_in(home, path)
        else:
            aliases[alias] = (home, path.removeprefix("specs."))
    return names, aliases, kit, declared


@functools.lru_cache(maxsize=None)
def module(crate: str, file: str) -> Module:
    """A file of definitions."""
    path = f"{pages.TOP}/crates/{crate}/specs/{file.replace('.', '/')}.antt"
    text = pages.text_of(path) if os.path.isfile(path) else ""
    return Module(lines_by_name(text), *read_imports(text))


def cited(text: str, of: Module, here: tuple[str, str] | None) -> Rests:
    """What a text names, by the imports of its file and, where it stands in a file of definitions, by that file's own."""
    rests = Rests(set(), set(), set())
    for first, second in re.findall(rf"(?<![\w.])({WORD})(?:\.({WORD}))?", text):
        if here and first in of.texts:
            rests.definitions.add(Name(*here, first))
        elif first in of.names:
            rests.definitions.add(of.names[first])
        elif first in of.aliases and second:
            rests.definitions.add(Name(*of.aliases[first], second))
        elif first in of.kit:
            rests.kit.add(of.kit[first])
        elif first in of.declared:
            rests.declared.add(of.declared[first])
    return rests


def text_of(name: Name) -> list[str]:
    """The lines of a definition; none where it is a constructor or a field of another one."""
    return module(name.crate, name.file).texts.get(name.name, [])


def home_of(name: Name) -> Name | None:
    """The definition that a name belongs to: itself, or the data or record of which it is a part."""
    of = module(name.crate, name.file)
    if name.name in of.texts:
        return name
    for other, lines in of.texts.items():
        if any(re.match(rf"(?:pub )?{re.escape(name.name)} :", line) for line in lines):
            return Name(name.crate, name.file, other)
    return None


def clauses_of(crate: str, function: str) -> Rests:
    """What the contract of a public function names."""
    found = next(it for it in pages.exported(crate) if it.name == function)
    text = pages.text_of(found.file)
    return cited(found.contract, Module({}, *read_imports(text)), None)


def rests_on(first: Rests) -> Rests:
    """What these rest on, with themselves."""
    whole = Rests(set(), set(first.kit), set(first.declared))
    waiting = list(first.definitions)
    while waiting:
        name = home_of(waiting.pop())
        if name is None or name in whole.definitions:
            continue
        whole.definitions.add(name)
        of = module(name.crate, name.file)
        more = cited("\n".join(text_of(name)), of, (name.crate, name.file))
        whole.kit.update(more.kit)
        whole.declared.update(more.declared)
        waiting += more.definitions
    return whole


def laws() -> dict[str, set[Name]]:
    """The public laws, calls that answer nothing and change nothing, each with the definitions that its clauses name, or that the
    definition names which is its whole clause."""
    found: dict[str, set[Name]] = {}
    for crate in pages.crates():
        for it in pages.exported(crate):
            head = re.split(r"\n\s*(?:ensures|requires)", it.contract)[0]
            if "->" in head or "&mut" in head or "ensures" not in it.contract:
                continue
            of = Module({}, *read_imports(pages.text_of(it.file)))
            named = cited(it.contract, of, None).definitions
            if len(named) == 1:
                for name in list(named):
                    own = module(name.crate, name.file)
                    named = (
                        named
                        | cited(
                            "\n".join(text_of(name)), own, (name.crate, name.file)
                        ).definitions
                    )
            found[f"{crate}::{pages.called(it)}"] = {
                home for home in map(home_of, named) if home
            }
    return found


def ties(by_law: dict[str, set[Name]]) -> list[str]:
    """The rows of what laws say of definitions in simpler words; it ends where a law doesn't name its definition."""
    rows = []
    for law, place, words in TIED:
        file, _, word = place.rpartition(".")
        named = by_law.get(law, ())
        of = [it for it in named if (it.file, it.name) == (file, word)]
        if len(of) != 1:
            sys.exit(
                f"tools/rests_on.py: {law} names no {place} that the headline rests on"
            )
        rows.append(f"| {of[0].crate} | `{word}` | {words} | `{law}` |")
    return rows


def tied_part(by_law: dict[str, set[Name]], of: tuple[str, str]) -> list[str]:
    """The headline's part of what its definitions are tied to; nothing for another contract."""
    if of != (CRATE, FUNCTION):
        return []
    return [
        "## Tied to something simpler\n",
        "Definitions that are long, or follow bytes one by one, and what a law says of them in other words. Who doubts one of them",
        "can read the law in its place.\n",
        "| crate | definition | is | by the law |",
        "|---|---|---|---|",
        *ties(by_law),
        "",
        "## For types that aren't discovered\n",
        "Where types follow the profile `Plain`, as those that a file read for it declares (`api_types::files_mark_none`), a reader may skip what is said of the",
        "others: `discovery` (`api_request::documents_leave_places`), `Lenient` of `params` (`api_validation::words_are_read`, clause `others`: a query is then",
        "read word for word), `Fields` of `selector` (`line_laws::label_selectors_ask_labels`), and dry runs (`verbs::dry_runs_change_nothing`, clause `others`).\n",
    ]


def page(crate: str = CRATE, function: str = FUNCTION) -> list[str]:
    """The page."""
    whole = rests_on(clauses_of(crate, function))
    by_law = {law: named & whole.definitions for law, named in laws().items()}
    tied = set().union(*by_law.values())
    by_file: dict[tuple[str, str], list[Name]] = collections.defaultdict(list)
    for name in sorted(whole.definitions):
        by_file[name.crate, name.file].append(name)
    size = {name: len(text_of(name)) for name in whole.definitions}
    rows, listed = [], []
    for home in [it for it in pages.crates() if any(it == of for of, _ in by_file)]:
        files = {file: names for (of, file), names in by_file.items() if of == home}
        names = [name for of in files.values() for name in of]
        in_laws = sum(name in tied for name in names)
        rows.append(
            f"| {home} | {len(files)} | {len(names)} | {sum(size[it] for it in names)} | {in_laws} |"
        )
        listed += [f"### {home}\n"]
        for file, of in files.items():
            words = ", ".join(
                f"**`{it.name}`**" if it in tied else f"`{it.name}`" for it in of
            )
            listed.append(f"- {file}: {words}")
        listed.append("")
    whole_row = f"| in all | {len(by_file)} | {len(size)} | {sum(size.values())} | {len(tied)} |"
    return [
        "# What the headline rests on\n",
        pages.HEAD,
        "",
        f"The contract of `{crate}::{function}` names definitions of `specs/`, and these name others. Whoever believes the contract believes that they",
        "mean what their comments say. Those in bold are named by a public law too, a call that does nothing and whose clause says what holds of them.\n",
        "| crate | files | definitions | lines without comments | of the definitions in laws |",
        "|---|---|---|---|---|",
        *rows,
        whole_row,
        "",
        "Types of the code, whose fields they read: "
        + ", ".join(f"`{it}`" for it in sorted(whole.declared))
        + ".\n",
        "Modules of the kit: "
        + ", ".join(f"`{it}`" for it in sorted(whole.kit))
        + ".\n",
        *tied_part(by_law, (crate, function)),
        "## Laws\n",
        *(
            f"- `{law}`: {', '.join(f'`{it.name}`' for it in sorted(named))}"
            for law, named in by_law.items()
            if named
        ),
        "",
        "## Definitions\n",
        *listed,
    ]


if __name__ == "__main__":
    if set(sys.argv[1:]) & {"-h", "--help"} or len(sys.argv) not in (1, 3):
        sys.exit(__doc__)
    print("\n".join(page(*sys.argv[1:])))
