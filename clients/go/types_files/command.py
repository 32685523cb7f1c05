"""The command `tools/crd`, which the Python package has as `nazhuvem crd`."""

from __future__ import annotations

import argparse
import sys
from collections.abc import Sequence

from .documents import BadFile, documents_of, objects_of
from .making import Making
from .notes import counted, ordered, summed
from .printing import printed

EPILOG = """\
Each line on standard error begins with what is lost: `type` and `field` aren't served, a `rule` isn't checked; a `warning` tells
what is otherwise here. The status is 0 where a types file was printed, 1 where a type or a field is lost and --drop wasn't given,
or nothing is left, 2 where the usage is wrong or a file can't be read.
"""
FILES = """\
CustomResourceDefinitions (v1 or v1beta1, one or many, also in lists; other documents are ignored), Kubernetes' OpenAPI document
(swagger.json), or types files; in JSON, or in YAML with Debian's python3-yaml; a folder is all its files with these endings; - is
the standard input
"""


def arguments(words: Sequence[str], name: str) -> argparse.Namespace:
    """What the command line asks for."""
    parser = argparse.ArgumentParser(
        prog=name,
        description="Prints the types file of CustomResourceDefinitions.",
        epilog=EPILOG,
    )
    parser.add_argument("files", nargs="+", metavar="FILE", help=FILES)
    parser.add_argument(
        "--drop", action="store_true", help="leave out what can't be served"
    )
    parser.add_argument(
        "--verbose", action="store_true", help="tell the place of each rule"
    )
    parser.add_argument(
        "--only",
        action="append",
        default=[],
        metavar="PLURAL.GROUP[/VERSION]",
        help="take this definition, or this version of it, alone; may be given often",
    )
    parser.add_argument(
        "--int-or-string",
        choices=["integer", "string"],
        help="serve x-kubernetes-int-or-string as this type",
    )
    return parser.parse_args(words)


def say(text: str) -> None:
    """Prints a line on standard error."""
    print(text, file=sys.stderr)


def main(words: Sequence[str], name: str = "crd") -> int:
    """Prints the types file, and what it loses. Returns the exit status."""
    asked = arguments(words, name)
    making = Making(asked.only, asked.int_or_string)
    try:
        for path in asked.files:
            for value in objects_of(documents_of(path)):
                making.take(value)
    except BadFile as error:
        say(f"crd: {error}")
        return 2
    making.end()
    notes = making.notes if asked.verbose else summed(making.notes)
    for note in ordered(notes):
        say(str(note))
    if notes:
        say(f"crd: {counted(making.notes)}")
    if any(note.is_unserved for note in making.notes) and not asked.drop:
        say("crd: no types file is printed: --drop leaves out what can't be served")
        return 1
    if not making.types:
        say(f"crd: {making.nothing(asked.files)}")
        return 1
    print(printed({"types": making.types}))
    return 0
