#!/usr/bin/env python3
"""Writes the pages of docs/generated from the sources, or compares them with the sources.

    tools/pages.py                    writes the pages
    tools/pages.py --check            says which page is stale and which edit can't be applied; the status is then 1
    tools/pages.py words [CRATE..]    prints the public definitions of specs/, each with its comment's first sentence
    tools/pages.py edits [CRATE..]    prints the wrong bodies that the prover has to refuse, by function
    tools/pages.py --uncommented      lists the definitions of specs/ without a comment

It reads the sources by their lines, in the form that `rt fmt` gives them. A function counts as public where lib.rt exports
it or its type.
"""
from __future__ import annotations

import functools
import glob
import os
import re
import sys
from collections.abc import Iterator
from typing import NamedTuple

TOP = os.path.dirname(os.path.dirname(os.path.realpath(__file__)))
PLACE = "docs/generated"
HEAD = "Written by `tools/pages.py`; `./test` fails where it is stale."
LITERAL = re.compile(r'"((?:[^"\\]|\\.)*)"')
# a refusal for a field: what comes first, its path and what is wrong with it, each as a text or as a variable
FIELD = re.compile(
    r'\b(?:require_at|invalid_at|at_field)\(([^;"]*?)(?:"([^"]*)"|\bpath(?:\.as_str\(\))?),\s*(?:"([^"]*)"|what\b)'
)
TESTS = re.compile("_tests$|^test_rows")


class Function(NamedTuple):
    """A function: `contract` is the head with its clauses; `lines` are the numbers of its first and its last line."""

    file: str
    owner: str
    name: str
    is_public: bool
    doc: str
    contract: str
    body: str
    lines: tuple[int, int]


class Edit(NamedTuple):
    """A wrong body: the folder that it stands in, its name, the file that it edits, and the text that it replaces."""

    folder: str
    name: str
    file: str
    old: str


class Constant(NamedTuple):
    """A constant of the sources, with its comment's first sentence."""

    file: str
    name: str
    kind: str
    value: str
    doc: str


@functools.lru_cache(maxsize=None)
def text_of(path: str) -> str:
    """The text of a file."""
    with open(path, encoding="utf-8") as it:
        return it.read()


def files(crate: str, pattern: str) -> list[str]:
    """The files of a crate."""
    return sorted(glob.glob(f"{TOP}/crates/{crate}/{pattern}", recursive=True))


def short(path: str) -> str:
    """A path from the crates on, without `src/` or `specs/`."""
    return re.sub(r"/(src|specs)/", "/", os.path.relpath(path, f"{TOP}/crates"))


def crates() -> list[str]:
    """The crates in the order of crates.txt, but for those of tests."""
    names = re.findall(r"^(\w+):", text_of(f"{TOP}/crates.txt"), re.M)
    return [name for name in names if not TESTS.search(name)]


def layers() -> dict[str, list[str]]:
    """The crates but for those of tests, by what crates.txt says above them."""
    found: dict[str, list[str]] = {}
    for part in text_of(f"{TOP}/crates.txt").split("\n\n"):
        comment = " ".join(re.findall(r"^# (.*)", part, re.M))
        names = [
            name
            for name in re.findall(r"^(\w+):", part, re.M)
            if not TESTS.search(name)
        ]
        if names:
            found[sentence(comment)] = names
    return found


def purpose(crate: str) -> str:
    """What a crate is for: the first sentence of its first file."""
    text = "".join(
        text_of(path)
        for path in files(crate, "src/lib.rt") or files(crate, "src/main.rt")
    )
    return sentence(
        " ".join(line.strip() for line in re.findall(r"^//!(.*)", text, re.M)).strip()
    )


def sentence(text: str) -> str:
    """The first sentence of a comment."""
    end = re.search(r"[.;](?=\s+[A-Z`(]|$)", text)
    return (text[: end.start()] if end else text).strip()


@functools.lru_cache(maxsize=None)
def functions(path: str) -> list[Function]:
    """The functions of a file, in order."""
    found: list[Function] = []
    doc: list[str] = []
    owner, in_trait, at, lines = "", False, 0, text_of(path).split("\n")
    while at < len(lines):
        begins = re.match(
            r"(?:pub )?(?:impl|trait)(?:<[^>]*>)? ?(?:[\w:]+(?:<.*>)? for )?(?:\w+::)*(\w+)",
            lines[at],
        )
        owner = begins[1] if begins else "" if lines[at] == "}" else owner
        in_trait = (
            lines[at].startswith("pub trait")
            if begins or lines[at] == "}"
            else in_trait
        )
        head = re.match(r"(\s*)(pub )?(?:pub\(crate\) )?(?:const )?fn (\w+)", lines[at])
        if head:
            first, indent = at, head[1]
            # A body begins at the end of the head's line or alone on its line; a method that a trait lacks ends in ";".
            while lines[at] not in (indent + "{", indent + "{}") and not lines[
                at
            ].endswith((" {", " {}", ";")):
                at += 1
            opened = at
            while not lines[opened].endswith(("{}", ";")) and lines[at] != indent + "}":
                at += 1
            contract, body = "\n".join(lines[first : opened + 1]), "\n".join(
                lines[opened : at + 1]
            )
            is_public = in_trait or bool(head[2])
            found.append(
                Function(
                    path,
                    owner,
                    head[3],
                    is_public,
                    " ".join(doc),
                    contract,
                    body,
                    (first, at),
                )
            )
        if re.match(r"\s*///", lines[at]):
            doc.append(lines[at].strip()[3:].strip())
        elif not re.match(r"\s*#\[", lines[at]):
            doc = []
        at += 1
    return found


def of_crate(crate: str) -> list[Function]:
    """The functions of a crate."""
    return [
        function for path in files(crate, "src/**/*.rt") for function in functions(path)
    ]


def exported(crate: str) -> list[Function]:
    """The public functions of a crate."""
    lib = "".join(text_of(path) for path in files(crate, "src/lib.rt"))
    names = set(re.findall(r"\w+", " ".join(re.findall(r"pub use ([^;]+);", lib))))
    return [
        it
        for it in of_crate(crate)
        if it.is_public
        and (
            (it.owner or it.name) in names
            or not it.owner
            and it.file.endswith("/lib.rt")
        )
    ]


def called(function: Function) -> str:
    """A function's name, with its type's."""
    return f"{function.owner}::{function.name}" if function.owner else function.name


def imports(path: str, crate: str) -> tuple[dict[str, tuple[str, str]], dict[str, str]]:
    """What a file's ghost names stand for: a definition of specs/ and its file, by name; a module of specs/, by name."""
    names: dict[str, tuple[str, str]] = {}
    modules: dict[str, str] = {}
    uses = r"ghost use Rattle\.(\w+)\.specs\.([\w.]+?)(\.\{[^}]*\}| as \w+);"
    for home, module, rest in re.findall(uses, text_of(path)):
        where = module if home == crate else f"{home}/{module}"
        if home == "std" or module.startswith("declared"):
            continue
        if rest.startswith(" as "):
            modules[rest[4:]] = where
        for word in rest[2:-1].split(",") if rest.startswith(".{") else []:
            name, _, alias = word.strip().partition(" as ")
            names[alias or name] = (where, name)
    return names, modules


def contract_line(function: Function, crate: str) -> str:
    """What the page of a crate says of a function."""
    names, modules = imports(function.file, crate)
    parts = re.split(
        r"^\s*(ensures|requires)(?: (\w+))? \{", function.contract, flags=re.M
    )[1:]
    clauses = [
        f"{'requires ' * (kind == 'requires')}{name or ''}".strip()
        for kind, name in zip(parts[::3], parts[1::3])
    ]
    text = "\n".join(parts[2::3])
    cited = {
        names[word] for word in re.findall(r"(?<![\w.])\w+", text) if word in names
    }
    cited |= {
        (modules[module], word)
        for module, word in re.findall(r"(?<![\w.])(\w+)\.(\w+)", text)
        if module in modules
    }
    by_file = "; ".join(
        f"{file}: {', '.join(sorted(word for where, word in cited if where == file))}"
        for file in sorted({where for where, _ in cited})
    )
    named = (
        ", ".join(clause for clause in clauses if clause)
        if "ensures" in function.contract
        else "no contract"
    )
    line = f"- `{called(function)}`{f' ({named})' if named else ''}"
    return (
        line
        + f": {sentence(function.doc)}." * bool(function.doc)
        + f" [{by_file}]" * bool(by_file)
    )


def contracts() -> dict[str, list[str]]:
    """The page of each crate that has public functions, and the page that lists the crates."""
    pages: dict[str, list[str]] = {}
    for crate in crates():
        lines = [contract_line(function, crate) for function in exported(crate)]
        if lines:
            intro = f"{purpose(crate)}. [How to read the lines, and the other crates](../CONTRACTS.md)."
            pages[f"contracts/{crate}.md"] = [
                f"# Contracts of `{crate}`\n",
                HEAD,
                "",
                intro,
                "",
                *lines,
            ]
    index = [
        "# Contracts by function\n",
        HEAD,
        "",
        "The crates, lowest layer first, and what each is for. A crate's page has each public function, the clauses of its contract that",
        "have a name, what it is for, and in brackets the definitions that the clauses cite, by file of `specs/` (with the crate, where it",
        "is another's); `tools/pages.py words CRATE` prints what these mean. What a call needs is a clause `requires`; a call of which nothing",
        "is said has `no contract`.\n",
    ]
    for layer, names in layers().items():
        index.append(f"- {layer}")
        for crate in names:
            page = f"contracts/{crate}.md"
            link = f"[{crate}]({page})" if page in pages else crate
            index.append(f"  - {link}: {purpose(crate)}")
    return {"CONTRACTS.md": index, **pages}


def edits(crate: str) -> Iterator[Edit]:
    """The wrong bodies of a crate."""
    for path in files(crate, "more-edits/*.edit") + files(crate, "must-fail/*.edit"):
        file = ""
        for line in text_of(path).split("\n"):
            file = line[6:].strip() if line.startswith("file: ") else file
            if line.startswith("old: "):
                yield Edit(
                    path.split("/")[-2],
                    os.path.basename(path)[:-5],
                    f"{TOP}/crates/{crate}/{file}",
                    line[5:],
                )


def turned(edit: Edit) -> str:
    """What an edit turns: a function, by the line on which its text stands, or a constant."""
    at = text_of(edit.file).partition(edit.old)[0].count("\n")
    inside = [
        called(it) for it in functions(edit.file) if it.lines[0] <= at <= it.lines[1]
    ]
    return f"{short(edit.file).partition('/')[2]}, {f'`{inside[0]}`' if inside else 'a constant'}"


def edits_by_function(crate: str) -> list[str]:
    """What is printed of the wrong bodies of a crate."""
    by_function: dict[str, dict[str, bool]] = {}
    there = (it for it in edits(crate) if os.path.isfile(it.file))
    for edit in sorted(
        there, key=lambda it: (it.file, it.folder != "must-fail", it.name)
    ):
        name = f"must-fail/{edit.name}" if edit.folder == "must-fail" else edit.name
        by_function.setdefault(turned(edit), {})[name] = True
    return [f"{where}: {', '.join(names)}" for where, names in by_function.items()]


@functools.lru_cache(maxsize=None)
def constants() -> list[Constant]:
    """Each constant of the sources."""
    found = []
    constant = r"((?:^///[^\n]*\n)*)^(?:pub |pub\(crate\) )?const (\w+): ([^=\n]+) =\s+((?:.|\n)*?);$"
    for path in (path for crate in crates() for path in files(crate, "src/**/*.rt")):
        for doc, name, kind, value in re.findall(constant, text_of(path), re.M):
            found.append(
                Constant(
                    path,
                    name,
                    kind,
                    value,
                    sentence(" ".join(doc.replace("///", " ").split())),
                )
            )
    return found


def value_of(name: str, path: str, kind: str = "") -> str | None:
    """The value of a constant on one line, of the path's crate where it is one of two."""
    rows = [
        it
        for it in constants()
        if it.name == name and kind in it.kind and "\n" not in it.value
    ]
    rows.sort(
        key=lambda it: short(it.file).partition("/")[0] != short(path).partition("/")[0]
    )
    return rows[0].value.strip('"') if rows else None


@functools.lru_cache(maxsize=None)
def faults() -> dict[tuple[str, str], list[str]]:
    """What the faults of each type tell, by crate and type."""
    found: dict[tuple[str, str], list[str]] = {}
    block: list[str] = []
    for path in (path for crate in crates() for path in files(crate, "src/**/*.rt")):
        for line in text_of(path).split("\n"):
            begins = re.match(
                r"(?:pub |pub\(crate\) )?enum (\w+)|impl fmt::Display for (\w+)", line
            )
            if begins:
                block = found.setdefault(
                    (short(path).partition("/")[0], begins[1] or begins[2]), []
                )
            told = re.search(
                r'(?:#\[error\(|write_str\(|write!\(f, )"((?:[^"\\]|\\.)*)"(?:, (\w+))?',
                line,
            )
            text = (
                told[1]
                .replace("{}", value_of(told[2], path) or "{}")
                .replace('\\"', '"')
                if told
                else ""
            )
            block += [text] if re.search("[a-z]{3}", text) and text not in block else []
    return {key: texts for key, texts in found.items() if texts}


def texts_in(part: str) -> list[str]:
    """The texts that a part of a body says: literals, constants, faults, and what the functions named `.._message` say."""
    found: list[str | None] = [*LITERAL.findall(part)]
    found += [
        value_of(word, TOP, "str")
        for word in re.findall(r"(?<![\w:])[A-Z][A-Z_]+\b", part)
    ]
    for name in re.findall(r"(\w+)::\w+\([^)]*\)\.to_string", part):
        of_type = [
            text
            for (_, other), texts in faults().items()
            if other == name
            for text in texts
        ]
        found += [text for text in of_type if text != "out of memory"]
    for name in re.findall(r"(\w+_message)\(", part):
        makers = [it for crate in crates() for it in of_crate(crate) if it.name == name]
        found += ["{}".join(LITERAL.findall(it.body)) for it in makers]
    return [text.replace('\\"', '"') for text in dict.fromkeys(found) if text]


def arms_of(function: Function) -> dict[str, str]:
    """What a match answers for each variant: the first word or text of its arm."""
    arms = re.findall(
        r'((?:\w+::\w+ \| )*\w+::\w+) => (?:\{ )?("[^"]*"|[\w:]+)',
        " ".join(function.body.split()),
    )
    return {
        variant: value.strip('"')
        for variants, value in arms
        for variant in re.findall(r"::(\w+)", variants)
    }


def said(
    function: Function, choices: dict[str, list[str]]
) -> Iterator[tuple[list[str], list[str]]]:
    """The reasons of a body, each with the texts of its statement or arm, or else of its `message`, or else of all."""
    parts = re.split(r";\n|(?<=\})\n|\n(?=[^\n]* => )", function.body)
    for at, part in enumerate(parts):
        reasons = re.findall(r"Reason::(\w+)", part)
        reasons += [
            it for name in choices if f"{name}(" in part for it in choices[name]
        ]
        message = next((it for it in reversed(parts[:at]) if "let message =" in it), "")
        yield reasons, texts_in(part) or texts_in(message) or texts_in(function.body)


def field_rows(
    crate: str, choices: dict[str, list[str]]
) -> Iterator[tuple[list[str], list[str], str, str]]:
    """The same of each refusal for a field, which is made of its path and of what is wrong with it."""
    users = [it for it in of_crate(crate) if not FIELD.match(f"{it.name}(path, what")]
    for user in users:
        for call, path, what in FIELD.findall(user.body):
            reasons = re.findall(r"Reason::(\w+)", call) + [
                it for name in choices if f"{name}(" in call for it in choices[name]
            ]
            made = re.search(r'let path = format!\(in alloc; "([^"]*)"', user.body)
            text = f"{path or (made[1] if made else '{path}')}: {what or '{what}'}"
            if path or reasons:
                yield reasons or ["Invalid"], [text], called(user), user.file


def refusal_rows(crate: str) -> Iterator[tuple[list[str], list[str], str, str]]:
    """The reasons, the texts, the place and the file of each refusal of a crate."""
    all_of = [
        it
        for it in of_crate(crate)
        if it.owner != "Reason" and "Reason" in text_of(it.file)
    ]
    choices = {
        it.name: re.findall(r"Reason::(\w+)", it.body)
        for it in all_of
        if "-> Reason" in it.contract
    }
    yield from field_rows(crate, choices)
    for it in all_of:
        if it.name == "reason":
            messages = next(
                arms_of(other)
                for other in all_of
                if other.file == it.file and other.name == "message"
            )
            for variant, reason in arms_of(it).items():
                text = messages[variant]
                yield [reason.rpartition(":")[2]], [
                    value_of(text, it.file) or text
                ], f"{it.owner}::{variant}", it.file
        elif re.search(r"\bmessage: &str", it.contract):
            for user in of_crate(crate) if "Reason::" in it.body else []:
                for text in re.findall(rf'\b{it.name}\([^;"]*"([^"]*)"', user.body):
                    yield re.findall(r"Reason::(\w+)", it.body), [text], called(
                        user
                    ), user.file
        elif it.name not in choices:
            yield from (
                (reasons, texts, called(it), it.file)
                for reasons, texts in said(
                    it._replace(body=FIELD.sub("", it.body)), choices
                )
            )


def refusals() -> list[str]:
    """The page of refusals."""
    answers = {called(it): it for it in of_crate("api_request")}
    status, sent = (arms_of(answers[f"Reason::{name}"]) for name in ("code", "text"))
    rows = {
        (
            value_of(status[reason], TOP) or status[reason],
            value_of(sent[reason], TOP) or sent[reason],
            text,
            f"{short(file)}: {where}",
        )
        for crate in crates()
        for reasons, texts, where, file in refusal_rows(crate)
        for reason in reasons
        for text in texts
    }
    return [
        "# Refusals\n",
        HEAD,
        "",
        "The status, the reason and the message of each refusal, and the function that makes it. What stands in braces is filled in.\n",
        "| status | reason | message | where |",
        "|---|---|---|---|",
        *(
            f"| {number} | {reason} | `{text}` | {where} |"
            for number, reason, text, where in sorted(rows)
        ),
        "\n## Texts of faults\n",
        "What the faults of each type tell, by crate.\n",
        *(
            f"- {crate}, `{name}`: {'; '.join(texts)}"
            for (crate, name), texts in faults().items()
        ),
    ]


def limits() -> list[str]:
    """The page of the constants that are numbers."""
    numbers, options = [], []
    for path, name, kind, value, doc in constants():
        if kind == "NumberOption":
            field = {
                key: text.removeprefix("Some(").rstrip(")").strip('"')
                for key, text in re.findall(r"(\w+): (.*),\n", value)
            }
            default = field["default"].replace("None", "needed")
            bounds = f"{default} | {field['least']} | {field['most']}"
            options.append(
                f"| `--{field['name']}` | {bounds} | {field['help']} | {short(path)} |"
            )
        elif re.match(r"(u\d+|usize|Duration)$", kind):
            numbers.append(f"| `{name}` | {value} | {doc} | {short(path)} |")
    return [
        "# Numbers of the sources\n",
        HEAD,
        "",
        "The constants that are numbers, by crate. [LIMITS](../LIMITS.md) says what comes past those that bound a request.\n",
        "| constant | value | what it is | where |",
        "|---|---|---|---|",
        *numbers,
        "\n## Options that are numbers\n",
        "| option | if it isn't given | least | most | what it is | where |",
        "|---|---|---|---|---|---|",
        *options,
    ]


def words(path: str) -> Iterator[tuple[str, str]]:
    """The public definitions of a file of specs/, each with its comment's first sentence."""
    comment: list[str] = []
    for line in text_of(path).split("\n"):
        found = re.match(
            r"(?:abbrev |unfoldable )?pub (?:record |data )?([^\s:(]+)", line
        )
        if found and found[1] != "mod":
            yield found[1], sentence(" ".join(comment))
        is_comment = line.startswith("-- ") and not line.startswith("-- ----")
        comment = [*comment, line[3:].strip()] if is_comment else []


def words_by_file(crate: str) -> list[str]:
    """What is printed of the definitions of a crate; last of each file those without a comment."""
    lines = []
    for path in files(crate, "specs/**/*.antt"):
        rows = list(words(path))
        bare = ", ".join(name for name, comment in rows if not comment)
        lines += [
            f"{short(path)[:-5]}: {name}: {comment}"
            for name, comment in rows
            if comment
        ]
        lines += [f"{short(path)[:-5]}: {bare}"] if bare else []
    return lines


def uncommented(crate: str) -> list[str]:
    """The definitions of a crate that have no comment."""
    paths = files(crate, "specs/**/*.antt")
    return [
        f"{short(path)}: {name}"
        for path in paths
        for name, comment in words(path)
        if not comment
    ]


def headline() -> list[str]:
    """The page of what the headline rests on."""
    # (it reads the sources by this module's functions)
    import rests_on

    return rests_on.page()


def stored() -> dict[str, str]:
    """The pages that are stored, by their path below the folder."""
    pages = {
        **contracts(),
        "HEADLINE.md": headline(),
        "REFUSALS.md": refusals(),
        "LIMITS.md": limits(),
    }
    return {name: "\n".join(lines).rstrip("\n") + "\n" for name, lines in pages.items()}


def unfit() -> list[str]:
    """The edits that can't be applied."""
    return [
        f"{crate}/{edit.folder}/{edit.name}: its text isn't once in {short(edit.file)}"
        for crate in crates()
        for edit in edits(crate)
        if not os.path.isfile(edit.file) or text_of(edit.file).count(edit.old) != 1
    ]


def extra(pages: dict[str, str]) -> list[str]:
    """The files of the folder that are none of the pages."""
    found = sorted(glob.glob(f"{TOP}/{PLACE}/**", recursive=True))
    return [
        path
        for path in found
        if os.path.isfile(path) and os.path.relpath(path, f"{TOP}/{PLACE}") not in pages
    ]


def write(pages: dict[str, str]) -> None:
    """Writes the pages, and deletes what is none of them."""
    for name, wanted in pages.items():
        path = f"{TOP}/{PLACE}/{name}"
        os.makedirs(os.path.dirname(path), exist_ok=True)
        with open(path, "w", encoding="utf-8") as it:
            it.write(wanted)
    for path in extra(pages):
        os.remove(path)


def stale(pages: dict[str, str]) -> list[str]:
    """What is to be said of the pages that aren't those of the sources."""
    paths = {name: f"{TOP}/{PLACE}/{name}" for name in pages}
    told = [
        f"{PLACE}/{name} is stale"
        for name, path in paths.items()
        if not os.path.isfile(path) or text_of(path) != pages[name]
    ]
    told += [
        f"{os.path.relpath(path, TOP)} is no page of the sources"
        for path in extra(pages)
    ]
    return [f"{it}: run tools/pages.py" for it in told]


PRINTED = {
    "words": words_by_file,
    "edits": edits_by_function,
    "--uncommented": uncommented,
}


def main(arguments: list[str]) -> int:
    """Does what the arguments say, and returns the exit status."""
    if arguments and arguments[0] in PRINTED and set(arguments[1:]) <= set(crates()):
        of = [
            crate for crate in crates() if crate in arguments[1:] or not arguments[1:]
        ]
        print("\n".join(line for crate in of for line in PRINTED[arguments[0]](crate)))
        return 0
    if arguments not in ([], ["--check"]):
        sys.exit(__doc__)
    pages = stored()
    if not arguments:
        write(pages)
    told = unfit() + (stale(pages) if arguments else [])
    print(
        "\n".join(told)
        or "the generated pages are those of the sources, and each edit can be applied"
    )
    return int(bool(told))


if __name__ == "__main__":
    sys.exit(main(sys.argv[1:]))
