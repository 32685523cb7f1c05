"""Crates made into one, so that all that stands below them is compiled once.

Made in a copy of the repository, for `rt try`: each crate is a module of the crate that
is made, `crate::` in its sources becomes `crate::NAME::`, and what it stands on is what
its crates stand on. Tests are then named `NAME::MODULE::TEST`. Of programs the one runs
by whose name the made one is called, or which is one of that name, too; by another name
it goes on until it is ended, so that `rt try`, which removes what it has made, leaves
time to link it.
"""

from __future__ import annotations

import os
import re

import released

ATTRIBUTE = re.compile(r"^#!\[.*\]\n", re.M)

MAIN = """
use programs::read_arguments;
use std::process::ExitCode;

/// Whether the program is called by this name, as a file's or as a command's; by each, where a word of it is no text.
fn is_called(rt: &HostRuntime, file: &str, command: &str) -> bool {
    match read_arguments(rt) {
        Ok(arguments) => match arguments.first() {
            Some(path) => path.as_str().ends_with(file) || path.as_str().ends_with(command),
            None => false,
        },
        Err(_) => true,
    }
}

fn main(rt: HostRuntime) -> ExitCode {
"""
END = """    for _ in 0..u64::MAX {}
    ExitCode::SUCCESS
}
"""
CASE = """    if is_called(&rt, "{0}", "{1}") {{
        return {2}::main(rt);
    }}
"""


def stands_on(tree: str) -> dict[str, list[str]]:
    """All that each crate's line of crates.txt names, also of the kit."""
    found: dict[str, list[str]] = {}
    with open(f"{tree}/crates.txt", encoding="utf-8") as lines:
        for line in lines:
            name, colon, words = line.partition("#")[0].partition(":")
            if colon:
                found[name.split()[0]] = words.split()
    return found


def add(tree: str, name: str, crates: list[str]) -> None:
    """Writes the line of a crate that stands on all that these do, behind all others."""
    lines = stands_on(tree)
    words = dict.fromkeys(word for crate in crates for word in lines[crate])
    with open(f"{tree}/crates.txt", "a", encoding="utf-8") as it:
        it.write(f"\n{name}: {' '.join(words)}\n")


def as_module(tree: str, name: str, crate: str, root: str) -> list[str]:
    """Writes a crate's sources, of which `root` is the first, as a module of another
    crate; returns the attributes that stood at its head."""
    source, to = f"{tree}/crates/{crate}/src", f"{tree}/crates/{name}/src"
    heads: list[str] = []
    for folder, _, files in os.walk(source):
        for file in files:
            path = f"{folder}/{file}"
            with open(path, encoding="utf-8") as it:
                text = re.sub(r"\bcrate::", f"crate::{crate}::", it.read())
            within = os.path.relpath(path, source)
            if within == root:
                heads = ATTRIBUTE.findall(text)
                text = ATTRIBUTE.sub("", text)
                text = re.sub(r"^fn main\(", "pub fn main(", text, flags=re.M)
            made = f"{to}/{crate}.rt" if within == root else f"{to}/{crate}/{within}"
            os.makedirs(os.path.dirname(made), exist_ok=True)
            with open(made, "w", encoding="utf-8") as it:
                it.write(text)
    return heads


def tests(tree: str, name: str, crates: list[str]) -> None:
    """Makes a crate of the tests of these crates."""
    heads: dict[str, None] = {}
    for crate in crates:
        heads.update(dict.fromkeys(as_module(tree, name, crate, "lib.rt")))
    modules = "".join(f"\n#[cfg(test)]\nmod {crate};\n" for crate in crates)
    with open(f"{tree}/crates/{name}/src/lib.rt", "w", encoding="utf-8") as it:
        it.write(f"//! Tests of several crates.\n{''.join(heads)}{modules}")
    add(tree, name, crates)


def programs(tree: str, name: str, crates: list[str]) -> None:
    """Makes a program of these programs."""
    heads: dict[str, None] = {}
    for crate in crates:
        heads.update(dict.fromkeys(as_module(tree, name, crate, "main.rt")))
    modules = "".join(f"mod {crate};\n" for crate in crates)
    called = {crate.replace("_", "-"): crate for crate in crates}
    called |= {it: crate for it, crate in released.NAMES.items() if crate in crates}
    cases = "".join(
        CASE.format(it.replace("-", "_"), it, crate) for it, crate in called.items()
    )
    with open(f"{tree}/crates/{name}/src/main.rt", "w", encoding="utf-8") as it:
        head = f"//! Several programs.\n{''.join(heads)}\n{modules}"
        it.write(f"{head}{MAIN}{cases}{END}")
    add(tree, name, crates)
