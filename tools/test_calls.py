#!/usr/bin/env python3
"""Plants calls and refusals that no place shows and lines that name what isn't there, and sees that calls.py tells each.

    tools/test_calls.py
"""

from __future__ import annotations

import os
import sys
import tempfile
import unittest

import calls
import pages

FILES = {
    "crates.txt": "lower:\nupper: lower\nsome_tests: lower upper\n",
    "crates/lower/src/lib.rt": """mod store;
mod fault;

pub use fault::{Cause, Fault};
pub use store::{Store, law, of_upper};
""",
    "crates/lower/src/store.rt": """
impl Store {
    pub fn new() -> Store
        ensures { result ≡ nothing }
    {
        Store
    }

    pub fn put(&mut self, name: &str) -> Result<(), Fault>
        ensures { OnOk result (self.new ≡ name) }
    {
        Ok(())
    }

    pub fn bare(&self) -> bool {
        true
    }
}

pub fn law(store: &Store)
    ensures { Holds store.now }
{}

pub fn of_upper(n: u64) -> u64
    ensures { result ≡ n }
{
    n
}
""",
    "crates/lower/src/fault.rt": """
/// Why it isn't put.
#[derive(Debug, Error)]
pub enum Fault {
    #[error("the name is {0} long")]
    TooLong(usize),
    #[error("{0}")]
    Wrong(Cause),
    #[error("out of memory")]
    Memory,
}

#[derive(Debug)]
pub enum Cause {
    Empty,
    NotText,
}
""",
    "crates/upper/src/lib.rt": "use lower::of_upper;\n\nfn main() {\n    of_upper(1);\n}\n",
    "crates/some_tests/src/lib.rt": 'use lower::Store;\n\nconst ROWS: &str = "put => NotText";\n\nfn it() {\n    Store::new();\n}\n',
    "tests/players/store.py": "",
    "tests/store/puts.rows": "# Puts.\n\nputs\nput aaaa => the name is 4 long\nput a b => 400 bad name a b\n",
    "tests/other/puts.rows": "# Puts.\n\nputs\nput  => Empty\n",
}
RIGHT = {
    "lower::Store::new": "crates/some_tests/src/lib.rt",
    "lower::Store::put": "tests/store/puts.rows",
    "lower::of_upper": "crates/upper/src/lib.rt",
    "lower::Fault::TooLong": "tests/store/puts.rows: is 4 long",
    "lower::Cause::Empty": "not shown: there is no empty name",
    "lower::Cause::NotText": "crates/some_tests/src/lib.rt",
    "`400 bad name {name}`": "tests/store/puts.rows",
}
REFUSALS = ["# Refusals", "| 400 | Bad | `bad name {name}` | lower/store.rt: put |"]


class CallsTest(unittest.TestCase):
    """What is told of libraries and lists that are made up."""

    def setUp(self) -> None:
        folder = tempfile.TemporaryDirectory()
        self.addCleanup(folder.cleanup)
        self.addCleanup(setattr, pages, "TOP", pages.TOP)
        self.addCleanup(setattr, pages, "refusals", pages.refusals)
        setattr(pages, "TOP", folder.name)
        setattr(pages, "refusals", lambda: REFUSALS)
        for path, text in FILES.items():
            os.makedirs(os.path.dirname(f"{folder.name}/{path}"), exist_ok=True)
            with open(f"{folder.name}/{path}", "w", encoding="utf-8") as it:
                it.write(text)
        calls.enums.cache_clear()
        calls.users_of.cache_clear()
        calls.sources_of.cache_clear()

    def told(self, **changed: str) -> list[str]:
        """What is told where lines are otherwise: those of names that end so."""
        lines = {
            name: changed.get(name.rpartition("::")[2], place)
            for name, place in RIGHT.items()
        }
        return calls.faulty({name: place for name, place in lines.items() if place})

    def test_a_list_that_is_right(self) -> None:
        self.assertEqual(self.told(), [])
        self.assertEqual([it.name for it in calls.all_shown()], [*RIGHT])

    def test_lines_that_lack_or_name_nothing(self) -> None:
        lacks = "it has no line, and no test calls it or shows it"
        self.assertEqual(self.told(put=""), [f"lower::Store::put: {lacks}"])
        self.assertEqual(self.told(NotText=""), [f"lower::Cause::NotText: {lacks}"])
        more = {**RIGHT, "lower::law": "crates/some_tests/src/lib.rt"}
        none = "lower::law: there is no such call or refusal"
        self.assertEqual(calls.faulty(more), [none])
        with open(f"{pages.TOP}/{calls.LIST}", "w", encoding="utf-8") as it:
            it.write("# Lines.\n" + "".join(f"{i}: {RIGHT[i]}\n" for i in RIGHT))
        self.assertEqual(calls.listed(), RIGHT)

    def test_places_that_are_none(self) -> None:
        for place in ("tests/store/gone.rows", "tests/other/puts.rows", "crates.txt"):
            told = f"lower::Store::put: {place} is no file of tests, rows or sources"
            self.assertEqual(self.told(put=place), [told])

    def test_places_that_do_not_show_it(self) -> None:
        tests, rows = "crates/some_tests/src/lib.rt", "tests/store/puts.rows"
        for name, place in (
            ("put", tests),
            ("of_upper", tests),
            ("NotText", rows),
            ("TooLong", f"{rows}: is 5 long"),
            ("Empty", "not shown"),
        ):
            (told,) = self.told(**{name: place})
            self.assertTrue(told.endswith(f"::{name}: {place} doesn't show it"), told)

    def test_what_is_found(self) -> None:
        found = calls.written({"lower::Fault::TooLong": "gone: is 4 long"})
        self.assertEqual(found["lower::Fault::TooLong"], RIGHT["lower::Fault::TooLong"])
        lacks = {*RIGHT} - {*found}
        self.assertEqual(lacks, {"lower::Store::put", "lower::Cause::Empty"})
        self.assertEqual({**RIGHT, **found}, RIGHT)


if __name__ == "__main__":
    if set(sys.argv[1:]) & {"-h", "--help"}:
        sys.exit(__doc__)
    unittest.main()
