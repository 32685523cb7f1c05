#!/usr/bin/env python3
"""Plants heads that name what isn't there, and sees that heads.py tells each.

    tools/test_heads.py
"""

from __future__ import annotations

import os
import sys
import tempfile
import unittest

import heads

LINES: dict[str, list[str]] = {"low": ["kit"], "high": ["low", "kit"], "other": []}
FILES = {
    "tests/rows/a.rows": "",
    "crates/low/src/lib.rt": """//! Low things. High ones are `high`'s, and none are `nobody`'s.
//!
//! Stands on `kit` for texts, and on
//! `high` for nothing.
""",
    "crates/low/src/reading.rt": "//! Reads, in the order of `nothing`.\n",
    "crates/low/src/writing.rt": """//! Read in `reading`, in `low` and in `kit`, in
//! `lost`; as it is in `reading` (`gone`), `kit`
//! or `strayed`, and that in `reading`, `vanished` it is.
""",
    "crates/high/src/lib.rt": """//! What stands in the crate `low`, in the crates `other` and
//! `absent`. Stands on `low`. In `other` is more, and in `deep`.
""",
    "crates/high/src/deep/leaf.rt": "//! In `leaf`, and what stands in\n//! `part` is in `inner`.\n",
    "crates/high/src/part.rt": "//! Is in `inner` and in `part/inner`.\n",
    "crates/high/src/part/inner.rt": """//! In `inner`, `part` and `beside`, in `reading` of the crate `low`,
//! in `reading`, in `writing` and `part` of the crate `low`, in `reading` of the crate `nowhere`.
""",
    "crates/high/src/part/beside.rt": """//! In `specs/Is`, `specs/Not`, `tests/rows/a.rows`, `tests/rows/` and
//! `tests/b`.
//!
//! | in `a row` | in the crate `of a table` |
//!
//! It stands on `other`.

//! In `no head`.
""",
    "crates/high/specs/Is.antt": "",
    "crates/high/proofs/Told.rt": "//! In `no source`.\n",
}


class HeadsTest(unittest.TestCase):
    """What is told of sources that are made up."""

    def setUp(self) -> None:
        folder = tempfile.TemporaryDirectory()
        self.addCleanup(folder.cleanup)
        self.addCleanup(setattr, heads, "TOP", getattr(heads, "TOP"))
        setattr(heads, "TOP", folder.name)
        for path, text in FILES.items():
            os.makedirs(os.path.dirname(f"{folder.name}/{path}"), exist_ok=True)
            with open(f"{folder.name}/{path}", "w", encoding="utf-8") as it:
                it.write(text)

    def test_each_fault_is_told(self) -> None:
        told, count = heads.told_of(sorted(FILES), LINES)
        self.assertEqual(
            told,
            [
                "crates/high/src/deep/leaf.rt:2: no module or crate inner",
                "crates/high/src/lib.rt:2: no crate absent",
                "crates/high/src/part.rt:1: no file part/inner",
                "crates/high/src/part/beside.rt:1: no file specs/Not",
                "crates/high/src/part/beside.rt:2: no file tests/b",
                "crates/high/src/part/beside.rt:6: high doesn't stand on other",
                "crates/high/src/part/inner.rt:2: no module or crate reading",
                "crates/high/src/part/inner.rt:2: no module part in low",
                "crates/high/src/part/inner.rt:2: no module reading in nowhere",
                "crates/high/src/part/inner.rt:2: no crate nowhere",
                "crates/low/src/lib.rt:1: no crate nobody",
                "crates/low/src/lib.rt:4: low doesn't stand on high",
                "crates/low/src/writing.rt:2: no module or crate lost",
                "crates/low/src/writing.rt:3: no module or crate strayed",
                "crates/low/src/writing.rt:3: no module or crate vanished",
            ],
        )
        self.assertEqual(count, 41)


if __name__ == "__main__":
    if set(sys.argv[1:]) & {"-h", "--help"}:
        sys.exit(__doc__)
    unittest.main()
