#!/usr/bin/env python3
"""Plants links that lead nowhere and lines that no file has, and sees that links.py tells each.

    tools/test_links.py
"""

from __future__ import annotations

import os
import sys
import tempfile
import unittest

import links

OTHER = """# Other page

## `a_name`, and more (2)
## Twice
## Twice

```
## No heading
```
"""
README = """# Page

[a](docs/other.md#a_name-and-more-2) [`b`](docs/other.md#twice-1) [c](docs) [d](#page) [e](https://example.org/no)
[f](docs/no.md) [g](docs/other.md#no-heading) `[h](no)` [i](docs/code.py#x) <img src="no.svg" alt="">

```
[j](no)
```

From [code](docs/code.py):

```python
if True:
    print("it")
```

```python
print("no")
```
"""
CODE = """def f():
    if True:
        print("it")
"""


class LinksTest(unittest.TestCase):
    """What is told of pages that are made up."""

    def setUp(self) -> None:
        folder = tempfile.TemporaryDirectory()
        self.addCleanup(folder.cleanup)
        self.addCleanup(setattr, links, "TOP", getattr(links, "TOP"))
        setattr(links, "TOP", folder.name)
        os.mkdir(f"{folder.name}/docs")
        for path, text in (
            ("README.md", README),
            ("docs/other.md", OTHER),
            ("docs/code.py", CODE),
        ):
            with open(f"{folder.name}/{path}", "w", encoding="utf-8") as it:
                it.write(text)

    def test_each_fault_is_told(self) -> None:
        told, count = links.told_of(["README.md", "docs/code.py", "docs/other.md"])
        self.assertEqual(
            told,
            [
                "README.md:4: docs/no.md: there is no such file",
                "README.md:4: docs/other.md#no-heading: there is no such heading",
                "README.md:4: docs/code.py#x: an anchor of what is no page",
                "README.md:4: no.svg: there is no such file",
                "README.md:17: these lines aren't in docs/code.py",
            ],
        )
        self.assertEqual(count, 12)


if __name__ == "__main__":
    if set(sys.argv[1:]) & {"-h", "--help"}:
        sys.exit(__doc__)
    unittest.main()
