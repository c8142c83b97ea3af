"""What examples/releases keeps: its files are read as they were written, and the pages have its numbers."""

from __future__ import annotations

import importlib
import sys
import unittest
from typing import Any

from .program import TOP

sys.path[:0] = [str(TOP / "tools"), str(TOP / "tools" / "releases")]
#: A module of tools/releases, which is no part of the library.
releases: Any = importlib.import_module("releases")


class Kept(unittest.TestCase):
    def test_answers_are_written_as_they_are_read(self) -> None:
        for folder in releases.RELEASES.glob("*/"):
            rows = releases.read_rows(folder)
            self.assertEqual(releases.written(rows), (folder / releases.ANSWERS).read_text(encoding="utf-8"))

    def test_the_pages_have_the_numbers(self) -> None:
        folder = releases.RELEASES / "0.1.0"
        inputs, rows = len(releases.read_inputs(folder)), len(releases.read_rows(folder))
        for page, wanted in (("CHANGELOG.md", f"gives for {inputs} inputs"),
                             ("docs/GUARANTEES.md", f"on {inputs} inputs of 0.1.0, {rows:,} times")):
            self.assertIn(wanted, (TOP / page).read_text(encoding="utf-8"))

    def test_a_difference_is_found(self) -> None:
        first = releases.Answer("0", "", "42", "ab")
        self.assertEqual(releases.difference(first, first), [])
        self.assertEqual(releases.difference(first, first._replace(status="3", line="no", length="-", sum="-")),
                         ["status '3' in place of '0'", "line 'no' in place of ''", "bytes '-' in place of '42'",
                          "sum '-' in place of 'ab'"])


if __name__ == "__main__":
    unittest.main()
