"""What scripts/pages measures in pages, and whether an option is named alike at each place."""

from __future__ import annotations

import importlib
import pathlib
import shutil
import sys
import tempfile
import unittest
from typing import Any

from .program import TOP

sys.path.insert(0, str(TOP / "tools" / "pages"))
#: Modules of tools/pages, which are no part of the library.
prose: Any = importlib.import_module("prose")
plain: Any = importlib.import_module("plain")
places: Any = importlib.import_module("places")

PAGE = """\
# A heading is no sentence. It is left out

One, two `a name. With a dot` four. (A second sentence.) Version 1.0 of
it ends here: with a list
- of an item, e.g. This one is no end
- and *another.* And more!

| A | cell |
|---|---|
| `a | b` and \\| | two words. And more |

```
no words here. At all
```
<!-- nor
here -->
[A link](docs/A_PAGE.md) counts by its text.
"""


class Prose(unittest.TestCase):
    def test_sentences_and_cells(self) -> None:
        found = [(passage.line, passage.words, passage.text) for passage in prose.passages(PAGE) if not passage.is_cell]
        self.assertEqual(found, [
            (3, 4, "One, two `a name. With a dot` four."), (3, 3, "(A second sentence.)"),
            (3, 9, "Version 1.0 of it ends here: with a list"), (5, 9, "of an item, e.g. This one is no end"),
            (6, 2, "and *another.*"), (6, 2, "And more!"),
            (17, 6, "[A link](docs/A_PAGE.md) counts by its text.")])
        cells = [(passage.line, passage.text) for passage in prose.passages(PAGE) if passage.is_cell]
        self.assertEqual(cells[:2] + cells[-1:], [(8, "A"), (8, "cell"), (10, "two words. And more")])

    def test_what_is_beyond_the_limits(self) -> None:
        for text, problem in (
            ("word " * 30 + "more.", "a sentence of 31 words"), ("word " * 30 + ".", "the sentences have 30.0 words in the mean"),
            (f"| {'c' * 251} |", "a cell of 251 characters"), ("It stood there.", "`stood` means too much"),
            ("It goes over all.", "`goes over` means too much"), ("Want\nof memory.", "`Want of memory` means too much"),
        ):
            self.assertIn(problem, "\n".join(fault.problem for fault in plain.faults_of(text)), text)
        for text in ("word " * 18 + ".", f"| {'c' * 250} |", "`stands` and ```stood``` are names. A standard.", "Storytelling",
                     "[A link](#what-stands-here) says its target apart."):
            self.assertEqual(plain.faults_of(text), [], text)

    def test_the_length_of_the_readme(self) -> None:
        for text, problem in (("x\n" * 121, "121 lines"), ("x " * 1101, "1101 words")):
            self.assertIn(problem, "\n".join(fault.problem for fault in plain.faults_of_length(text)), text)
        self.assertEqual(plain.faults_of_length("x " * 981 + "x\n" * 119), [])

    def test_the_readme_of_a_crate(self) -> None:
        for text, problem in (("x\n" * 61, "61 lines"), ("x" * 161, "a line of 161 characters"),
                              ("It stood there.\n", "`stood` means")):
            self.assertIn(problem, "\n".join(fault.problem for fault in plain.faults_of_readme(text)), text)
        self.assertEqual(plain.faults_of_readme(("- " + "x" * 157 + ".\n") * 60), [])


class Options(unittest.TestCase):
    def test_each_place_is_read(self) -> None:
        for place, read in places.PLACES.items():
            self.assertEqual(len(read(TOP)), 13, place)
        self.assertEqual(list(places.differences(TOP)), [])

    def test_a_change_at_one_place_is_seen(self) -> None:
        changes = (
            (f"{places.CODE}/limits.rt", "MAX_WORKERS: u64 = 16", "MAX_WORKERS: u64 = 17", "--workers has the range"),
            (f"{places.CODE}/command.rt", 'flag(alloc, "audit")', 'flag(alloc, "audits")', "--audit is not an option"),
            (places.MANUAL, '.BI \\-\\-lead " T"\nhow', ".B \\-\\-lead\nhow", "--lead has no number"),
            (places.MANUAL, ".RB [ \\-\\-parts ]\n", "", "its synopsis: --parts is missing"),
            (places.COMPLETION, "--process --parts", "--process", "--parts is missing"),
            (places.COMPLETION, "--process | --from", "--from", "--process has no number"),
            (places.MANUAL, "1 to 64", "0 to 64", "--room has the range (0, 64) in place of (1, 64)"),
            (places.MANUAL, ".TP\n.B \\-\\-record\n", ".TP\n.B \\-\\-records\n", "--records is not an option"),
        )
        for name, old, new, problem in changes:
            with tempfile.TemporaryDirectory() as folder:
                top = pathlib.Path(folder)
                shutil.copytree(TOP / places.CODE, top / places.CODE)
                for place in (places.MANUAL, places.COMPLETION):
                    (top / place).parent.mkdir(parents=True, exist_ok=True)
                    shutil.copy(TOP / place, top / place)
                text = (top / name).read_text(encoding="utf-8")
                self.assertIn(old, text, name)
                (top / name).write_text(text.replace(old, new), encoding="utf-8")
                self.assertIn(problem, "\n".join(places.differences(top)), name)


if __name__ == "__main__":
    unittest.main()
