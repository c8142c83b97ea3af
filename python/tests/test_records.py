"""Records of runs as text: those that docs/RECORDS.md shows, and others."""

import re
import unittest

from formula_score.explaining.records import Record, length, lines, parts, steps

from .program import TOP


def record(name: str) -> bytes:
    digits = (TOP / "examples" / "records" / f"{name}.hex").read_text()
    return bytes.fromhex(re.sub(r"#.*", "", digits))


def read(name: str) -> Record:
    found = parts(record(name))
    assert found is not None
    return found


class Records(unittest.TestCase):
    def test_the_page_shows_them(self) -> None:
        page = (TOP / "docs" / "RECORDS.md").read_text()
        self.assertIn("```\n" + "\n".join(lines(read("least"))) + "\n```\n", page)
        shown = [(str(step.number), str(step)) for step in steps(read("two_seats").steps)]
        self.assertEqual(re.findall(r"^\| ([0-9]+) `([A-Z][^`]*)` \|", page, re.M), shown)

    def test_its_parts(self) -> None:
        found = read("two_seats")
        self.assertEqual(found[:4], (2, 8, 0, b"formula 1; note c4 1/4;"))
        self.assertEqual(sum(length(step) for step in steps(found.steps)), len(found.steps))
        self.assertIsNone(parts(b"FMR1"))
        self.assertIsNone(parts(record("least")[:20]))
        self.assertIsNone(parts(b"formula 1; note c4 1/4;"))

    def test_a_place_where_no_step_begins_is_told(self) -> None:
        found = read("refused/step_that_is_cut")
        self.assertEqual(list(lines(found))[-1], "no step begins at byte 8 of the steps: 06 00 00 00 00")
        found = read("refused/unknown_kind")
        self.assertEqual(list(lines(found))[-1], "no step begins at byte 22 of the steps: 0A")


if __name__ == "__main__":
    unittest.main()
