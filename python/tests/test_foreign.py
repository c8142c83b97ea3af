"""Scores of MIDI files that other people wrote: twenty of those that scripts/stress tries, where they are installed."""

from __future__ import annotations

import importlib
import sys
import unittest
from typing import Any

from .program import PROGRAM, TOP, needs_program

sys.path[:0] = [str(TOP / "tools"), str(TOP / "tools" / "stress")]

foreign: Any = importlib.import_module("foreign")
harness: Any = importlib.import_module("harness")

FILES = 20


@needs_program
class Foreign(unittest.TestCase):
    def test_twenty_files_come_in_within_their_bounds(self) -> None:
        files = foreign.some(FILES)
        if len(files) < FILES:
            self.skipTest(f"NOT TRIED: there are no foreign files here (apt-get install {' '.join(foreign.BEFORE)})")
        count = harness.Count()
        looks = {file: foreign.tried(file, str(PROGRAM), count) for file in files}
        foreign.measured({file: look for file, look in looks.items() if look}, False, count)
        self.assertEqual((count.failed, count.passed), (0, 3 * FILES + 2))


if __name__ == "__main__":
    unittest.main()
