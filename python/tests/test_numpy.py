"""Values of numpy: by this Python, else by Debian's where that has numpy."""

from __future__ import annotations

import importlib.util
import subprocess
import unittest
from typing import Any

from formula_score import (
    Pitch, Scale, Score, ScoreError, channel, dynamics, gate, hits, melody, note, repeat, rest, tempo,
)

from .program import TOP

DEBIANS = "/usr/bin/python3"
HERE = importlib.util.find_spec("numpy") is not None


def debians_has_numpy() -> bool:
    try:
        return subprocess.run([DEBIANS, "-c", "import numpy"], stderr=subprocess.DEVNULL, check=False).returncode == 0
    except OSError:
        return False


class Numpy(unittest.TestCase):
    @unittest.skipUnless(HERE, "this Python has no numpy")
    def test_its_whole_numbers_are_welcome_and_no_others(self) -> None:
        np: Any = __import__("numpy")
        quarter = note("c4", "1/4")
        for kind in (np.int64, np.uint8, np.int32):
            self.assertEqual(note(kind(60), "1/4"), quarter)
            self.assertEqual(gate(kind(50), quarter), gate(50, quarter))
            self.assertEqual((kind(3) * quarter, quarter * kind(3)), (3 * quarter, 3 * quarter))
            self.assertEqual((Pitch(kind(60)) + kind(2), Scale("c4")[kind(1)]), (62, 62))
            self.assertEqual(rest(kind(1)), rest(1))
        line = np.arange(60, 72, 2)
        self.assertEqual(melody(line, "1/8"), melody([60, 62, 64, 66, 68, 70], "1/8"))
        self.assertEqual(note(line, "1/4"), note([60, 62, 64, 66, 68, 70], "1/4"))
        self.assertEqual(melody(line.reshape(2, 3), "1/4"), melody([[60, 62, 64], [66, 68, 70]], "1/4"))
        self.assertEqual(hits(np.array([1, 0, 1]) == 1, 38, "1/8"), hits("x.x", 38, "1/8"))
        self.assertEqual(tempo(np.float32(90), quarter), tempo(90, quarter))
        self.assertEqual(Score(quarter, seed=np.int64(7)).text, Score(quarter, seed=7).text)
        for wrong in (np.float64(50), np.float32(50), np.bool_(True), np.array([50, 60]), np.array(50.5)):
            for call in (gate, channel, dynamics, repeat):
                self.assertRaises(ScoreError, call, wrong, quarter)
            self.assertRaises(ScoreError, lambda: quarter * wrong)
            self.assertRaises(ScoreError, lambda: wrong * quarter)
            self.assertRaises(ScoreError, lambda: Pitch("c4") - wrong)

    @unittest.skipUnless(HERE or debians_has_numpy(), f"NOT TRIED: neither this Python nor {DEBIANS} has numpy")
    @unittest.skipIf(HERE, "this Python has numpy itself")
    def test_by_debians_python(self) -> None:
        done = subprocess.run([DEBIANS, "-B", "-m", "unittest", "tests.test_numpy.Numpy"], cwd=TOP / "python",
                              stdout=subprocess.PIPE, stderr=subprocess.STDOUT, text=True, check=False)
        self.assertEqual(done.returncode, 0, done.stdout)
        self.assertIn("OK (skipped=1)", done.stdout)


if __name__ == "__main__":
    unittest.main()
