"""The examples of the page run, and are played."""

import contextlib
import io
import os
import pathlib
import re
import tempfile
import unittest
from typing import Iterator

from formula_score import CommandError, Refused, note, play, Score

from .program import PROGRAM, TOP, needs_program, run


def examples() -> Iterator[tuple[str, list[str]]]:
    """What each example prints, and the scores that it makes."""
    for text in re.findall(r"^```python\n(.*?)^```", (TOP / "python" / "formula_score" / "README.md").read_text(), re.M | re.S):
        printed, home = io.StringIO(), os.getcwd()
        names: dict[str, object] = {}
        with tempfile.TemporaryDirectory() as folder:
            os.chdir(folder)
            try:
                with contextlib.redirect_stdout(printed):
                    exec(text, names)
                saved = [path.read_text() for path in sorted(pathlib.Path(folder).iterdir())]
            finally:
                os.chdir(home)
        yield printed.getvalue(), saved


class Readme(unittest.TestCase):
    def test_the_examples_run(self) -> None:
        (printed, saved), (_, walk), (played, _) = examples()
        self.assertEqual(printed, "4800\nEvent(tick=0, process=1, number=0, message=b'\\xc0I')\n")
        self.assertEqual((len(saved), len(walk)), (1, 1))
        self.assertEqual(played, "note 0 480 phrase\nrest 480 720 round\nnote 720 1200 phrase\nrest 1200 1440 round\n")

    @needs_program
    def test_they_are_played(self) -> None:
        for _, saved in examples():
            for score in saved:
                self.assertEqual(run(score)[:2], (0, ""))

    def test_a_program_that_is_not_there_is_told(self) -> None:
        with self.assertRaisesRegex(CommandError, "/none/formula cannot be run: No such file"):
            play("formula 1;", "out.mid", "/none/formula")

    @needs_program
    def test_play_writes_the_file_or_says_why_not(self) -> None:
        with tempfile.TemporaryDirectory() as folder:
            out = pathlib.Path(folder, "out.mid")
            Score(note("c4", "1/4")).play(out, PROGRAM, workers=0)
            self.assertEqual(out.read_bytes().hex(), "4d546864000000060000000101e04d54726b0000001400ff510307a120"
                                                     "00903c40833080" "3c4030ff2f00")
            Score(note("c4", "1/4")).play(out, PROGRAM, from_=0, to=1, rounds=True)
            self.assertEqual(out.read_bytes()[29:].hex(), "00903c40" "01803c40" "00ff2f00")
            with self.assertRaises(Refused) as caught:
                play("formula 1;\nnote c#4 1/4;\n", out, PROGRAM)
            self.assertEqual((caught.exception.line, caught.exception.column, caught.exception.number), (2, 6, 3))
            self.assertEqual(str(caught.exception),
                             "score:2:6: here a pitch is expected, and there is `c` (fault 3)\n"
                             "2 | note c#4 1/4;\n  |      ^\n"
                             "a pitch is a letter a to g, `s` or `b` for a sharp or a flat, then the octave: "
                             "write `note cs4 1/4;`")


if __name__ == "__main__":
    unittest.main()
