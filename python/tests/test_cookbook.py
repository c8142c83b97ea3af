"""The generators of the cookbook: short, played as foretold, and with pictures that are theirs."""

from __future__ import annotations

import os
import pathlib
import re
import subprocess
import tempfile
import unittest
import unittest.mock

from formula_score import Score, flat, note, repeat, tempo, ticks, warp
from formula_score.making.music import Par

from .program import PROGRAM, TOP, foretold, needs_program, run

PAGE = (TOP / "python" / "COOKBOOK.md").read_text(encoding="utf-8")
GENERATORS = re.findall(r"^```python\n(.*?)^```", PAGE, re.M | re.S)
#: The number of a generator, and its picture.
PICTURES = ((0, "cookbook_canon.svg"), (2, "cookbook_phases.svg"))


def score_of(generator: str) -> Score:
    """The score of a generator, which may write files where it stands."""
    names: dict[str, object] = {}
    exec(generator, names)
    score = names["score"]
    assert isinstance(score, Score)
    return score


class Cookbook(unittest.TestCase):
    def test_there_are_eight_and_they_are_short(self) -> None:
        self.assertEqual(len(GENERATORS), 8)
        for generator in GENERATORS:
            self.assertLessEqual(len(generator.splitlines()), 40)

    @needs_program
    def test_each_is_played_as_foretold(self) -> None:
        home = os.getcwd()
        with tempfile.TemporaryDirectory() as folder, unittest.mock.patch.dict(os.environ, FORMULA=PROGRAM or ""):
            os.chdir(folder)
            try:
                scores = [score_of(generator) for generator in GENERATORS]
                variations = sorted(path.name for path in pathlib.Path(folder).iterdir())
                first = pathlib.Path(folder, "variation_0.mid").read_bytes()
            finally:
                os.chdir(home)
        for score in scores:
            self.assertEqual(run(score.text), (0, "", foretold(score)), score.text)
        self.assertEqual((len(variations), first), (24, foretold(scores[-1])))

    @needs_program
    def test_the_pictures_are_of_their_scores(self) -> None:
        with tempfile.TemporaryDirectory() as folder:
            for number, name in PICTURES:
                self.assertIn(f"(../docs/pictures/{name})", PAGE)
                file, picture = pathlib.Path(folder, "a.mid"), pathlib.Path(folder, "a.svg")
                file.write_bytes(score_of(GENERATORS[number]).render(PROGRAM, workers=0))
                subprocess.run([TOP / "bin" / "formula-score", "roll", file, picture], check=True)
                self.assertEqual(picture.read_text(), (TOP / "docs" / "pictures" / name).read_text(), name)

    def test_voices_meet_where_the_page_says(self) -> None:
        (voices,) = score_of(GENERATORS[0]).body
        assert isinstance(voices, Par)
        self.assertEqual({sum(item.ticks for item in branch) for branch in voices.branches}, {4800})
        still, ahead = ([event.tick for event in score_of(GENERATORS[2]).events() if event.message[0] == status]
                        for status in (0x90, 0x91))
        # behind each move the one is a note further: after 48 of the other's it has played 49
        self.assertEqual((still[47:49], len(still), len(ahead)), ([still[47], ahead[49]], 96, 98))

    def test_the_drift_of_a_tempo(self) -> None:
        def late(beats: float, minutes: int) -> int:
            """How many milliseconds the end lies behind its place."""
            quarters = round(beats * minutes)
            score = Score(tempo(beats, repeat(quarters, note("c4", "1/4"))))
            return round(score.end * 1000 / 960 - quarters * 60_000 / beats)

        self.assertEqual((round(late(90, 10) / 10), late(90, 10)), (-15, -150))
        # half a thousandth beside 1000, 2000 and 500
        worst = [late(120_000 / (stretch + 0.499), 10) for stretch in (1000, 2000, 500)]
        self.assertEqual([round(-distance / 10) for distance in worst], [30, 15, 60])
        parts = [flat(ticks(1000), by) for by in (1333, 1333, 1334)] * 80
        self.assertEqual(Score(warp(parts, repeat(500, note("c4", "1/4")))).end, 320_000)


if __name__ == "__main__":
    unittest.main()
