"""Scores of version 2: their text, their limits, and their files byte by byte."""

from __future__ import annotations

import unittest
from fractions import Fraction

from formula_score import (
    Meter, Score, ScoreError, breath, flat, melody, note, par, repeat, rest, seq, slope, swing, tempo, tempo_change,
    ticks, warp,
)
from formula_score.running.score import text_of

from .program import foretold, needs_program, run, score_model
from .test_random import Maker

SCORES = 60
DIVISIONS = (24, 96, 480, 840, 960)


class Divided(Maker):
    """Random music with lengths that a division holds."""

    def __init__(self, seed: int, division: int):
        super().__init__(seed)
        self.division = division

    def length(self) -> Fraction:
        if self.random.random() < 0.5:
            return ticks(self.random.randrange(3 * self.division), self.division)
        return self.random.choice([Fraction(1, 4), Fraction(1, 8), Fraction(1, 12), Fraction(3, 8)])


def divided(seed: int, division: int) -> Score:
    """The random score of a seed and a division, of which some pieces may be out of a range."""
    maker = Divided(seed, division)
    while True:
        try:
            return Score(maker.music(4), seed=seed, version=2, division=division)
        except ScoreError:
            continue


class Versions(unittest.TestCase):
    def test_a_text(self) -> None:
        score = Score(melody("c4 e4 g4", [Fraction(1, 256), "1/8", ticks(5, 960)]), seed=7, version=2, division=960)
        self.assertEqual(score.text, "formula 2;\ndivision 960;\nseed 7;\n"
                                     "note c4 ticks 15; note e4 1/8; note g4 ticks 5;\n")
        self.assertEqual((score.end, [event.tick for event in score.events()]), (500, [0, 13, 15, 447, 495, 499]))
        self.assertEqual(Score(note("c4", "1/7"), version=2, division=84).text,
                         "formula 2;\ndivision 84;\nnote c4 1/7;\n")
        self.assertEqual(Score(note("c4", "1/4"), version=2).text, "formula 2;\nnote c4 1/4;\n")

    def test_time_is_deformed_in_ticks_of_the_division(self) -> None:
        # 22 ticks of 24 a quarter: by 1333 they are 29, and from 1000 to 1333 they are 25
        music = melody("c4 d4", [ticks(11, 24), ticks(11, 24)])
        self.assertEqual(Score(tempo(90, music), version=2, division=24).end, 22 * 1333 // 1000)
        self.assertEqual(Score(tempo_change(120, 90, music), version=2, division=24).end, 22 * 2333 // 2000)
        # a unit of 12 ticks: 16 and 8
        swung = Score(swing(melody("c4 d4 e4", "1/8")), version=2, division=24)
        self.assertEqual([event.tick for event in swung.events() if event.message[0] == 0x90], [0, 16, 24])
        # an inner deformation is rounded in these ticks too, and the outer one covers all of what it makes
        inner = warp([flat(ticks(3, 96), 500), flat(ticks(3, 96), 500), breath(ticks(1, 96))], rest(ticks(6, 96)))
        self.assertEqual(Score(tempo(60, seq(inner, inner)), version=2, division=96).end, 2 * 2 * (1 + 1 + 1))

    def test_bars_are_counted_exactly(self) -> None:
        bar = melody("c4 d4 e4 f4 g4 a4 b4", "1/7")
        self.assertEqual(Meter("4/4").bars(bar, bar).bar_ticks, 3840)
        with self.assertRaisesRegex(ScoreError, "bar 1 is 1/7 too long: it has 8/7 in place of 4/4"):
            Meter("4/4").bars(seq(bar, rest("1/7")))

    def test_what_it_refuses(self) -> None:
        seventh = note("c4", "1/7")
        for division in (480, 96, 960):
            self.assertRaisesRegex(ScoreError, f"where a quarter note has {division}$", Score, tempo(90, par(seventh)),
                                   version=2, division=division)
        self.assertRaises(ScoreError, Score, warp([slope("1/7", 1000, 900)], note("c4", "1/4")))
        self.assertRaises(ScoreError, lambda: tempo(90, seventh).ticks)
        self.assertRaises(ScoreError, Score, note("c4", "500/1"), version=2, division=960)

    @needs_program
    def test_both_have_the_same_limit_of_processes(self) -> None:
        within, past = (repeat(count, par(note("c4", "1/4"))) for count in (8191, 8192))
        self.assertEqual(Score(within, version=2).process_count, 16_383)
        self.assertEqual(run(Score(within, version=2).text)[:2], (0, ""))
        self.assertRaisesRegex(ScoreError, "at most 16,384 processes", Score, past, version=2)
        self.assertEqual(run(text_of((past,), version=2))[0], 3)

    @needs_program
    def test_a_file_by_hand(self) -> None:
        # the second pitch and its end have no status byte; 86 is 90 percent of 96 ticks
        hand = ("4D546864 00000006 0000 0001 0060 4D54726B 00000019 00FF510307A120 00903C40 004040 56803C40 004040"
                "0AFF2F00")
        score = Score(note(["c4", "e4"], "1/4"), version=2, division=96)
        self.assertEqual((run(score.text)[2], foretold(score)), (bytes.fromhex(hand), bytes.fromhex(hand)))

    @needs_program
    def test_random_ones_are_played_as_foretold(self) -> None:
        for seed in range(SCORES):
            score = divided(seed, DIVISIONS[seed % len(DIVISIONS)])
            events, end = score_model.played(score.text.encode())
            self.assertEqual([tuple(event) for event in score.events()],
                             [(*event[:3], bytes(event[3])) for event in events], f"{seed}: {score.text}")
            self.assertEqual((score.end, run(score.text)), (end, (0, "", foretold(score))), f"{seed}: {score.text}")


if __name__ == "__main__":
    unittest.main()
