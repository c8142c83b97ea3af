"""What the library makes, by rows worked out by hand."""

from __future__ import annotations

import unittest
from fractions import Fraction
from typing import Callable

from formula_score import (
    BarError, DRUMS, INSTRUMENTS, LengthLike, Meter, Music, Pitch, Scale, Score, ScoreError, breath, channel, chord,
    crescendo, dotted, drum, dynamics, euclid, flat, gate, instrument, melody, note, par, pause, phrase, repeat,
    rest, seq, slope, swing, tempo, tempo_change, ticks, triplet, warp,
)
from formula_score.making.music import deformed


def starts(score: Score) -> list[tuple[int, int, int]]:
    """Of each note its tick, key and velocity."""
    return [(event.tick, event.message[1], event.message[2]) for event in score.events() if event.message[0] >> 4 == 9]


class Pitches(unittest.TestCase):
    def test_names_and_arithmetic(self) -> None:
        self.assertEqual([int(Pitch(name)) for name in ("c4", "cb0", "g9", "bb3", "es4")], [60, 11, 127, 58, 65])
        self.assertEqual(str(Pitch("c4") + 13), "cs5")
        self.assertEqual(Pitch("c4").above("g4"), -7)
        self.assertEqual(str(Pitch("c4") - 2), "as3")
        self.assertEqual(str(Pitch(3)), "key 3")
        for wrong in ("C4", "c#4", "c10", 128, -1):
            self.assertRaises(ScoreError, Pitch, wrong)

    def test_scales_and_chords(self) -> None:
        self.assertEqual([str(Scale("d4", "dorian")[degree]) for degree in range(-1, 8)],
                         "c4 d4 e4 f4 g4 a4 b4 c5 d5".split())
        self.assertEqual(list(map(str, chord("Am7", 3))), "a3 c4 e4 g4".split())
        self.assertEqual(list(map(str, chord("Bb", 3, inversion=1))), "d4 f4 as4".split())
        self.assertIn("fs7", Scale("g2"))
        self.assertRaises(ScoreError, chord, "H")

    def test_general_midi(self) -> None:
        self.assertEqual((len(INSTRUMENTS), len(DRUMS)), (128, 47))
        self.assertEqual([instrument(name).value for name in ("violin", "trumpet", "flute", "gunshot")],
                         [40, 56, 73, 127])
        self.assertEqual([int(drum(name)) for name in ("acoustic bass drum", "snare", "closed hi-hat", "cowbell")],
                         [35, 38, 42, 56])


class Time(unittest.TestCase):
    def test_lengths(self) -> None:
        lengths: list[LengthLike] = ["3/8", Fraction(1, 12), 1, ticks(7), dotted("1/4"), triplet("1/8")]
        self.assertEqual([note("c4", of).ticks for of in lengths], [720, 160, 1920, 7, 720, 160])
        for wrong in (0.25, "1/961", "x", "1/0", -1, 521):
            self.assertRaises(ScoreError, rest, wrong)
        with self.assertRaisesRegex(ScoreError, rf"^{__file__}:[0-9]+: the length 1/7 is 1920/7 ticks, and no whole "):
            Score(rest("1/7"))

    def test_bars_are_counted(self) -> None:
        bars = Meter("3/4").bars
        bar = melody("c4 d4 e4", "1/4")
        self.assertEqual(bars(melody("g4", "1/4"), bar, bar, pickup="1/4").ticks, 3360)
        with self.assertRaisesRegex(BarError, "bar 2 is 1/8 too long: it has 7/8 in place of 3/4") as caught:
            bars(bar, seq(bar, rest("1/8")))
        self.assertEqual(caught.exception.bar, 2)
        self.assertRaisesRegex(BarError, "bar 11 is 1/4 too short", bars, bar, melody("c4 d4", "1/4"), first=10)
        # a bar is counted as it is written, at whatever tempo
        self.assertEqual(bars(seq(tempo(60, bar)), bar).ticks, 1440 * 2 + 1440)

    def test_deformations(self) -> None:
        parts = [flat("1/1", 1000), breath("1/16"), slope("1/1", 1000, 2000), pause(ticks(10))]
        rows = ((1919, True, 1919), (1920, False, 1920), (1920, True, 2040), (2880, True, 3240), (3840, True, 4930),
                (3840, False, 4930), (4000, True, 5090))
        for position, onset, outside in rows:
            self.assertEqual(deformed(parts, position, onset), outside, (position, onset))
        # a breath and a pause at one place: a note that ends there waits for the pause alone
        both = [flat("1/4", 1000), breath(ticks(5)), pause(ticks(3))]
        self.assertEqual([deformed(both, 480, onset) for onset in (False, True)], [483, 488])

    def test_tempo(self) -> None:
        self.assertEqual(tempo(90, repeat(8, note("c4", "1/4"))).parts[0].first, 1333)
        self.assertEqual(tempo(60, note("c4", "1/4")).ticks, 960)
        self.assertEqual([part.ticks for part in tempo(60, repeat(3, rest("521/2"))).parts], [1_000_000, 500_480])
        self.assertEqual(tempo_change(120, 60, note("c4", "1/1")).ticks, 2880)

    def test_swing_keeps_beats(self) -> None:
        for unit, all_of in (("1/8", [0, 320, 480, 800, 960]), ("1/16", [0, 160, 240, 400, 480])):
            self.assertEqual([tick for tick, _, _ in starts(Score(swing(melody("c4 d4 e4 f4 g4", unit), unit=unit)))],
                             all_of)

    def test_euclid(self) -> None:
        def drawn(*of: int) -> str:
            return "".join("x" if beat else "." for beat in euclid(*of))

        self.assertEqual([drawn(3, 8), drawn(4, 4), drawn(0, 2), drawn(3, 8, 3)],
                         ["x..x..x.", "xxxx", "..", "x..x.x.."])


class Overlaps(unittest.TestCase):
    def heard(self, *items: Music) -> list[tuple[int, int, int]]:
        return [(event.tick, event.message[0] >> 4, event.message[1]) for event in Score(*items).events()]

    def test_notes_sound_on_over_the_next_ones(self) -> None:
        self.assertEqual(self.heard(gate(200, melody("c4 d4", "1/4"))),
                         [(0, 9, 60), (480, 9, 62), (960, 8, 60), (960, 8, 62)])

    def test_a_seventeenth_pitch_cuts_the_one_that_has_waited_longest(self) -> None:
        keys = range(48, 64)
        self.assertEqual(self.heard(gate(400, note(list(keys), ticks(10)), note("e5", ticks(10)))),
                         [(0, 9, key) for key in keys] + [(10, 8, 48), (10, 9, 76)]
                         + [(20, 8, key) for key in [*keys[1:], 76]])

    def test_an_end_behind_a_level_is_deformed_by_it(self) -> None:
        half = flat(ticks(10), 500)
        self.assertEqual(self.heard(gate(400, warp([half], note("c4", ticks(10))), rest(ticks(100)))),
                         [(0, 9, 60), (35, 8, 60)])


class Texts(unittest.TestCase):
    def test_a_whole_text(self) -> None:
        tune = phrase("tune", melody("c4 e4 g4~ g4", "1/4"))
        score = Score(par(channel(0, tune), channel(1, instrument("flute"), tune.transpose(12))), seed=7)
        self.assertEqual(score.text, """formula 1;
seed 7;
phrase tune {
  note c4 1/4; note e4 1/4; note g4 1/2;
}
phrase tune_up_12 {
  note c5 1/4; note e5 1/4; note g5 1/2;
}
par {
  branch {
    channel 0 {
      do tune;
    }
  }
  branch {
    channel 1 {
      program 73; do tune_up_12;
    }
  }
}
""")

    def test_ties(self) -> None:
        self.assertEqual(Score(note("c4", "1/4", tied=True), note("c4", "1/4", tied=True), note("c4", "1/2")).text,
                         "formula 1;\nnote c4 1/1;\n")
        self.assertRaises(ScoreError, Score, note("c4", "1/4", tied=True))
        self.assertRaises(ScoreError, Score, note("c4", "1/4", tied=True), note("d4", "1/4"))
        self.assertRaises(ScoreError, channel, 1, note("c4", "1/4", tied=True))

    def test_dynamics(self) -> None:
        score = Score(crescendo("p", "f", melody("c4 d4 e4", "1/4"), dynamics("pp", note("f4", "1/4")),
                                melody("g4 a4", "1/4")))
        self.assertEqual([loud for _, _, loud in starts(score)], [49, 61, 73, 33, 84, 96])
        self.assertRaises(ScoreError, crescendo, "p", "f", par(note("c4", "1/4")))

    def test_what_the_command_would_refuse(self) -> None:
        quarter = note("c4", "1/4")
        deep: Music = quarter
        for _ in range(8):
            deep = tempo(90, deep)
        Score(deep)
        rows: tuple[Callable[[], object], ...] = (
            lambda: note([], "1/4"), lambda: note(["c4"] * 17, "1/4"), lambda: channel(16, quarter),
            lambda: dynamics(0, quarter), lambda: gate(401, quarter), lambda: repeat(1_000_001, quarter),
            lambda: phrase("repeat", quarter), lambda: phrase("a1", quarter), lambda: phrase("r7", quarter),
            lambda: warp([], quarter), lambda: instrument("kazoo"), lambda: drum("kazoo"), lambda: par(),
            lambda: Score(phrase("a", quarter), phrase("a", rest("1/4"))), lambda: Score(quarter, seed=10**9),
            lambda: Score(tempo(90, deep)), lambda: Score(repeat(1_000_000, repeat(3, quarter))),
            lambda: Score(repeat(4096, par(quarter))), lambda: Score(repeat(10**6, repeat(2, rest(520)))),
            lambda: Score(repeat(10**6, repeat(20, rest(ticks(1))))), lambda: Score(*[quarter] * 262_144),
        )
        for number, row in enumerate(rows):
            with self.assertRaises(ScoreError, msg=str(number)):
                row()


if __name__ == "__main__":
    unittest.main()
