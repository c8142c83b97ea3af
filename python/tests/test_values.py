"""Whatever is handed in, a call gives a score that plays, or a ScoreError that says what to do.

RANDOM_CALLS says how many random calls are made, 500 where it says nothing.
"""

from __future__ import annotations

import itertools
import os
import random
import unittest
from decimal import Decimal
from fractions import Fraction
from typing import Any, Callable, Iterator


from formula_score import (
    DRUMS, INSTRUMENTS, Meter, Music, Pitch, Scale, Score, ScoreError, accents, articulations, bend, breath,
    channel, chord, control, crescendo, dotted, drum, drums, dynamics, euclid, flat, gate, hits, instrument, melody,
    note, par, pause, phrase, repeat, rest, seq, slope, stretch_of, swing, tempo, tempo_change, ticks, triplet,
    warp,
)

from .program import PROGRAM, foretold, needs_program, run

CALLS = int(os.environ.get("RANDOM_CALLS", "500"))
#: A score of more steps plays for long, and is not played here.
MOST_STEPS = 100_000
QUARTER = note("c4", "1/4")


class Index:
    """A whole number of another library, as numpy's are."""

    def __init__(self, number: int):
        self.number = number

    def __index__(self) -> int:
        return self.number


class Looks:
    """What looks like a number and is no whole one, as numpy's floats do."""

    def __init__(self, number: float):
        self.number = number

    def __int__(self) -> int:
        return int(self.number)

    def __float__(self) -> float:
        return float(self.number)

    def __le__(self, other: Any) -> bool:
        return bool(self.number <= other)

    def __ge__(self, other: Any) -> bool:
        return bool(self.number >= other)


class Row:
    """Values as an array has them: no list, and not to be asked whether it is true."""

    def __init__(self, *values: object):
        self.values = values

    def __iter__(self) -> Iterator[object]:
        return iter(self.values)

    def __len__(self) -> int:
        return len(self.values)

    def __bool__(self) -> bool:
        raise ValueError("the truth of an array is not known")


def nest(depth: int) -> Music:
    music: Music = QUARTER
    for _ in range(depth):
        music = channel(1, music)
    return music


def unlike(*given: object) -> Any:
    """The values, for calls that take no such things."""
    return given if len(given) > 1 else given[0]


class Values(unittest.TestCase):
    def test_whole_numbers_of_others_are_welcome(self) -> None:
        pairs: tuple[tuple[Music, Music], ...] = (
            (note(unlike(Index(60)), unlike(Index(1))), note("c4", 1)),
            (note(unlike(Row(Index(60), Index(64))), "1/4"), note(["c4", "e4"], "1/4")),
            (melody(unlike(Row(Index(60), Index(62))), unlike(Row("1/4", "1/8"))), melody("c4 d4", "1/4 1/8")),
            (channel(unlike(Index(3)), QUARTER), channel(3, QUARTER)),
            (gate(unlike(Index(50)), QUARTER), gate(50, QUARTER)),
            (dynamics(unlike(Index(80)), QUARTER), dynamics("mf", QUARTER)),
            (accents(unlike(Row(Index(80), "f")), QUARTER), accents(["mf", 96], QUARTER)),
            (repeat(unlike(Index(2)), QUARTER), 2 * QUARTER),
            (control(unlike(Index(7)), unlike(Index(100))), control(7, 100)),
            (warp([flat("1/4", unlike(Index(2000)))], QUARTER), warp([flat("1/4", 2000)], QUARTER)),
            (QUARTER.transpose(unlike(Index(2))), note("d4", "1/4")),
            (hits("x..x | x.x.", "c2", "1/8"), hits([True, False, False, True] + 2 * [True, False], "c2", "1/8")),
            (hits(unlike(Row(Index(1), Index(0))), "c2", "1/8"), hits([True, False], "c2", "1/8")),
            (tempo(Fraction(181, 2), QUARTER), tempo(90.5, QUARTER)),
            (tempo(unlike(Decimal("90.5")), QUARTER), tempo(90.5, QUARTER)),
        )
        for value, wanted in pairs:
            self.assertEqual(value, wanted)
            self.assertEqual(Score(value).text, Score(wanted).text)
        self.assertEqual(Score(QUARTER, seed=unlike(Index(7))).text, Score(QUARTER, seed=7).text)
        self.assertEqual((Pitch("c4") + unlike(Index(2)), Scale("c4")[unlike(Index(1))]), (62, 62))

    def test_what_is_no_whole_number_is_refused(self) -> None:
        for wrong in map(unlike, (80.0, 50.9, True, Looks(50), "50", None, float("nan"), 10**5000, [50], Row(50), 1j)):
            calls: tuple[Callable[[], object], ...] = (
                lambda: gate(wrong, QUARTER), lambda: channel(wrong, QUARTER), lambda: dynamics(wrong, QUARTER),
                lambda: accents([wrong], QUARTER), lambda: articulations([wrong], QUARTER),
                lambda: repeat(wrong, QUARTER), lambda: QUARTER * wrong, lambda: QUARTER.transpose(wrong),
                lambda: rest("1/4").transpose(wrong),
                lambda: control(wrong, 1), lambda: control(1, wrong), lambda: bend(wrong), lambda: Pitch("c4") + wrong,
                lambda: Pitch("c4") - wrong, lambda: Pitch("c4").above(wrong), lambda: Scale("c4")[wrong],
                lambda: Score(QUARTER, seed=wrong), lambda: Score(QUARTER, version=wrong),
                lambda: Score(QUARTER, version=2, division=wrong), lambda: ticks(wrong), lambda: euclid(wrong, 8),
                lambda: euclid(3, wrong), lambda: chord("C", 4, wrong), lambda: chord("C", wrong),
                lambda: flat("1/4", wrong), lambda: instrument(wrong), lambda: Meter("4/4").bars(QUARTER, first=wrong),
            )
            for number, call in enumerate(calls):
                with self.assertRaises(ScoreError, msg=f"call {number} of {type(wrong)}"):
                    call()

    def test_what_is_no_music_is_refused_with_its_cure(self) -> None:
        quarter, silence = QUARTER, rest("1/4")
        star, written = "put a star before what holds several, as in `seq(*items)`", "a note is written `note("
        comes_first = "comes before the music, and here stands note('c4', '1/4')"
        rows: tuple[tuple[Callable[[], object], str], ...] = (
            (lambda: seq(unlike([quarter, silence])), star),
            (lambda: par(unlike([quarter])), star),
            (lambda: channel(1, unlike(quarter for _ in range(2))), star),
            (lambda: Score(unlike(iter([quarter]))), star),
            (lambda: quarter + unlike("d4"), written),
            (lambda: unlike("d4") + quarter, written),
            (lambda: sum(unlike([quarter, silence])), "`seq(*items)` joins what `sum` would"),
            (lambda: seq(unlike(60)), written),
            (lambda: par(quarter, unlike(None)), "does a function of yours end without `return`?"),
            (lambda: seq(unlike(seq)), "call it"),
            (lambda: warp([flat("1/4", 1000)], unlike(pause("1/4"))), "at the begin of a warp"),
            (lambda: warp(unlike(flat("1/4", 1000)), quarter), "a shape is a list"),
            (lambda: warp(unlike([quarter]), quarter), "flat, slope, pause and breath make them"),
            (lambda: Score(unlike(Score(quarter))), "is no music"),
            (lambda: seq(unlike(Music())), "is no music"),
            (lambda: repeat(unlike(quarter), unlike(4)), comes_first),
            (lambda: tempo(unlike(quarter), unlike(90)), comes_first),
            (lambda: dynamics(unlike(quarter), unlike("mf")), comes_first),
            (lambda: channel(unlike(quarter), unlike(1)), comes_first),
            (lambda: tempo(0, quarter), "a tempo goes from 0.12"),
            (lambda: tempo(unlike(True), quarter), "is a number, and True is none"),
            (lambda: tempo(unlike("90"), quarter), "is a number, and '90' is none"),
            (lambda: tempo_change(120, float("nan"), quarter), "is a number, and nan is none"),
            (lambda: tempo(10**400, quarter), "is a number"),
            (lambda: stretch_of(float("inf")), "is a number, and inf is none"),
            (lambda: swing(quarter, long=float("nan")), "is a number, and nan is none"),
            (lambda: swing(quarter, long=1.5), "it lies between 0 and 1"),
            (lambda: nest(1000), "at most 64 blocks stand in one another"),
            (lambda: accents(unlike("mf"), quarter), "put it into brackets"),
            (lambda: hits("x-.x", "c2", "1/8"), "'-' is no beat: a pattern has `x` for a hit and `.` for a rest"),
            (lambda: hits(unlike(["x", "."]), "c2", "1/8"), "is True or False"),
            (lambda: note(unlike(itertools.count(60)), "1/4"), "more than 16"),
            (lambda: melody(unlike(itertools.repeat(60)), "1/4"), "more than 262,144"),
            (lambda: note(unlike(None), "1/4"), "what a note plays is a list, and None is none"),
            (lambda: rest("1e999999999"), "write '1/4' or Fraction(1, 4)"),
            (lambda: phrase(unlike(quarter), quarter), "the name of a phrase is a text"),
            (lambda: phrase("verse\n", quarter), "'verse\\n' is no name"),
            (lambda: instrument("flut"), "is it flute or pan flute?"),
            (lambda: instrument("saxofone"), "is it "),
            (lambda: drum("snar"), "is it snare or electric snare?"),
            (lambda: drum(unlike(38)), "there is no drum 38"),
            (lambda: Score(quarter, division=960), "write version=2 too"),
        )
        for number, (call, cure) in enumerate(rows):
            with self.assertRaises(ScoreError, msg=f"row {number}, {cure}") as caught:
                call()
            self.assertIn(cure, str(caught.exception))

    def test_loops_that_add_do_not_look_back(self) -> None:
        music: Music = seq()
        for _ in range(10_000):
            music = music + QUARTER
        self.assertEqual(music.ticks, 4_800_000)

    def test_phrases_in_phrases_are_counted_once(self) -> None:
        music: Music = QUARTER
        for at in range(60):
            music = phrase(f"level_{at}", music, music)
        self.assertEqual(music.transpose(1).ticks, 480 * 2**60)
        self.assertRaises(ScoreError, Score, music)
        self.assertRaises(ScoreError, crescendo, "p", "f", music)


class Maker:
    """Random calls, with values of the wrong kind among the right ones."""

    def __init__(self, seed: int):
        self.random = random.Random(seed)
        self.music: list[Music] = [QUARTER, rest("1/8"), control(7, 100)]
        self.names = 0

    def odd(self) -> Any:
        return self.random.choice([
            None, True, False, 0, -1, 1.5, -0.0, float("nan"), float("inf"), 10**30, 10**5000, "", "c4", "1/4", "x..x",
            "mf", b"c4", "é", "9" * 100, "1/0", [], [None], [60, "e4"], {}, {60}, (), Row(60), Looks(64), Index(64),
            Index(-3), Decimal("0.5"), Fraction(1, 3), Fraction(1, 256), Fraction(-1, 4), 1j, object(), Music, Music(),
            note, QUARTER, [QUARTER], iter([QUARTER]), pause("1/8"), Scale("c4"), Meter("3/4"), Pitch("c4"), range(3),
            lambda: 1,
        ])

    def value(self, kind: str) -> Any:
        draw = self.random
        if draw.random() < 0.08:
            return self.odd()
        if kind == "music":
            return draw.choice(self.music)
        if kind == "name":
            self.names += 1
            return f"{draw.choice(['verse', 'shape', 'a'])}_{self.names}"
        return draw.choice(POOLS[kind])

    def arguments(self, kinds: str) -> list[Any]:
        found: list[Any] = []
        for kind in kinds.split():
            several = self.random.randrange(4) if kind.startswith("*") else 1
            found += [self.value(kind.lstrip("*")) for _ in range(several)]
        return found


POOLS: dict[str, list[Any]] = {
    "pitch": ["c4", "fs5", "bb3", 60, 0, 127, Pitch("g9"), Index(61), "c10", 128],
    "pitches": ["c4", 60, ["c4", "e4"], chord("Am7", 3), (0, 127), Row(60, 64), [60] * 17, Scale("d4")],
    "length": ["1/4", "1/8", "3/16", Fraction(1, 12), 0, 1, ticks(7), dotted("1/4"), triplet("1/8"), "1/7", "1/256",
               Index(1), "0.25", "520/1", 521],
    "lengths": ["1/4", "1/4 1/8", ["1/4", ticks(3)], Row("1/4", 1), "1/7"],
    "tune": ["c4 e4 g4", "c4~ c4 r", "c4+e4 r", ["c4", None, 60], Row(60, Index(62)), "c4~", "r"],
    "beats": ["x..x..x.", "x", "", "x . x .", euclid(3, 8), [1, 0, 1], Row(True, False)],
    "small": [0, 1, 2, 3, 7, 15, 16, Index(3)],
    "seven_bits": [0, 1, 64, 127, 128, Index(100)],
    "percent": [0, 1, 90, 100, 250, 400, 401, Index(110)],
    "loudness": ["pp", "mf", "fff", 1, 127, 0, Index(80), "loud"],
    "loudnesses": [["f", "p"], ["pp", 100, Index(3)], Row("f", 1), [64] * 257],
    "percents": [[100, 50], [400], Row(0, Index(300)), [90] * 257],
    "count": [0, 1, 2, 3, 5, 1_000_000, 1_000_001, Index(2)],
    "beats_a_minute": [30, 60, 90.5, 120, 200, Fraction(181, 2), 0, -5, 1e-300, Index(96)],
    "part_of_two": [0.5, 2 / 3, Fraction(3, 4), 0, 1, 0.999],
    "parts": [[flat("1/4", 2000)], [slope("1/2", 1000, 500), pause("1/8"), breath(ticks(5))], [pause(0)],
              [flat(ticks(3), 500), flat(ticks(3), 500)] * 100, [flat("1/256", 900)]],
    "semitones": [0, 1, -5, 12, 127, -128, Index(2)],
    "bend": [-8192, 0, 8191, 8192, Index(5)],
    "instrument": [*INSTRUMENTS[:4], 73, 127, 128, Index(5), "flut"],
    "drum": [*list(DRUMS)[:4], "snar", 38],
    "signature": ["3/4", "4/4", "7/8", "1/7", "0/4", Fraction(3, 4)],
    "seed": [0, 7, 999_999_999, 10**9, Index(3)],
    "version": [1, 2, 2, 2, 3, Index(2)],
    "division": [480, 480, 24, 96, 960, 840, 23, 961, Index(96)],
}
MUSIC_CALLS: tuple[tuple[Callable[..., Any], str], ...] = (
    (note, "pitches length"), (note, "pitch length"), (rest, "length"), (melody, "tune lengths"),
    (hits, "beats pitch length"), (control, "seven_bits seven_bits"), (instrument, "instrument"), (bend, "bend"),
    (seq, "*music"), (par, "*music"), (repeat, "count *music"), (channel, "small *music"), (drums, "*music"),
    (dynamics, "loudness *music"), (accents, "loudnesses *music"), (gate, "percent *music"),
    (articulations, "percents *music"), (crescendo, "loudness loudness *music"), (warp, "parts *music"),
    (tempo, "beats_a_minute *music"), (tempo_change, "beats_a_minute beats_a_minute *music"), (swing, "*music"),
    (lambda unit, long, *items: swing(*items, unit=unit, long=long), "length part_of_two *music"),
    (phrase, "name *music"), (lambda item, by: seq(item).transpose(by), "music semitones"),
    (lambda item, other: seq(item) + other, "music music"), (lambda item, count: count * seq(item), "music count"),
    (lambda signature, pickup, *bars: Meter(signature).bars(*bars, pickup=pickup), "signature length *music"),
    (lambda signature, *bars: Meter(signature).bars(*bars), "signature *music"),
    (lambda name: note(drum(name), "1/8"), "drum"),
    (lambda by, length: warp([flat(length, by)], QUARTER), "count length"),
    (lambda first, last: warp([slope("1/4", first, last)], QUARTER), "count count"),
    (lambda degree: note(Scale("d4", "blues")[degree], "1/4"), "semitones"),
    (lambda pitch, by: note(Pitch(pitch) - by, "1/4"), "pitch semitones"),
    (lambda number: rest(ticks(number)), "count"), (lambda length: rest(dotted(triplet(length))), "length"),
    (lambda struck, steps: hits(euclid(struck, steps), 38, "1/16"), "small small"),
)


class RandomCalls(unittest.TestCase):
    @needs_program
    def test_each_is_refused_or_plays_as_foretold(self) -> None:
        assert PROGRAM is not None
        maker, counts = Maker(20_000), {"refused": 0, "no score": 0, "played": 0, "too long to play": 0}
        for number in range(CALLS):
            call, kinds = maker.random.choice(MUSIC_CALLS)
            given = maker.arguments(kinds)
            options = {name: maker.value(name) for name in ("seed", "version", "division")
                       if maker.random.random() < 0.4}
            try:
                music = call(*given)
            except ScoreError:
                counts["refused"] += 1
                continue
            except Exception as error:  # it is to be told with the call
                raise AssertionError(f"call {number}: {kinds} of {given!r}") from error
            self.assertIsInstance(music, Music)
            try:
                score = Score(music, **options)
            except ScoreError:
                counts["no score"] += 1
                continue
            if score.step_count < 500:
                maker.music = [*maker.music[-40:], music]
            if score.step_count > MOST_STEPS:
                counts["too long to play"] += 1
                continue
            self.assertEqual(run(score.text), (0, "", foretold(score)), f"call {number}: {score.text}")
            counts["played"] += 1
        self.assertGreater(counts["played"], CALLS // 5, counts)
        self.assertGreater(counts["refused"], CALLS // 10, counts)
        if CALLS > 500:
            print(counts)


if __name__ == "__main__":
    unittest.main()
