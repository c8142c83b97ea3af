"""500 random scores of the library: none is refused, and each plays as the library foretells.

The library's events are compared with those of tools/score_model, a player that reads the text, and the file that
is made of them with the one that the built program writes.
"""

from __future__ import annotations

import random
import unittest
from fractions import Fraction
from typing import Any, Callable, Sequence, Union

from formula_score import (
    DRUMS, INSTRUMENTS, Event, Music, Part, Pitch, Scale, Score, accents, articulations, bend, breath, channel,
    chord, control, crescendo, drum, drums, dynamics, euclid, flat, gate, hits, instrument, melody, note, par,
    pause, phrase, repeat, rest, seq, slope, swing, tempo, tempo_change, ticks, warp,
)

from .program import needs_program, run, score_model

SCORES = 500
Loudness = Union[str, int]
LOUDNESSES: list[Loudness] = ["pp", "ff", 1, 127]
ACCENTS: list[Loudness] = ["f", "p", 17]
LENGTHS = [Fraction(over, under) for over, under in ((1, 4), (1, 8), (1, 16), (1, 12), (3, 8), (1, 2), (0, 1))] + [ticks(7)]


class Maker:
    """Random music; names of phrases are new each time."""

    def __init__(self, seed: int):
        self.random, self.names = random.Random(seed), 0

    def length(self) -> Fraction:
        return self.random.choice(LENGTHS)

    def pitches(self) -> Any:
        draw = self.random
        return draw.choice([
            Pitch(draw.randrange(12, 116)), Scale("d4", "dorian")[draw.randrange(-9, 9)],
            f"{draw.choice('cdefgab')}{draw.choice(['', 's'])}4",
            chord(draw.choice(["Am7", "C", "F#dim", "Bbmaj9"]), draw.randrange(2, 6)),
        ])

    def line(self) -> Music:
        draw = self.random
        choices: list[Callable[[], Music]] = [
            lambda: note(self.pitches(), self.length()),
            lambda: seq(note("g4", "1/4", tied=True), note("g4", self.length())),
            lambda: rest(self.length()),
            lambda: melody("c4 e4 r g4+b4 g4~ g4", [self.length() for _ in range(draw.randrange(1, 6))]),
            lambda: hits(euclid(draw.randrange(6), draw.randrange(6, 9)), drum(draw.choice(list(DRUMS))), "1/16"),
            lambda: control(draw.randrange(128), draw.randrange(128)),
            lambda: instrument(draw.choice(INSTRUMENTS)),
            lambda: bend(draw.randrange(-8192, 8192)),
        ]
        return draw.choice(choices)()

    def part(self) -> Part:
        draw = self.random
        choices: list[Callable[[], Part]] = [
            lambda: flat(draw.choice(LENGTHS[:6]), draw.randrange(1, 3000)),
            lambda: slope(draw.choice(LENGTHS[:6]), draw.randrange(1, 3000), draw.randrange(1, 3000)),
            lambda: pause(self.length()), lambda: breath(self.length()),
        ]
        return draw.choice(choices)()

    def name(self) -> str:
        self.names += 1
        return f"phrase_{self.names}"

    def music(self, depth: int) -> Music:
        draw = self.random
        if depth == 0 or draw.random() < 0.3:
            return self.line()
        inner = [self.music(depth - 1) for _ in range(draw.randrange(1, 4))]
        choices: list[Callable[[], Music]] = [
            lambda: seq(*inner), lambda: repeat(draw.randrange(4), *inner), lambda: par(*inner),
            lambda: channel(draw.randrange(16), *inner), lambda: drums(*inner),
            lambda: dynamics(draw.choice(LOUDNESSES), *inner), lambda: gate(draw.randrange(401), *inner),
            lambda: accents(ACCENTS[:draw.randrange(1, 4)], *inner),
            lambda: articulations([draw.randrange(401) for _ in range(draw.randrange(1, 5))], *inner),
            lambda: warp([self.part() for _ in range(draw.randrange(1, 5))], *inner),
            lambda: tempo(draw.randrange(30, 300), *inner),
            lambda: tempo_change(draw.randrange(30, 300), draw.randrange(30, 300), *inner),
            lambda: swing(seq(*inner), long=draw.choice([0.5, 0.6, 2 / 3, 0.75])),
            lambda: crescendo("pp", "ff", melody("c4 d4 e4 f4", "1/8"), repeat(2, self.line(), note("a4", "1/8"))),
            lambda: seq(*[phrase(self.name(), *inner)] * 2),
            lambda: phrase(self.name(), *inner).transpose(1) if depth == 1 else seq(*inner),
        ]
        return draw.choice(choices)()

    def score(self) -> Score:
        return Score(*(self.music(4) for _ in range(self.random.randrange(1, 4))), seed=self.random.randrange(10**9))


def score_of(seed: int) -> Score:
    """The random score of a seed; where it is out of a range, as a transposed drum may be, that of the next part."""
    maker = Maker(seed)
    while True:
        try:
            return maker.score()
        except ValueError:
            continue


def quantity(number: int) -> bytes:
    """A variable-length quantity of the MIDI file standard."""
    low = bytes([number & 127])
    return low if number < 128 else bytes(128 | byte & 127 for byte in quantity(number >> 7)) + low


def file_of(events: Sequence[Event], end: int) -> bytes:
    """The Standard MIDI File of events, as docs/MIDI_FILE.md says; distances are below 2^28 here."""
    track, last = bytes.fromhex("00FF510307A120"), 0
    for event in events:
        track += quantity(event.tick - last) + event.message
        last = event.tick
    track += quantity(end - last) + bytes.fromhex("FF2F00")
    return bytes.fromhex("4D546864 00000006 0000 0001 01E0 4D54726B") + len(track).to_bytes(4, "big") + track


class RandomScores(unittest.TestCase):
    def test_the_ticks_are_those_of_a_player_that_reads_the_text(self) -> None:
        for seed in range(SCORES):
            score = score_of(seed)
            events, end = score_model.played(score.text.encode())
            self.assertEqual([tuple(event) for event in score.events()],
                             [(*event[:3], bytes(event[3])) for event in events], seed)
            self.assertEqual(score.end, end, seed)

    @needs_program
    def test_the_built_program_plays_them_as_foretold(self) -> None:
        for seed in range(SCORES):
            score = score_of(seed)
            status, said, file = run(score.text)
            self.assertEqual((status, said), (0, ""), f"{seed}: {score.text}")
            self.assertEqual(file, file_of(score.events(), score.end), seed)


if __name__ == "__main__":
    unittest.main()
