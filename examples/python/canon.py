"""A canon at any interval and tempo: canon.py -- 7 3/2 is a fifth higher and half as fast again. All end together."""
import sys
from fractions import Fraction

from formula_score import Score, channel, instrument, melody, par, rest, seq, tempo

interval = int(sys.argv[1]) if len(sys.argv) > 1 else 7
faster = Fraction(sys.argv[2]) if len(sys.argv) > 2 else Fraction(3, 2)

PITCHES = "d4 f4 a4 g4 f4 e4 d4 cs4 d4 a3"
LENGTHS = [Fraction(length) for length in "1/4 1/4 1/4 1/8 1/8 1/4 1/4 1/4 1/4 1/2".split()]


def voice(times, by, speed):
    """The theme so often, moved by semitones, at a speed."""
    return times * melody(PITCHES, [length / speed for length in LENGTHS]).transpose(by)


whole = 3 * sum(LENGTHS)
second = 2 * sum(LENGTHS) / faster
score = Score(tempo(96, par(
    channel(0, instrument("oboe"), voice(3, 0, 1)),
    channel(1, instrument("cello"), seq(rest(whole - second), voice(2, interval - 12, faster)))
)), version=2, division=960)
