"""Rhythms by Euclid: each drum spreads its hits as evenly as its steps let it, and they meet after 4 bars."""
from formula_score import Score, channel, drum, drums, dynamics, euclid, hits, instrument, melody, par, tempo

#: of each drum its hits, its steps and its loudness
RHYTHMS = (("bass drum", 4, 16, "f"), ("snare", 5, 16, "mf"), ("closed hi-hat", 11, 16, "p"),
           ("low conga", 7, 16, "mf"))

voices = [drums(dynamics(loud, 8 * hits(euclid(count, steps), drum(name), "1/16")))
          for name, count, steps, loud in RHYTHMS]
bass = channel(1, instrument("acoustic bass"), 4 * melody("d2 d2 a2 c3 r d2 f2 e2", "3/16 3/16 1/8"))
score = Score(tempo(112, par(*voices, bass)))
