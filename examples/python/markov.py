"""A tune that walks as the notes of another file do: which note follows which is counted there, and drawn by it."""
import pathlib
import random
import re
import sys

from formula_score import Score, channel, instrument, note, tempo

here = pathlib.Path(__file__).parent
source = sys.argv[1] if len(sys.argv) > 1 else here.parent / "tutorial" / "2_tune.score"
tune = re.findall(r"note ([a-g][sb]?[0-9]) ([0-9]+/[0-9]+)", pathlib.Path(source).read_text(encoding="utf-8"))
follows: dict[tuple[str, str], list[tuple[str, str]]] = {}
for before, behind in zip(tune, tune[1:] + tune[:1]):
    follows.setdefault(before, []).append(behind)

dice = random.Random(7)
walk = [tune[0]]
while len(walk) < 64:
    walk.append(dice.choice(follows[walk[-1]]))

score = Score(tempo(110, channel(0, instrument("clarinet"), *(note(pitch, length) for pitch, length in walk))))
