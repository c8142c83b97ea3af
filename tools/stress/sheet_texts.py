"""The texts of which other programs play and draw the notation: our own, random ones, and imports of Debian's files."""

from __future__ import annotations

import random
from fractions import Fraction
from typing import Iterator, NamedTuple

import foreign
import harness

METERS = "4/4", "3/4", "6/8", "5/8", "2/2", "12/8", "7/16", "4/4,3:3/4,5:9/8"


class Text(NamedTuple):
    """A score: what it is called, its bytes, its meter, and whether abcm2ps has to draw it without a warning."""

    name: str
    text: bytes
    meter: str = "4/4"
    is_plain: bool = False


def own_texts() -> Iterator[Text]:
    """The examples and the steps of the tutorial."""
    for path in [*sorted(harness.EXAMPLES.glob("scores/*.score")), *sorted(harness.EXAMPLES.glob("tutorial/*.score"))]:
        if path.stem != "long_rests":
            yield Text(path.stem, path.read_bytes(), is_plain=True)


def random_text(seed: int) -> Text:
    """A score of 16 bars on three channels: halves, thirds, fifths, sevenths, chords, rests and ties; and its meter."""
    drawn = random.Random(seed)
    lines = ["formula 2; division 840;", "par {"]
    for channel in range(3):
        for voice in range(drawn.choice([1, 1, 2])):
            notes = " ".join(_voice(drawn, [3] if voice else [4, 5]))
            lines.append(f"branch {{ channel {channel} {{ {notes} }} }}")
    return Text(f"random {seed}", ("\n".join([*lines, "}"]) + "\n").encode(), drawn.choice(METERS))


def _divided(drawn: random.Random, length: Fraction, depth: int) -> list[Fraction]:
    if depth == 0 or drawn.random() < 0.35:
        return [length]
    if Fraction(1, 8) <= length <= Fraction(1, 2) and drawn.random() < 0.3:
        parts = drawn.choice([3, 3, 3, 5, 7])
        several = [length / parts] * parts
        if drawn.random() < 0.6:
            return several
        joined: list[Fraction] = []
        for part in several:
            if joined and drawn.random() < 0.35:
                joined[-1] += part
            else:
                joined.append(part)
        return joined
    return _divided(drawn, length / 2, depth - 1) + _divided(drawn, length / 2, depth - 1)


def _voice(drawn: random.Random, octaves: list[int]) -> Iterator[str]:
    lengths: list[Fraction] = []
    for length in (one for _ in range(16) for one in _divided(drawn, Fraction(1), 4)):
        is_plain = lengths and all(each.denominator & (each.denominator - 1) == 0 for each in (lengths[-1], length))
        if is_plain and drawn.random() < 0.12:
            lengths[-1] += length
        else:
            lengths.append(length)
    for length in lengths:
        said = f"{length.numerator}/{length.denominator}"
        if drawn.random() < 0.15:
            yield f"rest {said};"
        else:
            names = {drawn.choice("cdefgab") + drawn.choice(["", "", "", "", "s", "b"]) + str(drawn.choice(octaves))
                     for _ in range(drawn.choice([1, 1, 1, 2, 3]))}
            yield f"note {', '.join(sorted(names))} {said};"


def imports(count: int) -> Iterator[Text]:
    """Scores of Debian's MIDI files."""
    for file in foreign.some(2 * count):
        status, _, text = foreign.imported(file.data)
        if status == 0 and count and len(text) < 60_000:
            count -= 1
            yield Text(f"{file.package} {file.name}", text.encode())
