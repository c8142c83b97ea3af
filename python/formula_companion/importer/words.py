"""What a score says beside its notes: names of parts and phrases, flats and sharps, the velocity and percent of a voice."""

from __future__ import annotations

import re
from collections import Counter
from typing import Iterable, NamedTuple, Sequence

from formula_score.language.grammar import KEYWORDS
from formula_score.making.midi import DRUM_CHANNEL
from formula_score.making.spelling import name_of, outside, places_of, signature_of
from .bars import MAX_GATE, Bar, Sound
from .parts import Part

#: What holds where a score says nothing.
VELOCITY, PERCENT = 64, 90
#: Words of names that name nothing.
_EMPTY = frozenset("a an and channel ch for in instrument midi new of out part port staff the track trk untitled".split())


class Defaults(NamedTuple):
    """The velocity and the percent that hold in a voice where no other is said."""

    velocity: int
    percent: int


def defaults_of(bars: Sequence[Bar]) -> Defaults:
    """The velocity and the percent of most notes."""
    sounds = [token for bar in bars for token in bar.tokens if isinstance(token, Sound)]
    velocities = Counter(sound.velocity for sound in sounds)
    ranges = Counter((sound.low, sound.high) for sound in sounds)
    velocity, most = velocities.most_common(1)[0] if velocities else (VELOCITY, 0)
    counts = [sum(count for (low, high), count in ranges.items() if low <= each <= high) for each in range(MAX_GATE + 1)]
    percent = min(range(MAX_GATE + 1), key=lambda each: (
        -counts[each], each != PERCENT, each % 100 != 0, each % 10 != 0, each % 5 != 0, each))
    return Defaults(velocity if 3 * most >= len(sounds) else VELOCITY,
                    percent if 3 * counts[percent] >= len(sounds) else PERCENT)


class Names:
    """Names for phrases: of the part that has them first."""

    def __init__(self) -> None:
        self.taken: Counter[str] = Counter()

    def of(self, part: Part) -> str:
        """A name that no other phrase has."""
        words = [word for word in re.findall(r"[a-z]+", part.name.lower()) if word not in _EMPTY]
        if not words:
            words = ["drums"] if part.channel == DRUM_CHANNEL else re.findall(r"[a-z]+", part.instrument)
        stem = (words or ["voice"])[-1][:8]
        self.taken[stem] += 1
        name = f"{stem}_{self.taken[stem]}"
        assert name not in KEYWORDS
        return name


def said_of(part: Part) -> str:
    """What a part is called."""
    return part.name or ("drums" if part.channel == DRUM_CHANNEL else part.instrument or "voice")


def plain(name: str) -> str:
    """A name of plain characters."""
    return "".join(sign if " " <= sign <= "~" else "?" for sign in name)


# ---- flats and sharps: by the key signature of a file, else by what occurs in it

def key_of(keys: Sequence[int], signatures: Sequence[int]) -> int:
    """The sharps (above 0) or flats (below) of a piece: what its signatures say most, where its notes go with it."""
    degrees, said, best = Counter(key % 12 for key in keys), Counter(signatures), signature_of((), keys)
    usual = max(said, key=lambda sharps: (said[sharps], sharps != 0), default=best)
    goes = usual or len(keys) - outside(0, degrees) >= 0.9 * (len(keys) - outside(best, degrees))
    return usual if goes and abs(usual) <= 6 else best


def names_of(sharps: int, keys: Iterable[int]) -> tuple[str, ...]:
    """The names of the 128 keys."""
    places = places_of(sharps, frozenset(key % 12 for key in keys))
    return tuple(name_of(key, places[key % 12]) for key in range(128))
