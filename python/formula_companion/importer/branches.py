"""The branches of a score: voices in bars, with what holds in each where nothing else is said."""

from __future__ import annotations

from collections import Counter
from typing import Callable, NamedTuple, Optional, Sequence

from formula_score.making.midi import DRUM_CHANNEL
from .bars import Bar, Said, Silence, Sound, Token
from .parts import Part
from .statements import Words
from .words import Defaults, defaults_of, key_of, names_of, said_of

#: The velocity of a note whose bar says it.
UNSAID = -1


class Voiced(NamedTuple):
    """A voice of a part in bars; or messages alone, beside its voices."""

    part: Part
    is_words: bool
    bars: list[Bar]


class Branch(NamedTuple):
    """A voice of a part: its name, the messages before its first statement that takes time, its bars, of each bar the
    velocity of its notes where they are equally loud and then leave it unsaid, what else holds, and how it is written."""

    part: Part
    name: str
    first: tuple[Said, ...]
    bars: list[Bar]
    levels: list[int]
    defaults: Defaults
    words: Words

    @property
    def has_notes(self) -> bool:
        """Whether it has a note."""
        return any(isinstance(token, Sound) for bar in self.bars for token in bar.tokens)


def words_of(voices: Sequence[Voiced], length: Callable[[int], str], signatures: Sequence[int]) -> dict[bool, Words]:
    """How lengths and keys are written: those of drums as tables of drums have them."""
    keys: dict[bool, list[int]] = {False: [], True: []}
    for voice in voices:
        own = keys[voice.part.channel == DRUM_CHANNEL]
        own += [key for bar in voice.bars for token in bar.tokens if isinstance(token, Sound) for key in token.keys]
    return {False: Words(length, names_of(key_of(keys[False], signatures), keys[False])),
            True: Words(length, names_of(2, keys[True]))}


def branches_of(voices: Sequence[Voiced], words: dict[bool, Words]) -> list[Branch]:
    """The branches; how drums are written, and other notes."""
    sounding = Counter(id(voice.part) for voice in voices if not voice.is_words)
    numbers: Counter[int] = Counter()
    found = []
    for voice in voices:
        name, several = said_of(voice.part), sounding[id(voice.part)]
        numbers[id(voice.part)] += not voice.is_words
        if voice.is_words and several:
            name += ", controls"
        elif several > 1:
            name += f", voice {numbers[id(voice.part)]}"
        defaults = defaults_of(voice.bars)
        bars = _with_few_gates(voice.bars, defaults.percent)
        first, bars = ((), bars) if voice.is_words and several else _without_first(bars)
        found.append(Branch(voice.part, name, first, *_leveled(bars, defaults.velocity), defaults,
                            words[voice.part.channel == DRUM_CHANNEL]))
    return found


def _with_few_gates(bars: Sequence[Bar], default: int) -> list[Bar]:
    """The bars with one percent for each note: as few different ones as end all notes in time, the default first."""
    ranges = Counter((token.low, token.high) for bar in bars for token in bar.tokens if isinstance(token, Sound))
    chosen: dict[tuple[int, int], int] = {}
    percent = default
    while ranges:
        for limits in [limits for limits in ranges if limits[0] <= percent <= limits[1]]:
            chosen[limits] = percent
            del ranges[limits]
        counts: Counter[int] = Counter()
        for (low, high), count in ranges.items():
            for each in range(low, high + 1):
                counts[each] += count
        percent = max(counts, key=lambda each: (counts[each], each % 10 == 0, each % 5 == 0, each), default=0)

    def chosen_of(token: Token) -> Token:
        if not isinstance(token, Sound):
            return token
        percent = chosen[token.low, token.high]
        return token._replace(low=percent, high=percent)

    return [bar._replace(tokens=tuple(map(chosen_of, bar.tokens))) for bar in bars]


def _without_first(bars: list[Bar]) -> tuple[tuple[Said, ...], list[Bar]]:
    """The messages before the first note or rest, and the bars without them."""
    if not bars:
        return (), bars
    tokens = bars[0].tokens
    count = next((at for at, token in enumerate(tokens) if not isinstance(token, Said)), len(tokens))
    first = tuple(token for token in tokens[:count] if isinstance(token, Said))
    return first, [bars[0]._replace(tokens=tokens[count:]), *bars[1:]]


def without_velocity(tokens: Sequence[Token]) -> tuple[Token, ...]:
    """The tokens, whose notes leave their velocity unsaid."""
    return tuple(token._replace(velocity=UNSAID) if isinstance(token, Sound) else token for token in tokens)


def _leveled(bars: Sequence[Bar], default: int) -> tuple[list[Bar], list[int]]:
    """The bars, and of each one its level: the velocity of all its notes, else the default. A bar of silence has the level
    of its neighbours, where they have one."""
    found: list[Bar] = []
    wanted: list[Optional[int]] = []
    for bar in bars:
        velocities = {token.velocity for token in bar.tokens if isinstance(token, Sound)}
        if len(velocities) == 1:
            bar = bar._replace(tokens=without_velocity(bar.tokens))
        found.append(bar)
        wanted.append(None if not velocities else velocities.pop() if len(velocities) == 1 else default)
    following: list[int] = []
    after = default
    for level in reversed(wanted):
        after = after if level is None else level
        following.append(after)
    levels: list[int] = []
    last = default
    for level, after in zip(wanted, reversed(following)):
        last = (last if after == last else default) if level is None else level
        levels.append(last)
    return found, levels


def rest_of(tokens: Sequence[Token]) -> Optional[Silence]:
    """The rest that alone takes the time of a bar, and ends it."""
    timed = [token for token in tokens if not isinstance(token, Said)]
    return timed[0] if len(timed) == 1 and isinstance(timed[0], Silence) and tokens[-1] is timed[0] else None
