"""A voice as bars: what stands between two bar lines is spelled by itself wherever notes allow, so that equal bars
are equal texts. A note that sounds over a bar line joins the bars round it."""

from __future__ import annotations

from bisect import bisect_right
from typing import NamedTuple, Optional, Sequence, Union

from .parts import Meter, Piece

MAX_GATE = 400
MAX_LENGTH = 1_000_000
_MOST_BARS = 100_000


class Sound(NamedTuple):
    """A note or chord: its keys, its length, the percents with which it sounds as long as it has to, its velocity."""

    keys: tuple[int, ...]
    length: int
    low: int
    high: int
    velocity: int


class Silence(NamedTuple):
    """A rest."""

    length: int


class Said(NamedTuple):
    """A message."""

    status: int
    data: bytes


Token = Union[Sound, Silence, Said]


class Bar(NamedTuple):
    """What stands from a bar line to a later one: the first bar's number from 1, how many bars, and the tokens."""

    number: int
    bars: int
    tokens: tuple[Token, ...]


def percents(length: int, least: int, most: int) -> Optional[tuple[int, int]]:
    """The least and the greatest percent of a length that, rounded down, is from `least` to `most` ticks."""
    if length <= 0:
        return (0, MAX_GATE) if least <= 0 <= most else None
    low, high = max(0, -(-100 * least // length)), min(MAX_GATE, (100 * (most + 1) - 1) // length)
    return (low, high) if low <= high else None


def bar_lines(piece: Piece) -> list[int]:
    """The ticks at which bars begin, by the time signatures, else by 4/4; the last one is not before the end. A piece
    of very many bars is taken as one."""
    whole = 4 * piece.division * piece.longer
    meters = [meter for meter in piece.meters if whole * meter.over >= meter.under]
    if not meters or meters[0].tick > 0:
        meters.insert(0, Meter(0, 4, 4))
    lines: list[int] = []
    for meter, following in zip(meters, [*meters[1:], None]):
        until = piece.end if following is None else following.tick
        tick, length = meter.tick, max(1, whole * meter.over // meter.under)
        if (until - tick) // length > _MOST_BARS:
            return [0, piece.end]
        while tick < until:
            lines.append(tick)
            tick += length
        if following is None:
            lines.append(max(tick, piece.end))
    return lines or [0]


class Line:
    """A voice that is spelled from left to right."""

    def __init__(self, lines: Sequence[int], end: int):
        self.lines, self.end = lines, end
        self.at = 0
        self.tokens: list[tuple[int, Token]] = []

    def line_behind(self, tick: int) -> int:
        """The first bar line behind a tick; one far away, where there is none."""
        place = bisect_right(self.lines, tick)
        return self.lines[place] if place < len(self.lines) else max(self.end, tick + MAX_LENGTH)

    def add(self, token: Token, length: int = 0) -> None:
        """A statement at the present place, and on by its length."""
        self.tokens.append((self.at, token))
        self.at += length

    def rest_until(self, tick: int) -> None:
        """Rests, one for each bar."""
        while self.at < tick:
            length = min(tick, self.line_behind(self.at), self.at + MAX_LENGTH) - self.at
            self.add(Silence(length), length)

    def bars(self) -> list[Bar]:
        """The tokens in bars: a new one begins where a statement begins on a bar line."""
        starts = {line: number for number, line in enumerate(self.lines, 1)}
        bars: list[tuple[int, list[Token]]] = []
        last = -1
        for tick, token in self.tokens:
            if not bars or tick in starts and tick != last:
                bars.append((starts.get(tick, 1), []))
                last = tick
            bars[-1][1].append(token)
        numbers = [number for number, _ in bars] + [len(self.lines)]
        return [Bar(number, max(1, numbers[at + 1] - number), tuple(found)) for at, (number, found) in enumerate(bars)]
