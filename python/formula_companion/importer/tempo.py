"""The tempo of a file as a shape that a `warp` round the piece plays."""

from __future__ import annotations

from typing import Callable, NamedTuple, Sequence

from formula_score.reading.tempos import TempoMap
from .bars import MAX_LENGTH
from .layout import wrapped
from .parts import Piece

#: The last part of a shape, and any other, is at most so many whole notes long.
_LONGEST = 500
_MOST_PARTS, _MOST_READ = 256, 64


class Tempo(NamedTuple):
    """Lengths with their stretches in thousandths, and what is told of them."""

    parts: tuple[tuple[int, int], ...] = ()
    said: str = ""


def tempo_of(piece: Piece, lines: Sequence[int], step: int) -> Tempo:
    """The tempo: each change of the file, or where they are too many the mean of each bar or of some bars. A step inside
    which the tempo changes has its mean."""
    whole = TempoMap((change for change in piece.tempos if change[0] < piece.end or not piece.end), piece.division)

    def means(edges: Sequence[int]) -> list[tuple[int, int]]:
        return [(begin, round((whole.time(end) - whole.time(begin)) / (end - begin)))
                for begin, end in zip(edges, edges[1:]) if end > begin]

    if len(whole.changes) <= _MOST_READ:
        edges = sorted({tick + by for tick in whole.ticks for by in (-(tick % step), -tick % step)})
        return Tempo(_parts([*means(edges), (edges[-1], whole.changes[-1][1])], piece))
    said = f"{len(whole.changes) - 1:,} changes of tempo are"
    for bars in (1, 2, 4, 8, 16, 64, 256, 1024):
        found = means([*lines[:-1:bars], lines[-1]] if len(lines) > 1 else [0, piece.end])
        if len(found) <= _MOST_PARTS:
            return Tempo(_parts(found, piece), f"{said} the mean of each {'bar' if bars == 1 else f'{bars} bars'}")
    return Tempo((), f"{said} left out")


def _parts(changes: Sequence[tuple[int, int]], piece: Piece) -> tuple[tuple[int, int], ...]:
    """The lengths with their stretches: the last one is long, so that bars can be added; none where all is as written."""
    parts: list[tuple[int, int]] = []
    whole = 4 * piece.division
    longest = min(_LONGEST, MAX_LENGTH // whole) * whole
    for (tick, tempo), following in zip(changes, [*changes[1:], None]):
        by = max(1, min(1_000_000, round(tempo / (500 * piece.longer))))
        if following is None:
            if parts and parts[-1][1] == by:
                parts.pop()
            parts.append((longest, by))
            continue
        length = following[0] - tick
        if parts and parts[-1][1] == by and parts[-1][0] + length <= longest:
            parts[-1] = parts[-1][0] + length, by
        else:
            parts += [(longest, by)] * ((length - 1) // longest)
            parts.append((length - (length - 1) // longest * longest, by))
    while piece.end > sum(length for length, _ in parts):
        parts.append((longest, parts[-1][1]))
    return tuple(parts) if any(by != 1000 for _, by in parts) else ()


def lines_of(tempo: Tempo, length: Callable[[int], str]) -> list[str]:
    """The lines of the shape; none where there is none."""
    parts = [f"flat {length(ticks)} by {by}" for ticks, by in tempo.parts]
    return wrapped(["shape tempo =", *(f"{part}," for part in parts[:-1]), f"{parts[-1]};"]) if parts else []
