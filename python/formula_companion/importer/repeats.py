"""What comes again in sequences of bars: at once, which is a loop, or later, which is a phrase."""

from __future__ import annotations

from collections import defaultdict
from typing import Optional, Sequence

#: How many bars may make a phrase, the longest first, and how many at most a round of a loop.
_RUNS = (64, 48, 32, 24, 16, 12, 8, 6, 4, 3, 2, 1)
_LONGEST_ROUND = 16
#: About how many characters a loop costs, a call of a phrase, and its head; and how many have to be saved, since a name
#: more is a thing more to remember.
_LOOP, _CALL, _HEAD, _WORTH = 16, 16, 30, 100


class Numbers:
    """Bars by their numbers, with further numbers for loops and phrases of them; none where it is flat."""

    def __init__(self, sizes: Sequence[int], is_flat: bool):
        self.bars = len(sizes)
        self.sizes = list(sizes)
        self.loops: dict[int, tuple[int, int]] = {}  # of each loop its rounds, and the row of its body
        self.phrases: dict[int, int] = {}            # of each phrase the row of its body
        self.rows: list[list[int]] = []
        self._is_flat = is_flat
        self._known: dict[tuple[int, tuple[int, ...]], int] = {}

    def flat(self, number: int) -> list[int]:
        """The bars of a number as they are played."""
        if number in self.loops:
            times, row = self.loops[number]
            return times * self.flat_row(row)
        return self.flat_row(self.phrases[number]) if number in self.phrases else [number]

    def flat_row(self, row: int) -> list[int]:
        """The bars of a row as they are played."""
        return [bar for number in self.rows[row] for bar in self.flat(number)]

    def add(self, bars: Sequence[int]) -> int:
        """A row for a sequence of bars, with loops; the row's number."""
        row = len(self.rows)
        self.rows.append([])
        self.rows[row] = list(bars) if self._is_flat else self._looped(list(bars))
        return row

    def _text(self, run: Sequence[int]) -> int:
        return sum(self.sizes[number] for number in run)

    def _looped(self, bars: list[int]) -> list[int]:
        found: list[int] = []
        at = 0
        while at < len(bars):
            best: Optional[tuple[int, int]] = None
            gain = 0
            for width in range(1, min(_LONGEST_ROUND, (len(bars) - at) // 2) + 1):
                body = bars[at:at + width]
                own = self._text(body)
                if not own or body != bars[at + width:at + 2 * width]:
                    continue
                end = at + 2 * width
                while end < len(bars) and bars[end] == bars[end - width]:
                    end += 1
                times = (end - at) // width
                saved = (times - 1) * own - _LOOP
                if saved > gain:
                    gain, best = saved, (width, times)
            if best is None:
                found.append(bars[at])
                at += 1
                continue
            width, times = best
            key = times, tuple(bars[at:at + width])
            if key not in self._known:
                row = self.add(key[1])
                self._known[key] = len(self.sizes)
                self.loops[len(self.sizes)] = times, row
                self.sizes.append(self._text(self.rows[row]) + _LOOP)
            found.append(self._known[key])
            at += width * times
        return found

    def name_runs(self) -> None:
        """Gives numbers to runs that come again, where the text is shorter so."""
        for width in () if self._is_flat else _RUNS:
            self._name(width)

    def _name(self, width: int) -> None:
        places: dict[tuple[int, ...], list[tuple[int, int]]] = defaultdict(list)
        for row, part in enumerate(self.rows):
            for at in range(len(part) - width + 1):
                found = places[tuple(part[at:at + width])]
                if not found or found[-1][0] != row or found[-1][1] + width <= at:
                    found.append((row, at))
        gains = []
        for run, found in places.items():
            is_whole = len(found) > 1 and not (width == 1 and run[0] in self.phrases)
            if is_whole and self._gain(run, len(found)) > _WORTH:
                gains.append((-self._gain(run, len(found)), found, run))
        gains.sort()
        used: set[tuple[int, int]] = set()
        taken: dict[int, dict[int, int]] = defaultdict(dict)  # of each row, where a run begins, and its number
        for _, found, run in gains:
            free = [(row, at) for row, at in found if all((row, at + offset) not in used for offset in range(width))]
            if self._gain(run, len(free)) <= _WORTH:
                continue
            for row, at in free:
                used.update((row, at + offset) for offset in range(width))
                taken[row][at] = len(self.sizes)
            self.phrases[len(self.sizes)] = len(self.rows)
            self.sizes.append(_CALL)
            self.rows.append(list(run))
        for row, begins in taken.items():
            part, at, new = self.rows[row], 0, []
            while at < len(part):
                new.append(begins.get(at, part[at]))
                at += width if at in begins else 1
            self.rows[row] = new

    def _gain(self, run: Sequence[int], times: int) -> int:
        """How much a phrase of a run saves; one of a loop alone is none."""
        if times < 2 or len(run) == 1 and run[0] in self.loops:
            return 0
        return (self._text(run) - _CALL) * (times - 1) - _CALL - _HEAD
