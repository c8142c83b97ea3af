"""Volumes and gates round the notes of some bars: a block where one value does for all, a list where each of a few
notes has its own; a list is played in whole rounds and ends with its bar, or its bars are all alike.

What a passage needs is a range for each of its sounds: the velocity, which is a range of one, or the percents with
which it sounds as long as it has to.
"""

from __future__ import annotations

from typing import Iterator, NamedTuple, Sequence

#: About how many characters a block costs, and a list beside its entries.
_BLOCK, _LIST = 15, 13
#: A list of more entries than this is no easier to read than blocks.
MOST_ENTRIES = 16
#: A list of so many entries goes on in the next bar, where that has the same.
_EASY_PERIOD = 8
#: So many entries that only rise or only fall are taken for a crescendo, which does not start again.
_CRESCENDO = 5

#: Of each statement the ranges of its sounds.
Ranges = Sequence[Sequence[tuple[int, int]]]


class Passage(NamedTuple):
    """From a statement to before another: nothing round it, or a block with one value or a list of them; and the range of
    what else its one value may be."""

    begin: int
    end: int
    values: tuple[int, ...]
    wide: tuple[int, int] = (0, 400)


def best_percent(low: int, high: int, default: int) -> int:
    """The percent of a range that is easiest to read."""
    if low <= default <= high:
        return default
    for step in (100, 50, 25, 10, 5):
        first = -(-low // step) * step
        if first <= high:
            return first
    return low


def common(ranges: Ranges) -> tuple[int, int]:
    """The range of what all sounds may have; there is none where its end is before its beginning."""
    wanted = [limits for each in ranges for limits in each]
    return max((low for low, _ in wanted), default=0), min((high for _, high in wanted), default=400)


def spread(ranges: Ranges, default: int) -> tuple[int, ...]:
    """A value for each sound."""
    return tuple(best_percent(*limits, default) for each in ranges for limits in each)


def whole_rounds(values: tuple[int, ...]) -> tuple[int, ...]:
    """The first of the values, where they go round in whole rounds; else all."""
    count = len(values)
    for length in range(1, count // 2 + 1):
        if count % length == 0 and values == values[:length] * (count // length):
            return values if _is_crescendo(values[:length]) else values[:length]
    return values


def _is_crescendo(values: tuple[int, ...]) -> bool:
    """Whether a list reads as one that is not meant to start again."""
    steps = [later - earlier for earlier, later in zip(values, values[1:])]
    return len(values) >= _CRESCENDO and any(steps) and (all(step >= 0 for step in steps) or all(step <= 0 for step in steps))


def levels(ranges: Ranges, default: int, marks: Sequence[int]) -> list[Passage]:
    """How the values are said; `marks` are the statements at which bars begin, and no part of any bar."""
    edges = sorted({0, *marks, len(ranges)})
    found: list[Passage] = []
    for begin, end in zip(edges, edges[1:]):
        for passage in _bar(ranges[begin:end], default):
            own = ranges[begin + passage.begin:begin + passage.end]
            level = Passage(begin + passage.begin, begin + passage.end, passage.values, common(own))
            found[-1:] = _joined(found[-1], level, default, not any(map(len, own))) if found else [level]
    return found


def _bar(ranges: Ranges, default: int) -> Iterator[Passage]:
    """The passages of a bar."""
    if all(low <= default <= high for each in ranges for low, high in each):
        yield Passage(0, len(ranges), ())
        return
    low, high = common(ranges)
    if low <= high:
        yield Passage(0, len(ranges), (best_percent(low, high, default),))
        return
    runs = _runs(ranges, default)
    values = whole_rounds(spread(ranges, default))
    if runs and sum(_BLOCK * bool(run.values) for run in runs) <= _LIST + sum(len(str(value)) + 2 for value in values):
        yield from runs
        return
    at = 0
    while at < len(ranges):
        begin, taken = at, 0
        while at < len(ranges) and (taken + len(ranges[at]) <= MOST_ENTRIES or at == begin or len(values) <= MOST_ENTRIES):
            taken += len(ranges[at])
            at += 1
        yield Passage(begin, at, whole_rounds(spread(ranges[begin:at], default)))


def _runs(ranges: Ranges, default: int) -> list[Passage]:
    """Passages that have one value each, the default where it may be; none where a statement needs several values."""
    runs: list[Passage] = []
    for at, wanted in enumerate(ranges):
        low, high = common([wanted])
        if low > high:
            return []
        if wanted and low <= default <= high:
            low, high = default, default
        both = (max(low, runs[-1].wide[0]), min(high, runs[-1].wide[1])) if runs else (1, 0)
        if both[0] <= both[1]:
            runs[-1] = runs[-1]._replace(end=at + 1, wide=both)
        else:
            runs.append(Passage(at, at + 1, (), (low, high)))
    return [run if run.wide[0] <= default <= run.wide[1] else run._replace(values=(best_percent(*run.wide, default),))
            for run in runs]


def _joined(old: Passage, new: Passage, default: int, is_silent: bool) -> list[Passage]:
    """Two passages that follow one another, or one where the first goes on."""
    if len(old.values) == len(new.values) == 1 and not is_silent:
        low, high = max(old.wide[0], new.wide[0]), min(old.wide[1], new.wide[1])
        value = best_percent(low, high, default)
        return [old, new] if low > high else [Passage(old.begin, new.end, (value,), (low, high))]
    is_list = 1 < len(old.values) <= _EASY_PERIOD and old.values == new.values and not _is_crescendo(old.values)
    return [old._replace(end=new.end)] if is_silent or old.values == new.values == () or is_list else [old, new]
