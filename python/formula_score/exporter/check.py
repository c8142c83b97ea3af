"""The real times of the notes of two files, each as the program lists it."""

from __future__ import annotations

from collections import defaultdict
from fractions import Fraction
from typing import NamedTuple

from ..reading.playing import Listing
from ..reading.tempos import tempos_of


class Checked(NamedTuple):
    """How many notes there are, how many lie farther off than they may, the greatest distance, and the first of them; how
    far they may, in milliseconds too."""

    notes: int
    off: int
    most: Fraction
    first: str
    bound: Fraction


def _times(listing: Listing) -> dict[tuple[int, int, int], list[Fraction]]:
    """Of each channel and key the milliseconds of its note-ons and of its note-offs."""
    tempos = tempos_of(listing)
    found: dict[tuple[int, int, int], list[Fraction]] = defaultdict(list)
    for event in listing.events:
        kind = event.message[0] >> 4
        if kind in (8, 9):
            time = Fraction(tempos.time(event.tick), 1000 * listing.division)
            found[event.message[0] & 15, event.message[1], kind].append(time)
    return {key: sorted(several) for key, several in found.items()}


def checked(proved: Listing, written: Listing) -> Checked:
    """Whether each note of one file begins and ends within a tick of the other's, or where ticks are finer a millisecond."""
    wanted, got = _times(proved), _times(written)
    notes = off = 0
    most, first, bound = Fraction(0), "", max(Fraction(1), Fraction(500, proved.division))
    for (channel, key, kind), times in sorted(wanted.items()):
        others = got.get((channel, key, kind), [])
        notes += len(times) if kind == 9 else 0
        if len(others) != len(times):
            what = f"{len(others)} note-{'ons' if kind == 9 else 'offs'} in place of {len(times)}"
            return Checked(notes, max(len(times), len(others)), most, f"channel {channel}, key {key}: {what}", bound)
        for time, other in zip(times, others):
            distance = abs(time - other)
            most = max(most, distance)
            if distance > bound:
                off += 1
                if not first:
                    said = "begins" if kind == 9 else "ends"
                    first = (f"channel {channel}, key {key} {said} at {float(time):.1f} ms, and in this file at "
                             f"{float(other):.1f} ms")
    return Checked(notes, off, most, first, bound)
