"""A piano roll of a score, a MIDI file or a listing."""

from __future__ import annotations

import argparse
import os
import tempfile
from typing import Optional

from ..reading.meter import Meter
from ..reading.playing import Failed, Listing, listed, listing_of_file, needs, run as play
from ..reading.reader import read
from ..reading.ticks import spots_of, ticks_of
from ..reading.tree import Reading
from ..reading.walk import Played
from .drawing import Rule, bars, drawn, piece_of, quarters


def _is_score(data: bytes) -> bool:
    return data[:4] != b"MThd" and not data.startswith(b"format ")


def listing_at(path: str, data: bytes) -> Listing:
    """The listing of a file, of what a score plays, or of one that is given."""
    if data.startswith(b"format "):
        try:
            return listed(data.decode("ascii").splitlines())
        except ValueError:
            raise Failed(1, f"{path!r} is no listing of a MIDI file") from None
    if data[:4] == b"MThd" or data[:4] == b"RIFF":
        return listing_of_file(path, 1)
    with tempfile.TemporaryDirectory() as folder:
        target = os.path.join(folder, "out.mid")
        needs(play(path, target, text=data))
        return listing_of_file(target)


def reading_of(data: bytes) -> Optional[Reading]:
    """The reading of a score; None of what is none."""
    return read(data) if _is_score(data) else None


def picture(listing: Listing, reading: Optional[Reading], options: argparse.Namespace) -> str:
    """A picture as text, with the bars that the options --meter and --upbeat ask for."""
    if listing.division == 0:
        raise Failed(1, "with a division of 0 there are no quarter notes to draw")
    if not options.meter:
        return "\n".join(drawn(piece_of(listing, quarters(listing), "quarter"))) + "\n"
    meter = Meter(options.meter, options.upbeat, 4 * listing.division)
    rules = bars(meter, listing.end) if reading is None else _score_bars(reading, meter)
    return "\n".join(drawn(piece_of(listing, rules, "bar"))) + "\n"


def _score_bars(reading: Reading, meter: Meter) -> list[Rule]:
    """The bars of a score at the ticks at which they are played, of the first process that plays there."""
    walk = Played(reading)
    walk.run()
    last = walk.ended[len(walk.begun) - 1]
    written = bars(meter, last.written)
    spots = spots_of(walk, [rule.tick for rule in written])
    known = [(rule, spot) for rule, spot in zip(written, spots) if spot is not None]
    ticks = ticks_of(reading, [spot for _, spot in known])
    return [Rule(tick, rule.label) for tick, (rule, _) in zip(ticks, known)]
