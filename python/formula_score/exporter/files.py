"""The file of a score for notation programs, with a tempo map, a meter and names."""

from __future__ import annotations

from fractions import Fraction
from typing import Iterator

from ..reading.branches import Titles
from ..reading.meter import Meter
from ..reading.midi_file import Timed, file_of, text
from ..reading.playing import Failed
from ..reading.walk import Played
from .axis import Axis
from .grid import Grid
from .tracks import Staff


#: The suffixes of files that are written.
SUFFIXES = ".mid", ".midi"


def made(grid: Grid, tracks: list[Staff], meter: Meter, titles: Titles = Titles()) -> bytes:
    """The file of staves on a grid."""
    tick_of = {id(event): tick for tick, event in grid.events}
    first = [*_said(titles), *_signatures(grid, meter), *((tick, b"\xff\x51\x03" + tempo.to_bytes(3, "big"))
                                                         for tick, tempo in grid.tempos)]
    found: list[list[Timed]] = [sorted(first, key=lambda event: event[0])]
    for staff in tracks:
        events: list[Timed] = [(0, text(3, staff.name.encode("utf-8")))]
        if staff.instrument:
            events.append((0, text(4, staff.instrument.encode())))
        timed = sorted(((tick_of[id(event)], event) for event in staff.events), key=lambda pair: (pair[0], pair[1][:3]))
        found.append([*events, *((tick, event.message) for tick, event in timed)])
    return file_of(grid.division, found, grid.end)


def _said(titles: Titles) -> Iterator[Timed]:
    """What is said of the whole: the name of the first track is that of the piece."""
    if titles.title:
        yield 0, text(3, titles.title.encode("utf-8"))
    if titles.composer:
        yield 0, text(1, f"composer: {titles.composer}".encode("utf-8"))


def _signatures(grid: Grid, meter: Meter) -> Iterator[Timed]:
    """The time signatures, where they change; an upbeat is a bar of its own."""
    times = grid.division * 4 // meter.whole
    said, bar = "", 0 if meter.upbeat else 1
    if grid.lead:
        yield 0, _signature(*meter.signature(1))
    while bar == 0 or bar == 1 or times * meter.start(bar) + grid.lead < grid.end:
        beats, unit = meter.signature(bar)
        if bar == 0:
            part = Fraction(meter.upbeat, meter.whole)
            beats, unit = part.numerator * max(1, unit // part.denominator), max(unit, part.denominator)
        if f"{beats}/{unit}" != said:
            said = f"{beats}/{unit}"
            yield times * meter.start(bar) + grid.lead, _signature(beats, unit)
        if bar > 0 and len(meter.groups) == 1 and len(meter.groups[0].signatures) == 1:
            break
        bar += 1


def _signature(beats: int, unit: int) -> bytes:
    """A time signature; its unit is a power of two."""
    power = unit.bit_length() - 1
    if unit != 2 ** power or not 0 < beats < 256:
        raise Failed(1, f"a MIDI file has no time signature {beats}/{unit}")
    return bytes([0xFF, 0x58, 4, beats, power, 24, 8])


def drifts(walk: Played) -> Iterator[str]:
    """How far tempos in thousandths lead away from those of whole quarter notes a minute."""
    lengths: dict[int, int] = {}
    for begin, end, stretch in Axis(walk).stretches():
        if stretch.kind == "flat":
            lengths[stretch.first] = lengths.get(stretch.first, 0) + end - begin
    for by, length in lengths.items():
        wanted = round(Fraction(120_000, by))
        if wanted and round(Fraction(120_000, wanted)) == by and wanted * by != 120_000:
            early = (Fraction(120_000, wanted) - by) * length / 1000 * 500 / walk.reading.division
            part = Fraction(length, walk.reading.whole)
            how = f"{abs(float(early)):.0f} ms {'early' if early > 0 else 'late'} against {wanted}"
            yield (f"by {by} is {120_000 / by:.2f} quarter notes a minute: over its "
                   f"{part.numerator}/{part.denominator} it comes {how}")
