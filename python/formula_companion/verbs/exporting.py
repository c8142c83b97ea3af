"""The verb `export`: a score for notation programs, as MusicXML or ABC, or as a MIDI file with a tempo map and names."""

from __future__ import annotations

import argparse

from formula_score.exporter.check import checked
from formula_score.exporter.files import SUFFIXES, drifts, made
from formula_score.exporter.grid import grid_of
from formula_score.exporter.tracks import staves
from formula_score.notation.files import WRITERS, written
from formula_score.reading.branches import Titles, titles_of
from formula_score.reading.meter import Meter
from formula_score.reading.midi_file import save
from formula_score.reading.playing import counted, judge, listing_of, listing_of_file, must_differ, must_end_in
from formula_score.reading.ticks import agreed
from formula_score.reading.walk import Played
from .options import meter_arguments, title_arguments


def arguments(parser: argparse.ArgumentParser) -> None:
    """What the verb takes."""
    parser.add_argument("score", metavar="SCORE", help="the text of a score")
    parser.add_argument("out", metavar="OUT", help=f"the file that is written: {', '.join(WRITERS)}, or a MIDI file, "
                        f"{', '.join(SUFFIXES)}")
    title_arguments(parser)
    meter_arguments(parser)
    parser.description = f"""{parser.description}

MusicXML and ABC have the score as written: the notes before each deformation, with measures, ties, tuplets, voices, names
and spelling. The `warp` that stands outside all others is printed as tempo marks, `rit.` and `accel.`, fermatas and breath
marks. What notation does not say is played as written, moved or left out, and counted in the line that is printed.

A MIDI file has format 1, a track for each branch and channel with the name of the branch, which is a comment above it or
the first phrase in it (`soprano` for `soprano_1`), the time signatures, and the notes where they are written. The `warp`
that stands outside all others becomes the tempo of the file: a `flat` is one mark, a slope some. Those further in stay in
the places of the notes. Where outermost warps are played side by side, the one with most notes makes the tempo. One that
no tempo is slow enough for, or that holds too near to another note, stays in the places of its notes.

Each file is made by the companion, outside the proof, and says so. What it is made of is compared with the program's file
first. The notes of a MIDI file are then compared once more: each begins and ends within a tick of the program's, or where
ticks are finer a millisecond, or is told and counted, with status 1."""


def run(options: argparse.Namespace) -> int:
    """Writes OUT, and tells what it has and how it compares."""
    suffix = must_end_in(options.out, [*SUFFIXES, *WRITERS])
    must_differ(options.score, options.out)
    text = judge(options.score)
    walk = agreed(text)
    meter = Meter(options.meter, options.upbeat, walk.reading.whole)
    titles = titles_of(walk.reading, options.title, options.composer)
    if suffix in SUFFIXES:
        return _midi(options.out, text, walk, meter, titles)
    print(written(walk, meter, titles, options.out, options.score))
    return 0


def _midi(out: str, played: bytes, walk: Played, meter: Meter, titles: Titles) -> int:
    grid = grid_of(walk, meter)
    tracks = staves(walk, [event for _, event in grid.events])
    save(out, made(grid, tracks, meter, titles))
    print(f"{out}: {counted(len(tracks), 'track')} ({'; '.join(staff.name for staff in tracks)}), meter {meter}, "
          f"{counted(len(grid.tempos), 'tempo')}; made by the companion, outside the proof")
    if grid.lead:
        print("it begins with a bar of rest, since the score begins with a pause")
    for line in drifts(walk):
        print(line)
    if grid.beside:
        print(f"{counted(grid.beside, 'event')} off the written grid: other voices make the tempo there, or none is slow "
              "enough, or a breath begins")
    found = checked(listing_of(played), listing_of_file(out))
    if found.off:
        print(f"{counted(found.notes, 'note')}: {found.off:,} beginnings and ends lie more than "
              f"{float(found.bound):.2f} ms off; first {found.first}")
        return 1
    print(f"{counted(found.notes, 'note')}: each begins and ends within {float(found.most):.2f} ms of the program's file")
    return 0
