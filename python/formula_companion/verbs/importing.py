"""The verb `import`: a score from a MIDI file, MusicXML or ABC, played and compared with it."""

from __future__ import annotations

import argparse
import os
import re
import sys
import time
from typing import Callable

from ..importer import xml_going
from ..importer.going import Imported, imported
from ..importer.moved import Choices
from ..importer.others import OF_HAIRPINS, by_abc2midi, by_musescore
from formula_score.making.values import draw_line
from formula_score.reading.midi_file import save
from formula_score.reading.notes import is_on
from formula_score.reading.playing import Failed, Listing, counted, listing_of, listing_of_file, must_differ, text_of
from .options import json_argument, put

#: A file with more bytes or events makes no score, which has at most a mebibyte.
_MOST_BYTES, _MOST_EVENTS = 8_000_000, 500_000
_TOO_DEEP = "fault 12"
_XML = ".musicxml", ".mxl", ".xml"
#: After so many seconds a terminal is told what is done.
_PATIENCE = 1.0


def arguments(parser: argparse.ArgumentParser) -> None:
    """What the verb takes."""
    parser.add_argument("file", metavar="FILE", help="the file that is read: MIDI, MusicXML (.musicxml, .mxl, .xml) or ABC "
                        "(.abc)")
    parser.add_argument("score", metavar="SCORE", help="the score that is written; an older one is replaced")
    parser.add_argument("--by", choices=("musescore",), help="what MuseScore 3 plays of the file is read")
    parser.add_argument("--exact", action="store_true", help="no event moves: each note, control change, program change "
                        "and bend is played at its tick")
    parser.add_argument("--grid", type=_grid, metavar="1/16,1/24", help="all onsets go to these parts of a whole note; "
                        "else those that lie near a grid, part by part")
    parser.add_argument("--velocities", type=_upto(127), default=4, metavar="N", help="by how much a velocity may change: "
                        "4 where nothing is said, 0 keeps all, 127 takes the nearest of ppp to fff")
    parser.add_argument("--ends", type=_upto(10), default=1, metavar="N", help="by how many percents of its length the end "
                        "of a note may move: 1 where nothing is said")
    parser.add_argument("--without", type=lambda words: frozenset(map(_upto(127), words.split(","))), default=frozenset(),
                        metavar="N,..", help="leaves out these controllers")
    parser.add_argument("--no-tempo", action="store_true", help="no `warp` with the tempo of the file")
    parser.add_argument("--no-phrases", action="store_true", help="no phrases and no loops of bars")
    parser.add_argument("--all-messages", action="store_true", help="keeps messages that change nothing")
    parser.add_argument("--keep-clock", action="store_true", help="keeps the quarter notes of the file, though nothing lies "
                        "on them")
    json_argument(parser, "what the file has, what moved, and what was written")
    parser.description = f"""{parser.description}

The score is one to go on with: notes that lie near a grid go to it, ends go to the length that one would write, bars
that are equal are a phrase or a loop, and the tempo of the file is a `warp` round the piece. The program then plays the
score. A table says what moved and by how much. Where an event is past the bounds of the page on MIDI files, or a note
lacks its program or its pedal, the status is 1 and the first one is told. A part whose notes lie on no grid stays as it
is. With --exact nothing moves at all.

MusicXML is read directly, and what is not played, as grace notes and ornaments, is counted. ABC goes by abc2midi. With
--by musescore any file goes by what MuseScore plays of it. But for --no-tempo, --no-phrases and --json the other options
are for what is read as MIDI.

What a score has no word for is left out and counted: texts, pressure, system exclusive messages."""


def run(options: argparse.Namespace) -> int:
    """Writes the score, and tells what moved and how it compares."""
    must_differ(options.file, options.score)
    choices = Choices(options.exact, options.grid, options.velocities, options.ends, not options.no_tempo, not options.no_phrases,
                      options.all_messages, not options.keep_clock, options.without)
    tell = _teller(options.file)
    try:
        found = _imported(options, choices, tell)
    except Failed as failed:
        if not failed.said.endswith(_TOO_DEEP):
            raise
        found = _imported(options, choices._replace(with_phrases=False), tell)
    finally:
        tell("")
    save(options.score, found.text.encode())
    phrases, size = sum(line.startswith("phrase ") for line in found.text.splitlines()), len(found.text.encode())
    if options.json:
        put({"notes": found.notes, "lines": found.lines, "out": options.score, "branches": found.branches,
             "phrases": phrases, "bytes": size, "is_good": found.is_good})
    else:
        print("\n".join(found.lines))
        print(f"{options.score}: {counted(found.branches, 'branch')}, {counted(phrases, 'phrase')}, {size:,} bytes")
    return 0 if found.is_good else 1


def _imported(options: argparse.Namespace, choices: Choices, tell: Callable[[str], None]) -> Imported:
    """What becomes of a file, by the way that it goes."""
    path, name = options.file, os.path.basename(options.file)
    suffix = os.path.splitext(path)[1].lower()
    if suffix in _XML and not options.by:
        try:
            return xml_going.imported(text_of(path), name, choices)
        except Failed as failed:
            raise failed if failed.status == 2 or failed.said else Failed(1, f"{path!r}: {failed.why}")
    if options.by:
        listing, choices = by_musescore(path), choices._replace(without=choices.without | OF_HAIRPINS)
    else:
        listing = by_abc2midi(path) if suffix == ".abc" else _listing(path)
    found = imported(listing, name, choices, lambda text: listing_of(text.encode(), refused=1), tell)
    return found._replace(lines=(f"{path}: {_told(listing)}", *found.lines))


def _listing(path: str) -> Listing:
    """What is in a file, where it is not too long for a score."""
    size = len(text_of(path))
    if size > _MOST_BYTES:
        raise Failed(1, f"{path!r} has {size:,} bytes, and a file of more than {_MOST_BYTES:,} makes no score")
    listing = listing_of_file(path, refused=1)
    if listing.division == 0:
        raise Failed(1, f"{path!r} has 0 ticks a quarter note: it has no time")
    if len(listing.events) > _MOST_EVENTS:
        raise Failed(1, f"{path!r} has {len(listing.events):,} events, and one of more than {_MOST_EVENTS:,} makes no score")
    return listing


def _told(listing: Listing) -> str:
    """What a file has."""
    notes = sum(map(is_on, listing.events))
    messages = sum(event.message[0] >> 4 in (0xB, 0xC, 0xE) for event in listing.events)
    return (f"format {listing.format}, {counted(listing.tracks, 'track')}, {listing.division} ticks a quarter note; "
            f"{counted(notes, 'note')}, {messages:,} control changes, programs and bends")


def _teller(path: str) -> Callable[[str], None]:
    """Shows on a terminal what is done, where that takes long; nothing is done any more where nothing is told."""
    begun = time.monotonic()

    def tell(what: str) -> None:
        if sys.stderr.isatty() and time.monotonic() > begun + _PATIENCE:
            draw_line(f"{path}: {what} .." if what else "")

    return tell


def _grid(words: str) -> tuple[int, ...]:
    """The parts of a grid."""
    parts = [re.fullmatch(r"1/([1-9][0-9]{0,2})", word.strip()) for word in words.split(",")]
    found = tuple(int(part[1]) for part in parts if part)
    if len(found) != len(parts) or any(1920 % part for part in found):
        raise argparse.ArgumentTypeError(f"{words!r} is no grid: write parts of a whole note that divide 1,920 ticks, as "
                                         "1/16 or 1/16,1/24")
    return found


def _upto(most: int) -> Callable[[str], int]:
    """Reads a number that is at most so great."""

    def number(word: str) -> int:
        if not re.fullmatch(r"[0-9]{1,4}", word.strip()) or int(word) > most:
            raise argparse.ArgumentTypeError(f"{word!r} is no number from 0 to {most}")
        return int(word)

    return number
