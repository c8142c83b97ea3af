"""The verb `show`: the events of a MIDI file or the steps of a record, for a person."""

from __future__ import annotations

import argparse
import itertools
import os
from fractions import Fraction
from typing import Any, Iterator, NamedTuple, Optional

from formula_score.checks import summary
from formula_score.checks.summary import Summary
from formula_score.explaining import records
from formula_score.making.values import plain
from formula_score.reading import names
from formula_score.reading.meter import Group, Meter, Signature, groups_of
from formula_score.reading.notes import Sounding, is_off, is_on, paired
from formula_score.reading.playing import Event, Failed, Listing, counted, judge, listing_of_file
from formula_score.reading.sending import Sent, sent_of
from formula_score.reading.ticks import agreed
from .options import is_score, json_argument, meter_arguments, put, show_summary, summary_argument


def arguments(parser: argparse.ArgumentParser) -> None:
    """What the verb takes."""
    parser.add_argument("file", metavar="FILE", help="a score, a MIDI file, or the record of a run")
    meter_arguments(parser, None)
    parser.add_argument("--all", action="store_true", help="a line for each end of a note, too, in place of how long "
                        "it sounds")
    summary_argument(parser)
    json_argument(parser, "the `events`, each with its tick, and of a score with its process and its place in the text")
    parser.description = f"""{parser.description}

The program reads the file (--list), of format 0 or 1, also of other programs; the names are the companion's. With
--meter each line has its bar and beat, counted over the ticks of the file; without it a file's own meter is taken. A
channel counts from 0, and so does a program. If the file is refused the status is 1.

Of a score each line has the tick at which the program plays it, and bar and beat as written, through all deformations:
of 4/4 without --meter. Its process and its line follow.

Of the record of a run the first line has seats, room, lead, and how many bytes the text has. The lines of the score
follow behind `| `, then a line for each step: its number, the place of its first byte among the steps, both counted from
0, and what it is; and last how many steps there are of each kind. docs/SCHEDULER.md says what the steps do. Whether they
are a run is not checked: formula does that with --audit. If no step begins at some place the status is 1."""


def run(options: argparse.Namespace) -> int:
    """Prints the file."""
    record = record_in(options.file)
    if record is not None and not (options.json or options.summary):
        line = ""
        for line in records.lines(record):
            print(line)
        return int(line.startswith("no step"))
    if record is not None:
        raise Failed(2, f"{options.file!r} is a record, and only its lines are shown")
    return _shown(_of_score(options) if is_score(options.file) else _of_file(options), options)


class Shown(NamedTuple):
    """What is shown: its first line, its events, its bars, and its summary."""

    head: str
    listing: Listing
    meter: Optional[Meter]
    summary: Summary


def _of_score(options: argparse.Namespace) -> Shown:
    walk = agreed(judge(options.file))
    meter = Meter(options.meter or groups_of("4/4"), options.upbeat, walk.reading.whole)
    listing = sent_of(walk)
    head = (f"{counted(len(walk.begun), 'process')}, {listing.division} ticks a quarter note, end at tick "
            f"{listing.end}, meter {meter}")
    return Shown(head, listing, meter, summary.of_score(walk, meter))


def _of_file(options: argparse.Namespace) -> Shown:
    listing = listing_of_file(options.file, 1)
    meter = None
    if listing.division:
        groups = options.meter or own_meter(listing)
        meter = Meter(groups, options.upbeat, 4 * listing.division) if groups else None
    tracks = "1 track" if listing.tracks == 1 else f"{listing.tracks} tracks"
    head = (f"format {listing.format}, {tracks}, {listing.division} ticks a quarter note, end at tick {listing.end}"
            + (f", meter {meter}" if meter else ""))
    return Shown(head, listing, meter, summary.of_file(listing, meter))


def _shown(shown: Shown, options: argparse.Namespace) -> int:
    if options.summary:
        return show_summary(shown.summary, options.json)
    if options.json:
        put({"head": shown.head, "events": events(shown.listing, shown.meter, options.all)})
        return 0
    print(shown.head)
    for line in _told(shown.listing, shown.meter, options.all):
        print(line)
    return 0


def events(listing: Listing, meter: Optional[Meter], everything: bool = False) -> list[dict[str, Any]]:
    """The events for a program; ends of notes among them, or how long each note sounds."""
    lines = map(Sounding, listing.events, itertools.repeat(None)) if everything else paired(listing)
    return [_value(line, meter) for line in lines]


def _value(line: Sounding, meter: Optional[Meter]) -> dict[str, Any]:
    """An event for a program."""
    event, message = line.event, line.event.message
    value: dict[str, Any] = {"tick": event.tick, "track": event.track, "message": message.hex(" ").upper(),
                             "words": _words(line, True)}
    if message[0] < 0xF0:
        value["channel"] = message[0] & 15
    if line.end is not None:
        value["end"] = line.end
    if meter:
        value.update(meter.at(_place(event))._asdict())
    of = message.happening if isinstance(message, Sent) else None
    if of is not None:
        value.update(process=of.process, line=of.statement.line, column=of.statement.first.column)
    return value


def _place(event: Event) -> int:
    """Where bars count it: of a score as it is written."""
    return event.message.written if isinstance(event.message, Sent) else event.tick


def record_in(path: str) -> Optional[records.Record]:
    """The record in a file; None of what does not begin as one, or cannot be read twice."""
    if not os.path.isfile(path) or not os.access(path, os.R_OK):
        return None
    with open(path, "rb") as file:
        if file.read(len(records.MAGIC)) != records.MAGIC:
            return None
        file.seek(0)
        record = records.parts(file.read())
    if record is None:
        raise Failed(1, f"{plain(path)}: this is a record without a whole text")
    return record


def own_meter(listing: Listing) -> Optional[tuple[Group, ...]]:
    """The meters that the file names, where each begins at a bar line of the one before."""
    groups: tuple[Group, ...] = ()
    for event in sorted(listing.events, key=lambda event: event.tick):
        data = event.message
        if data[:3] != b"\xff\x58\x04" or not data[3] or data[4] > 6:
            continue
        signature = Signature(data[3], 2 ** data[4])
        if 4 * listing.division * signature.beats % signature.unit:
            return None
        if not groups:
            if event.tick:
                return None
            groups = (Group(1, (signature,)),)
            continue
        at = Meter(groups, Fraction(0), 4 * listing.division).at(event.tick)
        if (at.beat, at.ticks) != (1, 0):
            return None
        groups = (*(group for group in groups if group.first < at.bar), Group(at.bar, (signature,)))
    return groups or None


def _told(listing: Listing, meter: Optional[Meter], everything: bool) -> Iterator[str]:
    lines = (Sounding(event, None) for event in listing.events) if everything else paired(listing)
    track = -1
    for line in lines:
        event = line.event
        if event.track != track:
            track = event.track
            if listing.tracks > 1:
                yield f"track {track}"
        channel = f"{event.message[0] & 15:>2}" if event.message[0] < 0xF0 else "  "
        where = f"{_bar(meter, _place(event)):<12}" if meter else ""
        yield f"{event.tick:>10}  {where}{channel}  {_words(line, everything)}{_sender(event.message)}"


def _sender(message: bytes) -> str:
    """Who sends a message of a score."""
    of = message.happening if isinstance(message, Sent) else None
    return f"  process {of.process}, line {of.statement.line}" if of else ""


def _bar(meter: Meter, tick: int) -> str:
    """The bar, the beat, and the ticks behind it."""
    at = meter.at(tick)
    return f"{at.bar}:{at.beat}" + (f"+{at.ticks}" if at.ticks else "")


def _words(line: Sounding, everything: bool) -> str:
    data, tick = line.event.message, line.event.tick
    if not (is_on(line.event) or is_off(line.event)):
        return names.message(data)
    named = names.note(data[0] & 15, data[1])
    if is_off(line.event):
        return f"{named}  off" + ("" if everything else ", and no such note sounds")
    sounds = "" if everything else "  to the end" if line.end is None else f"  {line.end - tick} ticks"
    return f"{named}  velocity {data[2]}{sounds}"
