"""The verb `diff`: in what two scores or MIDI files differ, bar by bar."""

from __future__ import annotations

import argparse

from formula_score.checks.differing import changes, lines
from formula_score.checks.pieces import Piece, of_file, of_score
from formula_score.reading.meter import Meter, groups_of
from formula_score.reading.playing import Failed, Listing, judge, listing_of, listing_of_file
from formula_score.reading.ticks import agreed
from .options import is_score, json_argument, meter_arguments, put
from .show import own_meter


def arguments(parser: argparse.ArgumentParser) -> None:
    """What the verb takes."""
    parser.add_argument("old", metavar="A", help="a score, or a MIDI file")
    parser.add_argument("new", metavar="B", help="another one, as a newer version of A")
    meter_arguments(parser, None)
    json_argument(parser, "an object with `changes`, each with its bars, part, process, kind and words")
    parser.description = f"""{parser.description}

A line for each bar names what differs in each part: notes that are added, gone, moved, at another pitch, louder,
longer; programs, controllers, bends; and the tempo of the bar in the mean. Bars that follow one another with the same
words are one line. Where B has more or fewer bars, equal bars are found again, and the others are new or gone.

Of two scores bars are as they are written; a part is a branch and its channel, with the name of the branch. Of a file
they are counted over its ticks, by --meter, else by its own meter, and so are those of a score beside a file. Lengths
are how long notes sound.

The status is 1 where they differ, and 2 where one cannot be read or is refused."""


def run(options: argparse.Namespace) -> int:
    """Prints what differs."""
    are_scores = [is_score(path) for path in (options.old, options.new)]
    if all(are_scores):
        texts = [_judged(path, options) for path in (options.old, options.new)]
        walks = [agreed(text) for text in texts]
        groups = options.meter or groups_of("4/4")
        old, new = (of_score(walk, Meter(groups, options.upbeat, walk.reading.whole)) for walk in walks)
        listings = [listing_of(text) for text in texts]
    else:
        listings = [listing_of(_judged(path, options)) if scored else _file(path)
                    for path, scored in zip((options.old, options.new), are_scores)]
        old, new = (_of_file(listing, options) for listing in listings)
    found = changes(old, new)
    within = "" if found or _events(listings[0]) == _events(listings[1]) else (
        "each bar has the same notes and the same length, and within bars they are played at other ticks")
    if options.json:
        put({"changes": [{"bar": change.old, "new_bar": change.new, "part": change.part, "process": change.process,
                          "kind": change.kind, "words": change.words, "facts": change.facts} for change in found],
             "within": within or None})
    else:
        for line in [*lines(found), *([within] if within else [])]:
            print(line)
    return 1 if found or within else 0


def _judged(path: str, options: argparse.Namespace) -> bytes:
    options.file = path
    return judge(path, 2)


def _file(path: str) -> Listing:
    listing = listing_of_file(path, 2)
    if listing.division == 0:
        raise Failed(2, f"{path!r} has 0 ticks a quarter note: it has no bars")
    return listing


def _of_file(listing: Listing, options: argparse.Namespace) -> Piece:
    return of_file(listing, options.meter or own_meter(listing) or groups_of("4/4"), options.upbeat)


def _events(listing: Listing) -> list[tuple[float, bytes]]:
    return sorted((event.tick / listing.division, event.message) for event in listing.events if event.message[0] < 0xF0)
