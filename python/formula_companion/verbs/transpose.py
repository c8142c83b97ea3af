"""The verb `transpose`: moves the written pitches of a score, or of one phrase."""

from __future__ import annotations

import argparse
import re
from typing import Optional

from formula_score.making.midi import DRUM_CHANNEL
from formula_score.reading.midi_file import save
from formula_score.reading.playing import Failed, Listing, counted, judge, listing_of
from formula_score.reading.reader import read
from formula_score.rewriting.transposing import Refused, plays_others, transposed


def arguments(parser: argparse.ArgumentParser) -> None:
    """What the verb takes."""
    parser.add_argument("score", metavar="SCORE", help="the text of a score, which is written anew")
    parser.add_argument("semitones", metavar="N", type=_semitones, help="by how many semitones: 2, -12")
    parser.add_argument("--phrase", metavar="NAME", help="the pitches that are written in this phrase alone")
    parser.add_argument("--to", metavar="OUT", help="the text that is written, and SCORE stays; `-` is standard output")
    parser.description = f"""{parser.description}

Names as `fs4` and keys as `key 66` are written anew, and all else stays byte by byte. Names go by the new key: what is
F sharp in D major is G sharp in E major. What is played on channel {DRUM_CHANNEL} are drums, and stays. Where a pitch
leaves the keys from 0 to 127, nothing is written, and its place is told.

A pitch that is computed or drawn, as `key (60 + n0)`, stays; each is told with its place, and the status is 1. Where
there is none, the program plays both texts: each note has to be moved by just N, at its tick."""


def _semitones(word: str) -> int:
    if not re.fullmatch(r"[+-]?[0-9]{1,3}", word) or abs(int(word)) > 127:
        raise argparse.ArgumentTypeError(f"{word!r} is no number of semitones from -127 to 127")
    return int(word)


def run(options: argparse.Namespace) -> int:
    """Writes the text."""
    reading = read(judge(options.score))
    if options.phrase is not None and options.phrase not in reading.phrases:
        raise Failed(1, f"there is no phrase {options.phrase!r}; there are {', '.join(reading.phrases) or 'none'}")
    try:
        found = transposed(reading, options.semitones, options.phrase)
    except Refused as refused:
        place = f"{options.score}:{refused.finding.line}:{refused.finding.column}"
        raise Failed(1, f"{place}: {refused.finding.what}") from refused
    if not found.left:
        _compare(listing_of(reading.text), listing_of(found.text), options.semitones, options.phrase)
    out = options.to or options.score
    if out == "-":
        print(found.text.decode("utf-8", "surrogateescape"), end="")
        return 1 if found.left else 0
    save(out, found.text)
    print(f"{out}: {counted(found.moved, 'pitch')} moved by {options.semitones}")
    for finding in found.left:
        print(f"{options.score}:{finding.line}:{finding.column}: {finding.what}")
    for name in plays_others(reading, options.phrase) if options.phrase else ():
        print(f"phrase {options.phrase} plays phrase {name}, which stays")
    return 1 if found.left else 0


def _compare(old: Listing, new: Listing, by: int, only: Optional[str]) -> None:
    """Refuses what the program plays otherwise than moved by so much."""

    def moved(message: bytes) -> bytes:
        is_note = message[0] >> 4 in (8, 9) and message[0] & 15 != DRUM_CHANNEL
        return bytes([message[0], (message[1] + by) % 256, message[2]]) if is_note else message

    pairs = zip(old.events, new.events)
    if len(old.events) != len(new.events) or any(
            one.tick != other.tick or other.message not in {moved(one.message), *([one.message] if only else [])}
            for one, other in pairs):
        raise Failed(1, "the program does not play each note moved by so much: this is a fault of the companion, and "
                     "nothing is written")
