"""The verb `excerpt`: some bars of a score as a MIDI file, its channels in tracks, or one channel alone."""

from __future__ import annotations

import argparse
import os
import re
import tempfile
from typing import NamedTuple, Optional

from formula_score.checks.bars import process_name, ticks_by_process
from formula_score.making.values import plain
from formula_score.reading.meter import Meter
from formula_score.reading.midi_file import TEMPO, Timed, file_of, save
from formula_score.reading.playing import Failed, judge, listing_of_file, must_differ, needs, run as play
from formula_score.reading.reader import read
from formula_score.reading.ticks import agreed
from formula_score.reading.walk import Played
from .options import meter_arguments, process_argument

OUTSIDE = "the companion made it of the program's file, outside the proof"


class Bars(NamedTuple):
    """From which bar to which; without a last one to the end."""

    first: int
    last: Optional[int]


def bars_of(word: str) -> Bars:
    """What stands behind --bars: `9-12`, `9` for one bar, `9-` to the end."""
    found = re.fullmatch(r"([0-9]{1,6})(-([0-9]{1,6})?)?", word)
    if not found:
        raise argparse.ArgumentTypeError(f"{word!r} names no bars: write 9-12, 9, or 9- for all from bar 9 on")
    first = int(found.group(1))
    last = first if found.group(2) is None else int(found.group(3)) if found.group(3) else None
    if last is not None and last < first:
        raise argparse.ArgumentTypeError(f"bar {last} comes before bar {first}")
    return Bars(first, last)


def arguments(parser: argparse.ArgumentParser) -> None:
    """What the verb takes."""
    parser.add_argument("score", metavar="SCORE", help="the text of a score")
    parser.add_argument("out", metavar="OUT", help="the MIDI file that is written")
    parser.add_argument("--bars", type=bars_of, metavar="9-12", help="these bars alone; `9` is one, `9-` all from 9 on")
    meter_arguments(parser)
    process_argument(parser)
    parser.add_argument("--parts", action="store_true", help="a file of format 1, with a track for each channel; "
                        + OUTSIDE)
    parser.add_argument("--channel", type=int, choices=range(16), metavar="N", help="one channel alone, 0 to 15; "
                        + OUTSIDE)
    parser.description = f"""{parser.description}

Bars are counted as they are written. Their ticks are asked of the program, and it makes the excerpt, with its --from
and --to: with the programs, controllers and bends that hold at its beginning. Where the branches of a `par` have warps
of their own, a bar has several ticks: all are told, and the excerpt goes from the first to the last of them, if it is
not to be that of one --process. With --parts and --channel, {OUTSIDE};
the file says so in its first text."""


def run(options: argparse.Namespace) -> int:
    """Writes OUT, and tells its ticks."""
    must_differ(options.score, options.out)
    text = judge(options.score, None)
    window = window_of(options, text)
    if options.channel is None and not (options.parts and window):
        needs(play(options.score, options.out, *window, *(["--parts"] if options.parts else []), text=text, keeps=True))
        return 0
    with tempfile.TemporaryDirectory() as folder:
        whole = os.path.join(folder, "whole.mid")
        needs(play(options.score, whole, *window, text=text))
        listing = listing_of_file(whole)
    events = [(event.tick, event.message) for event in listing.events if event.message[0] < 0xF0]
    if options.channel is not None:
        events = [event for event in events if event[1][0] & 15 == options.channel]
    save(options.out, file_of(listing.division, _tracks(events, options.parts), listing.end))
    print(f"{plain(options.out)}: {OUTSIDE}")
    if not events:
        print(f"there is nothing on channel {options.channel}" if options.channel is not None else "it has no events")
        return 1
    return 0


def _tracks(events: list[Timed], in_parts: bool) -> list[list[Timed]]:
    if not in_parts:
        return [[(0, TEMPO), *events]]
    channels = sorted({message[0] & 15 for _, message in events})
    return [[(0, TEMPO)], *([event for event in events if event[1][0] & 15 == channel] for channel in channels)]


def window_of(options: argparse.Namespace, text: bytes) -> list[str]:
    """The program's options for the bars that are asked for; what they are in ticks is told."""
    if options.bars is None:
        return []
    meter = Meter(options.meter, options.upbeat, read(text).whole)
    walk = agreed(text)
    last = walk.ended[len(walk.begun) - 1].written
    first, behind = options.bars.first, None if options.bars.last is None else options.bars.last + 1
    is_there = [meter.start(bar) < last for bar in (first, first if behind is None else behind - 1)]
    if first < (0 if meter.upbeat else 1) or not all(is_there):
        if first < 1 and last:
            raise Failed(1, "bars count from 1, and bar 0 is what stands before it, as --upbeat says")
        reason = f"the piece ends in bar {meter.at(last - 1).bar}: it has {meter.lasts(0, last)}" if last else ""
        raise Failed(1, reason or "the piece is empty")
    begin = _ticks(walk, meter, first, options.process)
    words = ["--from", str(min(begin))]
    end = _ticks(walk, meter, behind, options.process) if behind and meter.start(behind) < last else []
    if end:
        words += ["--to", str(max(end))]
    upto = max(end) if end else walk.tick_of_end(len(walk.begun) - 1)
    to = meter.at(last - 1).bar if behind is None else behind - 1
    print(f"bar{f' {first}' if to == first else f's {first} to {to}'}: ticks {min(begin)} to {upto}")
    return words


def _ticks(walk: Played, meter: Meter, bar: int, process: Optional[int]) -> list[int]:
    """The ticks at which a bar begins; where they are several, they are told."""
    found = ticks_by_process(walk, meter.start(bar), process)
    if len(found) > 1:
        for tick, processes in found.items():
            print(f"bar {bar} begins at tick {tick} in {', '.join(process_name(walk, process) for process in processes)}")
    if not found:
        raise Failed(1, f"no {'such ' if process is not None else ''}process plays where bar {bar} begins")
    return list(found)
