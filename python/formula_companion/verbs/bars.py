"""The verb `bars`: how many bars phrases, branches and sections have, whether comments count right; bars and ticks."""

from __future__ import annotations

import argparse
import functools
from typing import Any

from formula_score.checks.bars import bars_between, counted, process_name, ring, table, ticks_by_process
from formula_score.checks.lint import not_ignored
from formula_score.checks.summary import of_score
from formula_score.making.values import plain
from formula_score.reading.made import in_python, line_at, piece_of, placed
from formula_score.reading.meter import Meter
from formula_score.reading.playing import Failed, judge, listing_of
from formula_score.reading.reader import read
from formula_score.reading.structure import Span
from formula_score.reading.ticks import agreed, happening_at, position_at
from formula_score.reading.walk import Happening, Played
from .options import json_argument, meter_arguments, process_argument, put, show_summary, summary_argument
from .several import Several, several_arguments


def arguments(parser: argparse.ArgumentParser) -> None:
    """What the verb takes."""
    several_arguments(parser)
    meter_arguments(parser)
    process_argument(parser)
    asked = parser.add_mutually_exclusive_group()
    asked.add_argument("--tick", type=int, metavar="BAR", help="tell the tick of the file at which a bar begins; for "
                       "the bar behind the last one that of the end")
    asked.add_argument("--bar", type=int, metavar="TICK", help="tell the bar and beat of a tick, as written and as "
                       "played, and the line of the score; the rounds of loops count")
    summary_argument(parser)
    json_argument(parser, "`lengths` and `findings`, or the `ticks` or `places` that are asked for")
    parser.description = f"""{parser.description}

Bars are counted as they are written, as if no `warp` was there; ticks and seconds are as played. It warns of a phrase
of no whole number of bars, where its voice ends off the bar lines; and of a comment `# bar 12` or `# bars 9 to 12` at
another bar. It remarks branches of a `par` that are not equally long as written, or are so and not as played. It ends
with 1 where it warns, or a score is refused; remarks alone are 0. A comment behind statements speaks of its line, one
on a line of its own of what follows. In a phrase, loop or branch the numbers may also count from its beginning. A
section is what is between two comments on lines of their own."""


def run(options: argparse.Namespace) -> int:
    """Tells what is asked; 1 where something is off."""
    several = Several(options.scores, options.json, tells_text=options.text_places)
    if options.summary or options.tick is not None or options.bar is not None:
        if not several.is_one:
            raise Failed(2, "--tick, --bar and --summary take one score")
        return _tell(options)
    lengths: list[dict[str, Any]] = []
    for path, text in several.texts():
        reading = read(text)
        meter = Meter(options.meter, options.upbeat, reading.whole)
        rows, found = counted(reading, meter, functools.partial(listing_of, text))
        piece = piece_of(path)
        rows = [row._replace(line=line_at(piece, row.line)) if piece and row.line else row for row in rows]
        lengths += [{"path": path, **row._asdict()} for row in rows]
        if not options.json:
            print(("" if several.is_one else f"{plain(path)}: ") + f"meter {meter}" + (
                f", upbeat {options.upbeat}" if meter.upbeat else ""))
            for line in table(rows, reading.whole):
                print(line)
        for each in not_ignored(reading, found):
            several.tell(path, each)
    return several.end(meter=str(Meter(options.meter, options.upbeat, 1920)), lengths=lengths)


def _tell(options: argparse.Namespace) -> int:
    """The summary, or what --tick and --bar ask of one score."""
    walk = agreed(judge(options.scores[0]))
    meter = Meter(options.meter, options.upbeat, walk.reading.whole)
    if options.summary:
        return show_summary(of_score(walk, meter), options.json)
    return (_tell_bar if options.tick is None else _tell_tick)(walk, meter, options)


def _tell_tick(walk: Played, meter: Meter, options: argparse.Namespace) -> int:
    bar, process = options.tick, options.process
    last = walk.ended[len(walk.begun) - 1].written
    if not (0 if meter.upbeat else 1) <= bar or meter.start(bar) > last:
        raise Failed(1, "", f"there is no bar {bar}: the piece has {meter.lasts(0, last)}, "
                     f"{bars_between(Span(0, last, walk.place), meter)}")
    found = ticks_by_process(walk, meter.start(bar), process)
    if options.json:
        put({"bar": bar, "ticks": [{"tick": tick, "processes": processes} for tick, processes in found.items()]})
        return 0 if found else 1
    for tick, processes in found.items():
        only = "" if len(walk.begun) == 1 else " in " + ", ".join(process_name(walk, process) for process in processes)
        print(f"bar {bar}: tick {tick}{in_python(piece_of(options.scores[0]), only)}")
    if not found:
        print(f"{'no' if process is None else 'no such'} process plays where bar {bar} begins")
    return 0 if found else 1


def _tell_bar(walk: Played, meter: Meter, options: argparse.Namespace) -> int:
    path, tick, process = options.scores[0], options.bar, options.process
    end = walk.tick_of_end(len(walk.begun) - 1)
    playing = [happening for happening in happening_at(walk, tick) if process in (None, happening.process)]
    if not playing:
        where = "" if process is None else f" in process {process}"
        raise Failed(1, "", f"nothing is played at tick {tick}{where}: the piece ends at tick {end}")
    at = {happening.process: _written(walk, happening, tick) for happening in playing}
    if options.json:
        put({"tick": tick, "places": [placed(path, {"process": happening.process, "line": happening.statement.line,
                                                    "column": happening.statement.first.column,
                                                    **meter.at(at[happening.process])._asdict()})
                                      for happening in playing]})
        return 0
    found: dict[int, list[tuple[Happening, str]]] = {}
    for happening in playing:
        written = at[happening.process]
        statement = happening.statement
        place = f"line {statement.line}, column {statement.first.column}{ring(happening.place, written, meter)}"
        found.setdefault(written, []).append((happening, place))
    for written, several in found.items():
        print(f"tick {tick}: written in {meter.tell(written)}; played in {meter.tell(tick)} of the file, which has 120 "
              "quarter notes a minute throughout")
        for happening, place in several:
            words = place + (f", in {process_name(walk, happening.process)}" if len(walk.begun) > 1 else "")
            print(f"  {in_python(piece_of(path), words)}" + (f"; of the text {words}" if options.text_places else ""))
    return 0


def _written(walk: Played, happening: Happening, tick: int) -> int:
    position = position_at(walk.reading, happening.levels, tick)
    return happening.end if position is None else happening.begin + position - happening.position
