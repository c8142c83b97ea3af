"""The verb `notes`: the statements of notes that are written in a short line."""

from __future__ import annotations

import argparse

from formula_score.language.tokens import NAME, kind_of
from formula_score.making.errors import ScoreError
from formula_score.making.short import statements, struck
from formula_score.reading.meter import Meter
from formula_score.reading.playing import Failed
from .options import meter_arguments


def arguments(parser: argparse.ArgumentParser) -> None:
    """What the verb takes."""
    parser.add_argument("line", metavar="LINE", nargs="+", help="the notes, as \"c4 d e/8 f g/2 | r c4+e+g/2.\"")
    parser.add_argument("--phrase", metavar="NAME", help="as a phrase of this name")
    meter_arguments(parser)
    parser.add_argument("--division", type=int, metavar="N", default=480,
                        help="the ticks of a quarter note, 24 to 960, where "
                        "the score states them; else 480")
    parser.description = f"""{parser.description}

c4 d e   notes; an octave stays until another is written, and so does a length, which is a quarter note at first
c4/8     an eighth note; /8. is a dotted one, /12 one of a triplet
c4+e+g   a chord          r     a rest
c4~ c    a tie            |     here a bar ends: if none does, that is told

A line is printed for each bar. Editors offer the same for a comment `# notes: c4 d e`."""


def run(options: argparse.Namespace) -> int:
    """Prints the statements."""
    if options.phrase is not None and kind_of(options.phrase) != NAME:
        raise Failed(2, f"{options.phrase!r} is no name of a phrase")
    if not 24 <= options.division <= 960:
        raise Failed(2, "a quarter note has 24 to 960 ticks")
    meter = Meter(options.meter, options.upbeat, 4 * options.division)
    if meter.only is None:
        raise Failed(2, "a line of notes has bars of one length: give one --meter")
    try:
        notes = struck(" ".join(options.line), meter.whole, meter.only, meter.upbeat)
    except ScoreError as error:
        raise Failed(1, str(error)) from error
    lines = list(statements(notes, meter.whole, meter.only, meter.upbeat))
    if options.phrase is not None:
        lines = [f"phrase {options.phrase} {{", *(f"  {line}" for line in lines), "}"]
    for line in lines:
        print(line)
    return 0
