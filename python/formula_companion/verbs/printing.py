"""The verb `print`: a score on paper, as PDF or SVG."""

from __future__ import annotations

import argparse

from formula_score.notation.files import written
from formula_score.notation.paper import SUFFIXES
from formula_score.reading.branches import titles_of
from formula_score.reading.meter import Meter
from formula_score.reading.playing import judge, must_differ, must_end_in
from formula_score.reading.ticks import agreed
from .options import meter_arguments, title_arguments


def arguments(parser: argparse.ArgumentParser) -> None:
    """What the verb takes."""
    parser.add_argument("score", metavar="SCORE", help="the text of a score")
    parser.add_argument("out", metavar="OUT", help=f"the file that is written: {' or '.join(SUFFIXES)}; further pages "
                        "of SVG have names that end in -2, -3")
    title_arguments(parser)
    meter_arguments(parser)
    parser.description = f"""{parser.description}

The score is written as `export` writes it, and drawn by MuseScore 3 where that is installed, else by abcm2ps, with
ps2pdf for PDF. Where none is there it says which package has it, and the status is 1."""


def run(options: argparse.Namespace) -> int:
    """Draws OUT, and tells what notation does not say."""
    must_end_in(options.out, SUFFIXES)
    must_differ(options.score, options.out)
    walk = agreed(judge(options.score))
    titles = titles_of(walk.reading, options.title, options.composer)
    print(written(walk, Meter(options.meter, options.upbeat, walk.reading.whole), titles, options.out, options.score))
    return 0
