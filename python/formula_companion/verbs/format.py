"""The verb `format`: one layout for the text of a score."""

from __future__ import annotations

import argparse

from formula_score.reading.midi_file import save
from formula_score.reading.playing import Failed, judge
from formula_score.reading.reader import read
from formula_score.rewriting.layout import WIDTH, formatted
from formula_score.running.command import render


def arguments(parser: argparse.ArgumentParser) -> None:
    """What the verb takes."""
    parser.add_argument("score", metavar="SCORE",
                        help="the text of a score, which is written anew where its layout is another")
    parser.add_argument("--to", metavar="OUT", help="the text that is written, and SCORE stays; `-` is standard output")
    parser.add_argument("--check", action="store_true",
                        help="write nothing; the status is 1 where the layout is another")
    parser.description = f"""{parser.description}

Two blanks for each open block, one between words, none before `;` and `,`. Lines break where you break them. A block
is on one line, or its braces end and begin lines; a block that opens alone on the line of the one round it closes
with it. What is longer than {WIDTH} characters is broken. Comments stay: two blanks before them, or the column that
they share. Empty lines stay, one at a time. What is set so is left as it is, and what was formatted once does not
change again.

The program plays both texts before anything is written: the file has to be the same, byte by byte."""


def run(options: argparse.Namespace) -> int:
    """Writes the text."""
    text = judge(options.score)
    new = formatted(read(text))
    if options.check:
        if new != text:
            print(f"{options.score}: this is not in the layout of `format`")
        return int(new != text)
    if new != text and render(text, workers=0) != render(new, workers=0):
        raise Failed(1, "the program does not play the same file: this is a fault of the companion, and nothing is "
                     "written")
    if options.to == "-":
        print(new.decode("utf-8", "surrogateescape"), end="")
    elif options.to is not None or new != text:
        save(options.to or options.score, new)
    return 0
