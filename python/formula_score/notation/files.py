"""A score as a file of notation, from the walk over its text, which the program agrees with."""

from __future__ import annotations

import pathlib
from typing import Callable

from ..reading.branches import Titles
from ..reading.meter import Meter
from ..reading.midi_file import save
from ..reading.playing import counted, must_end_in, named
from ..reading.walk import Played
from . import paper
from .abc_text import abc_of
from .musicxml import musicxml_of
from .piece import Piece, piece_of

WRITERS: dict[str, Callable[[Piece], str]] = {".musicxml": musicxml_of, ".abc": abc_of}


def written(walk: Played, meter: Meter, titles: Titles, path: str, source: str = "") -> str:
    """Writes or draws a score, by the suffix of the file. Without a title it is called as the file that it is made of.

    Gives a line that says what was written, and what notation does not say of the score.
    """
    suffix = must_end_in(path, [*WRITERS, *paper.SUFFIXES])
    stem = pathlib.PurePath(source).stem.replace("_", " ")
    piece = piece_of(walk, meter, titles._replace(title=titles.title or stem))
    drawn = ""
    if suffix in WRITERS:
        save(path, WRITERS[suffix](piece).encode())
    else:
        drawn = f", {paper.printed(piece, path)}"
    staves, unsaid = len(piece.sheet.parts), named(piece.sheet.unsaid)
    said = f"{counted(len(piece.bars), 'bar')}, {staves} {'staff' if staves == 1 else 'staves'}{drawn}"
    left = f"; not said in notation: {unsaid}" if unsaid else ""
    return f"{path}: {said}; made by the companion, outside the proof{left}"
