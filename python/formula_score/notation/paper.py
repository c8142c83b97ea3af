"""Drawings of a piece, as PDF or SVG: by MuseScore 3 where it is there, else by abcm2ps and ps2pdf."""

from __future__ import annotations

import os
import pathlib
import shutil
import subprocess
import tempfile

from ..host.packages import install_line, names
from ..reading.midi_file import save
from ..reading.playing import Failed
from .abc_text import abc_of
from .musicxml import musicxml_of
from .piece import Piece

SUFFIXES = ".pdf", ".svg"
_SECONDS = 1200
_BEGINS = {".pdf": b"%PDF", ".svg": b"<"}
#: The ways to draw, by suffixes: the file that is drawn, who writes it, and the commands.
_WAYS = {
    ".pdf": (("in.musicxml", musicxml_of, (("musescore3", "-o", "out.pdf", "in.musicxml"),)),
             ("in.abc", abc_of, (("abcm2ps", "-O", "out.ps", "in.abc"), ("ps2pdf", "out.ps", "out.pdf")))),
    ".svg": (("in.musicxml", musicxml_of, (("musescore3", "-o", "out.svg", "in.musicxml"),)),
             ("in.abc", abc_of, (("abcm2ps", "-v", "-O", "out.svg", "in.abc"),))),
}


def run(folder: str, *words: str) -> str:
    """Runs another program without a window in a folder; gives what it says. Its status says nothing."""
    try:
        done = subprocess.run(words, cwd=folder, env={**os.environ, "QT_QPA_PLATFORM": "offscreen"}, timeout=_SECONDS,
                              stdin=subprocess.DEVNULL, stdout=subprocess.PIPE, stderr=subprocess.STDOUT, check=False)
    except OSError as error:
        raise Failed(1, f"{words[0]} cannot be run: {error.strerror}") from error
    except subprocess.TimeoutExpired as error:
        raise Failed(1, f"{words[0]} was ended after {_SECONDS} seconds") from error
    return done.stdout.decode("utf-8", "replace")


def printed(piece: Piece, path: str) -> str:
    """Draws a piece into a file; further pages of SVG have names that end in -2, -3. Says which program drew it."""
    suffix = pathlib.PurePath(path).suffix.lower()
    for source, written, commands in _WAYS[suffix]:
        if all(shutil.which(command[0]) for command in commands):
            break
    else:
        raise Failed(1, f"nothing here draws notes: {install_line(names('notation'))}, or {install_line(names('abc'))}")
    with tempfile.TemporaryDirectory() as folder:
        pathlib.Path(folder, source).write_text(written(piece), encoding="utf-8")
        said = "".join(run(folder, *command) for command in commands)
        pages = [page.read_bytes() for page in sorted(pathlib.Path(folder).glob(f"out*{suffix}"), key=_number)]
    if not pages or not all(page.lstrip().startswith(_BEGINS[suffix]) for page in pages):
        raise Failed(1, f"{commands[0][0]} drew nothing: {said.strip()[-300:]}")
    for number, page in enumerate(pages, 1):
        save(path if number == 1 else f"{path[:-len(suffix)]}-{number}{path[-len(suffix):]}", page)
    return f"drawn by {commands[0][0]}" + (f", {len(pages)} pages" if len(pages) > 1 else "")


def _number(path: pathlib.Path) -> int:
    """The page of a file: `out-2.svg`, `out002.svg`."""
    return int("0" + "".join(sign for sign in path.stem if sign.isdigit()))
