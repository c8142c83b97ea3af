"""The verb `roll`: a piano roll of a score, a MIDI file or a listing; and one that follows a score as it is written."""

from __future__ import annotations

import argparse
import html
import os
import re
import sys
import time
from typing import Callable, Iterator, Optional

from formula_score.pictures.roll import listing_at, picture, reading_of
from formula_score.reading.midi_file import save
from formula_score.reading.playing import Failed, bytes_of, made_of, must_differ, text_of
from formula_score.reading.reader import read
from formula_score.running.pieces import file_of
from .options import meter_arguments

_LOOK = 0.2  # seconds between two looks at a score that is followed

_PAGE = """<!doctype html>
<html lang="en"><head><meta charset="utf-8"><title>{title}</title>
<style>
body {{ margin: 0; font-family: sans-serif; background: #ffffff; color: #202020 }}
main {{ display: flex; align-items: flex-start; gap: 1em; padding: 1em }}
figure {{ margin: 0; overflow-x: auto; flex: 1 1 auto }}
.stale svg {{ opacity: 0.4 }}
aside {{ flex: 0 0 30em; max-width: 30em }}
pre {{ overflow-x: auto; border-left: 4px solid #b34d00; padding: 0.5em 1em; background: #fff4ec; color: #202020 }}
@media (prefers-color-scheme: dark) {{ body {{ background: #0d1117; color: #e6edf3 }} }}
</style></head>
<body><main><figure class="{state}">{picture}</figure><aside><h1>{title}</h1>{words}</aside></main>
<script>
const figure = document.querySelector("figure");
figure.scrollLeft = sessionStorage.getItem("left") || 0;
setTimeout(() => {{ sessionStorage.setItem("left", figure.scrollLeft); location.reload() }}, 1000);
</script>
</body></html>
"""


def arguments(parser: argparse.ArgumentParser) -> None:
    """What the verb takes."""
    parser.add_argument("file", metavar="FILE", help="a score, a MIDI file, or the listing of one")
    parser.add_argument("out", metavar="OUT", help="the picture, SVG; with --follow a page, HTML")
    meter_arguments(parser, None)
    parser.add_argument("--follow", action="store_true", help="FILE is a score: play and draw it again whenever it is "
                        "saved, until this is interrupted. OUT is a page that a browser shows; it renews itself, and "
                        "has the last picture, and beside it why the text is refused, if it is")
    parser.description = f"""{parser.description}

With --meter the lines are bars and beats. Of a score they are its own bars, through all deformations, at ticks of
which the program is asked; of a file they are counted over its ticks. Without --meter there is a line at each quarter
note of the file, a strong one at every fourth. The picture is the companion's, outside the proof."""


def run(options: argparse.Namespace) -> int:
    """Draws OUT."""
    must_differ(options.file, options.out)
    if not options.follow:
        data = text_of(options.file)
        save(options.out, picture(listing_at(options.file, data), reading_of(data), options).encode())
        return 0
    if options.out.lower().endswith(".svg"):
        raise Failed(2, "with --follow OUT is a page: give it a name as roll.html")
    bytes_of(options.file)
    try:
        follow(options, lambda: False)
    except KeyboardInterrupt:
        print()
    return 0


# ---- following

def follow(options: argparse.Namespace, is_over: Callable[[], bool]) -> None:
    """Plays and draws a score whenever its text has changed, until it is over."""
    seen: Optional[bytes] = None
    drawing = ""
    for data in _texts(options.file, is_over):
        if data == seen:
            continue
        seen = data
        now = time.strftime("%H:%M:%S")
        try:
            text = made_of(options.file, data)
            listing = listing_at(options.file, text)
            drawing = picture(listing, read(text), options)
            words, state = f"<p>{now}: played, to tick {listing.end}.</p>", "fresh"
            print(f"{now} played, to tick {listing.end}", flush=True)
        except Failed as failed:
            before = "The picture is of the text before." if drawing else ""
            words, state = f"<p>{now}: refused. {before}</p>{_paragraphs(failed.why)}", "stale"
            print(f"{now} {failed.said or 'not played'}", flush=True)
            print(failed.why, file=sys.stderr, flush=True)
        title = html.escape(os.path.basename(options.file))
        save(options.out, _PAGE.format(title=title, state=state, picture=drawing, words=words).encode())


def _paragraphs(why: str) -> str:
    """An explanation: the line of the score and the caret under it as they are, the rest as paragraphs."""
    lines = why.split("\n")
    is_shown = [bool(re.match(r" *[0-9]* \| ", line)) for line in lines]
    shown = html.escape("\n".join(line for line, shows in zip(lines, is_shown) if shows))
    words = [f"<p>{html.escape(line)}</p>" for line, shows in zip(lines, is_shown) if not shows]
    return "".join([*words[:1], f"<pre>{shown}</pre>" if shown else "", *words[1:]])


def _texts(path: str, is_over: Callable[[], bool]) -> Iterator[bytes]:
    """The text of a file again and again; an editor may take it away for a moment."""
    while not is_over():
        try:
            with open(file_of(path), "rb") as file:
                yield file.read()
        except OSError:
            pass
        time.sleep(_LOOK)
