"""Compares what other programs play of the notation that `export` writes, and draws it.

MuseScore 3 plays the MusicXML and abc2midi the ABC of each example but `long_rests`, of each step of the tutorial, of
`four_voices`, of random texts with thirds, fifths and sevenths, and of scores imported from Debian's MIDI files. Each
note has to begin at the tick where it is printed, with its key and channel. Where nothing was moved that is the tick at
which the program plays the text without its shapes. abc2midi begins a tick late, and its sevenths lie within one. A key
that sounds already on its channel is not struck again by MuseScore: such unisons are counted. abcm2ps draws examples
and tutorial without a warning. What is written as MusicXML comes back by `import`, each note with its end and its name.
Then the demos of MuseScore are read directly and by MuseScore. On Debian: apt-get install musescore3 abcmidi abcm2ps,
and for the imports the packages that `foreign` names. --some N tries N texts of each kind."""

from __future__ import annotations

import argparse
import contextlib
import io
import os
import pathlib
import re
import shutil
import subprocess
import tempfile
from collections import Counter
from fractions import Fraction
from typing import NamedTuple, Optional

import harness
from formula_companion.verbs.program import main as companion
from formula_score.notation.piece import Piece, piece_of
from formula_score.notation.places import WHOLE
from formula_score.reading.branches import Titles
from formula_score.reading.meter import Meter, groups_of
from formula_score.reading.notes import is_on, paired
from formula_score.reading.playing import listing_of, listing_of_file
from formula_score.reading.reader import read
from formula_score.reading.walk import Played
from sheet_texts import Text, imports, own_texts, random_text

RANDOM, ROUND, IMPORTS, SECONDS = 100, 120, 20, 600
_QUARTER = 480
_NOT_VALID = "not a valid MusicXML file"
_DEMOS = "/usr/share/mscore3-3.2/demos"
#: Demos that the direct reader reads as MuseScore plays them.
_EQUAL = ("Fugue_1",)
#: From where to where a note is, its channel, and its key or its name.
Placed = tuple[Fraction, Fraction, int, str]
#: A tick of 480 a quarter note, a key and a channel.
Place = tuple[int, int, int]


def walked(text: bytes) -> Played:
    """The walk over a text."""
    walk = Played(read(text))
    walk.run()
    return walk


def printed(text: Text) -> Piece:
    """The piece of a text, with its loops written out."""
    walk = walked(text.text)
    return piece_of(walk, Meter(groups_of(text.meter), Fraction(0), walk.reading.whole), Titles())


def begins_of(piece: Piece) -> tuple[Counter[Place], dict[Place, list[int]]]:
    """Where notes begin as they are printed, and where those end."""
    ends: dict[Place, list[int]] = {}
    for part in piece.sheet.parts:
        for note in (note for voice in part.voices for note in voice):
            begin, end = (round(Fraction(place * 4 * _QUARTER, WHOLE)) for place in (note.begin, note.end))
            for tone in note.tones:
                ends.setdefault((begin, tone.key, part.channel), []).append(end)
    return Counter({place: len(several) for place, several in ends.items()}), ends


def even(text: bytes) -> bytes:
    """The text with shapes that change nothing."""
    out, at = bytearray(), 0
    tokens = read(text).tokens
    for number, token in enumerate(tokens):
        if token.text == "shape" and tokens[number + 2].text == "=":
            end = next(other.start for other in tokens[number:] if other.text == ";")
            out += text[at:tokens[number + 3].start] + b"flat 1/4 by 1000"
            at = end
    return bytes(out + text[at:])


def by_program(text: bytes) -> Counter[Place]:
    """The note-ons that the program plays of a text without its shapes, each key of a place once."""
    listing = listing_of(even(text))
    found = {(event.tick, event.message[1], event.message[0] & 15) for event in listing.events if is_on(event)}
    return Counter((round(Fraction(tick * _QUARTER, listing.division)), key, channel) for tick, key, channel in found)


def played_by(path: pathlib.Path, late: int) -> Counter[Place]:
    """The note-ons of a file, less the ticks that its maker is late."""
    listing = listing_of_file(str(path))
    return Counter((round(Fraction(each.event.tick * _QUARTER, listing.division)) - late, each.event.message[1],
                    each.event.message[0] & 15) for each in paired(listing) if is_on(each.event))


class Apart(NamedTuple):
    """How a file differs: what is missing and more of the wanted, unisons that are one note, and notes a tick off."""

    missing: list[Place]
    more: list[Place]
    unisons: int
    near: int


def compared(wanted: Counter[Place], ends: dict[Place, list[int]], heard: Counter[Place]) -> Apart:
    """How note-ons differ from those that are printed."""
    missing, more = wanted - heard, heard - wanted
    near = 0
    for tick, key, channel in list(more.elements()):
        beside = next((place for place in ((tick - 1, key, channel), (tick + 1, key, channel)) if missing[place] > 0),
                      None)
        if beside:
            missing[beside] -= 1
            more[tick, key, channel] -= 1
            near += 1
    sounding: dict[tuple[int, int], list[tuple[int, int]]] = {}
    for (tick, key, channel), several in ends.items():
        sounding.setdefault((key, channel), []).append((tick, max(several)))
    unisons = 0
    for place in list((+missing).elements()):
        tick, *own = place
        if len(ends[place]) > 1 or any(begin < tick < end for begin, end in sounding[own[0], own[1]]):
            missing[place] -= 1
            unisons += 1
    return Apart(sorted((+missing).elements()), sorted((+more).elements()), unisons, near)


# ---- what is compared

def ran(*words: object) -> tuple[int, str]:
    """The status of the companion, and what it says."""
    said = io.StringIO()
    with contextlib.redirect_stdout(said), contextlib.redirect_stderr(said):
        status = companion(list(map(str, words)), "formula-score")
    return status, said.getvalue()


def by_other(folder: pathlib.Path, *words: str) -> str:
    """What another program says."""
    done = subprocess.run(words, cwd=folder, env={**os.environ, "QT_QPA_PLATFORM": "offscreen"}, timeout=SECONDS,
                          stdin=subprocess.DEVNULL, stdout=subprocess.PIPE, stderr=subprocess.STDOUT, check=False)
    return done.stdout.decode("utf-8", "replace")


def _judged(name: str, apart: Apart, most_near: Optional[int], totals: Counter[str]) -> str:
    totals["unisons that are one note"] += apart.unisons
    totals["notes a tick off"] += apart.near
    problems = []
    if apart.missing or len(apart.more) > apart.unisons:
        problems.append(f"{len(apart.missing)} missing {apart.missing[:2]}, {len(apart.more)} more {apart.more[:2]}")
    if most_near is not None and apart.near > most_near:
        problems.append(f"{apart.near} notes are a tick off")
    return "; ".join(problems and [f"{name}: {problem}" for problem in problems])


def tried(text: Text, count: harness.Count, totals: Counter[str]) -> None:
    """Writes a text in both ways, and lets the others play it and draw it."""
    piece = printed(text)
    wanted, ends = begins_of(piece)
    is_moved = any("moved" in what or "too short" in what for what, number in piece.sheet.unsaid.items() if number)
    if not is_moved:
        is_equal = by_program(text.text).keys() == wanted.keys() or piece.sheet.unsaid["notes without a length"]
        count.judge(f"{text.name}, printed", "" if is_equal else "the program plays it without its shapes otherwise")
    totals["scores"] += 1
    totals["scores with notes moved"] += is_moved
    totals["notes"] += sum(wanted.values())
    with tempfile.TemporaryDirectory() as name:
        folder = pathlib.Path(name)
        (folder / "in.score").write_bytes(text.text)
        for suffix in ("musicxml", "abc"):
            status, said = ran("export", folder / "in.score", folder / f"out.{suffix}", "--meter", text.meter)
            if not count.judge(f"{text.name}, {suffix}", said if status else ""):
                return
        if shutil.which("musescore3"):
            said = by_other(folder, "musescore3", "-o", "xml.mid", "out.musicxml")
            apart = compared(wanted, ends, played_by(folder / "xml.mid", 0))
            low = any(key < 12 for _, key, _ in wanted)
            problem = _judged("MuseScore", apart, 0, totals) or (_NOT_VALID if _NOT_VALID in said and not low else "")
            count.judge(f"{text.name}, by MuseScore", problem)
        if shutil.which("abc2midi"):
            by_other(folder, "abc2midi", "out.abc", "-NFER", "-o", "abc.mid")
            apart = compared(wanted, ends, played_by(folder / "abc.mid", 1))
            has_sevenths = any(tick % 5 for tick, _, _ in wanted)
            count.judge(f"{text.name}, by abc2midi", _judged("abc2midi", apart, None if has_sevenths else 0, totals))
        if shutil.which("abcm2ps") and text.is_plain:
            said = by_other(folder, "abcm2ps", "-O", "out.ps", "out.abc")
            problems = [line for line in said.splitlines() if re.search("(?i)warning|error", line)]
            count.judge(f"{text.name}, by abcm2ps", problems)


def _written(text: bytes) -> tuple[Counter[Placed], Counter[Placed]]:
    """The notes of a text as written, with their keys; and those that it spells, with their names."""
    walk, keys, names = walked(text), Counter[Placed](), Counter[Placed]()
    for happening in walk.happenings:
        if happening.statement.word in ("note", "play") and happening.begin < happening.end:
            begin, end = (Fraction(place, walk.reading.whole) for place in (happening.begin, happening.end))
            for key, name in dict(zip(happening.values, happening.statement.names)).items():
                keys[begin, end, happening.channel, str(key)] += 1
                names[begin, end, happening.channel, name] += name != "key"
    return keys, names


def came_back(text: Text, count: harness.Count, totals: Counter[str]) -> None:
    """Writes a text as MusicXML and reads it: each note has its end and its name again, but those that moved."""
    piece = printed(text)
    moved = sum(number for what, number in piece.sheet.unsaid.items() if "moved" in what or "too short" in what)
    with tempfile.TemporaryDirectory() as name:
        folder = pathlib.Path(name)
        (folder / "in.score").write_bytes(text.text)
        for words in (("export", folder / "in.score", folder / "out.musicxml", "--meter", text.meter),
                      ("import", folder / "out.musicxml", folder / "again.score")):
            status, said = ran(*words)
            if not count.judge(f"{text.name}, {words[0]}", said if status else ""):
                return
        again = _written((folder / "again.score").read_bytes())
    lost = [sum((wanted - found).values()) for wanted, found in zip(_written(text.text), again)]
    more = sum((again[0] - _written(text.text)[0]).values())
    totals["texts that came back whole"] += lost == [0, 0] and more == 0
    most = moved * max(len(note.tones) for part in piece.sheet.parts for voice in part.voices for note in voice)
    count.judge(f"{text.name}, again", f"{lost} notes and names are lost, {more} are new, and {moved} were moved"
                if max(*lost, more) > most else "")


def demos(count: harness.Count) -> None:
    """The demos of MuseScore, read directly and as MuseScore plays them: what differs."""
    for path in sorted(pathlib.Path(_DEMOS).glob("*.msc?")):
        with tempfile.TemporaryDirectory() as name:
            folder = pathlib.Path(name)
            by_other(folder, "musescore3", "-o", "demo.musicxml", str(path))
            by_other(folder, "musescore3", "-o", "demo.mid", "demo.musicxml")
            status, said = ran("import", folder / "demo.musicxml", folder / "demo.score")
            if not count.judge(f"{path.stem}, read directly", said if status else ""):
                continue
            heard = Counter((tick, key) for (tick, key, _), number in played_by(folder / "demo.mid", 0).items()
                            for _ in range(number))
            found = Counter((round(begin * 4 * _QUARTER), int(key)) for (begin, _, _, key), number
                            in _written((folder / "demo.score").read_bytes())[0].items() for _ in range(number))
        print(f"  {path.stem}: {sum(heard.values()):,} notes by MuseScore, {sum((heard - found).values()):,} of them "
              f"not where it is read directly, {sum((found - heard).values()):,} others there")
        print("    " + "\n    ".join(said.splitlines()[:-1]))
        if path.stem in _EQUAL:
            count.judge(path.stem, "" if heard == found else "notes differ")


def arguments(parser: argparse.ArgumentParser) -> None:
    """What the verb takes."""
    parser.add_argument("--some", type=int, metavar="N", help="so many texts of each kind alone")
    parser.add_argument("--from", type=int, default=1, dest="first", metavar="SEED",
                        help="the first seed of random texts")


def run(program: str, asked: argparse.Namespace) -> harness.Count:
    """Tries all of them."""
    os.environ["FORMULA"] = program
    count, most = harness.Count(), asked.some
    for other in ("musescore3", "abc2midi", "abcm2ps"):
        if not shutil.which(other):
            count.not_tried(other, "it is not installed")
    kinds = {"examples and tutorial": list(own_texts()),
             "four voices": [Text("four_voices", (harness.EXAMPLES / "long" / "four_voices.score").read_bytes())],
             "random texts": [random_text(seed) for seed in range(asked.first, asked.first + (most or RANDOM))],
             "imports": list(imports(most or IMPORTS))}
    kinds["back again"] = [*own_texts(), *(random_text(seed) for seed in range(asked.first, asked.first + ROUND))]
    for kind, texts in kinds.items():
        totals: Counter[str] = Counter()
        for text in texts[:most]:
            (came_back if kind == "back again" else tried)(text, count, totals)
        print(f"  {kind}: " + ", ".join(f"{number:,} {what}" for what, number in totals.items()), flush=True)
    if shutil.which("musescore3") and os.path.isdir(_DEMOS):
        demos(count)
    return count
