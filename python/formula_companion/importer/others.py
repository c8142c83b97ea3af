"""Files that other programs turn into MIDI files, mended where these have habits of their own."""

from __future__ import annotations

import os
import re
import shutil
import tempfile
from typing import Sequence

from formula_score.host.packages import install_line, names
from formula_score.notation.paper import run
from formula_score.reading.midi_file import text
from formula_score.reading.notes import is_off
from formula_score.reading.playing import Event, Failed, Listing, listing_of_file, text_of

_NAME = b"\xff\x03"
#: The controller that MuseScore sends between notes wherever a hairpin is.
OF_HAIRPINS = frozenset((2,))


def _made(path: str, feature: str, words: Sequence[str]) -> Listing:
    """The listing of the MIDI file that a program makes of a file, whose names are the last words."""
    program = shutil.which(words[0])
    if program is None:
        raise Failed(1, f"{words[0]} is missing: {install_line(names(feature))}")
    text_of(path)
    with tempfile.TemporaryDirectory() as folder:
        target = os.path.join(folder, "out.mid")
        said = run(folder, *(word.format(file=os.path.abspath(path), target=target) for word in words))
        if not os.path.exists(target):
            raise Failed(1, f"{words[0]} made nothing of {path!r}: {said.strip()[-300:]}")
        return listing_of_file(target, refused=1)


def by_musescore(path: str) -> Listing:
    """A file that MuseScore opens: it ends each note a tick early."""
    listing = _made(path, "notation", ("musescore3", "-o", "{target}", "{file}"))
    return listing._replace(events=[event._replace(tick=event.tick + is_off(event)) for event in listing.events])


def by_abc2midi(path: str) -> Listing:
    """A tune of ABC, its voices with their names: abc2midi begins each note a tick late, ends it in time, and ends the
    file behind its notes."""
    listing = _made(path, "abc", ("abc2midi", "{file}", "-NFER", "-o", "{target}"))
    called = voices_of(text_of(path).decode("utf-8", "replace"))
    events = [Event(track, 0, text(3, name.encode())) for track, name in enumerate(called, 1)
              if name and track < listing.tracks]
    end = max((event.tick for event in listing.events if is_off(event)), default=0)
    events += [event if is_off(event) else event._replace(tick=max(0, min(end, event.tick - 1)))
               for event in listing.events if event.track == 0 or event.message[:2] != _NAME]
    return listing._replace(events=sorted(events, key=lambda event: event.track))


def voices_of(tune: str) -> list[str]:
    """The names of the voices of a tune, in their order; empty where one has none."""
    found: dict[str, str] = {}
    for line in tune.splitlines():
        voice = re.match(r"(?:\[?V:)\s*([^\s\]]+)(.*)", line)
        if voice:
            name = re.search(r"\b(?:name|nm)\s*=\s*(?:\"([^\"]*)\"|(\S+))", voice[2])
            found[voice[1]] = found.get(voice[1]) or (name[1] or name[2] or "" if name else "")
    return list(found.values())
