"""The names of the library, all of them. `formula_score` has them; a part of it that is imported needs few."""

from .making.errors import BarError, CommandError, FileRefused, RecordRefused, Refused, ScoreError
from .making.expected import Event
from .making.lengths import LengthLike, dotted, euclid, ticks, triplet
from .making.midi import DRUMS, DYNAMICS, INSTRUMENTS, drum
from .making.music import (
    Meter, Music, Part, Seq, accents, articulations, bend, breath, channel, control, crescendo, drums, dynamics, flat,
    gate, hits, instrument, melody, note, par, pause, phrase, repeat, rest, seq, slope, stretch_of, swing, tempo,
    tempo_change, warp,
)
from .making.pitch import CHORDS, MODES, Pitch, PitchLike, Scale, chord
from .making.short import notes
from .notation.score import Score
from .running.command import (
    FileEvent, Large, Listing, Located, audit, find_program, large, listing, locate, play, render,
)
from .running.rendering import render_all

__all__ = [
    "BarError", "CHORDS", "CommandError", "DRUMS", "DYNAMICS", "Event", "FileEvent", "FileRefused", "INSTRUMENTS",
    "Large", "LengthLike", "Listing", "Located", "MODES", "Meter", "Music", "Part", "Pitch", "PitchLike",
    "RecordRefused", "Refused", "Scale", "Score", "ScoreError", "Seq", "accents", "articulations", "audit", "bend",
    "breath", "channel", "chord", "control", "crescendo", "dotted", "drum", "drums", "dynamics", "euclid",
    "find_program", "flat", "gate", "hits", "instrument", "large", "listing", "locate", "melody", "note", "notes",
    "par", "pause", "phrase", "play", "render", "render_all", "repeat", "rest", "seq", "slope", "stretch_of", "swing",
    "tempo", "tempo_change", "ticks", "triplet", "warp",
]
