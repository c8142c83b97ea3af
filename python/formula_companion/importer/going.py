"""From the events of a file to a score: its voices, its text, what the program plays of it, and what is told."""

from __future__ import annotations

from functools import lru_cache
from typing import Callable, Iterator, NamedTuple, Sequence

from formula_score.making.lengths import written
from formula_score.making.midi import DRUM_CHANNEL
from formula_score.reading.notes import is_on
from formula_score.reading.playing import Listing, counted
from formula_score.reading.tempos import tempos_of
from . import exact
from .bars import bar_lines
from .branches import Voiced, branches_of, words_of
from .grid import LADDER, WHOLE, Grid, by_clock, clock_in, distance, fit, shift_of
from .judging import Judged, judged
from .messages import without_controllers, without_idle
from .moved import Choices, Moved, MovedPart, Tone, moved, unmoved
from .parts import piece_of
from .spelling import Ways, bars_of, usual_percent
from .tempo import Tempo, tempo_of
from .text import Writer, without_warp
from .voicing import voices_of
from .words import plain, said_of

#: A grid on which the onsets of a part lie less than half as far away as they would by chance is one that it knows.
_KNOWN = 0.5
_ADVISED = ((8,), (16,), (8, 12), (16, 24), (32,))
_ALL = 0.98
#: Changes of tempo lie on 96ths, so that all lengths between them have a value.
_STEP = WHOLE // 96
_NOTE = "# It plays 120 quarter notes a minute; for the file's own tempo put `warp tempo {` and `}` round the `par`."


class Imported(NamedTuple):
    """A text, its branches and notes, what is told of it, and whether it plays what it has to."""

    text: str
    branches: int
    notes: int
    lines: tuple[str, ...]
    is_good: bool


class _Way:
    """A file on its way."""

    def __init__(self, file: Listing, choices: Choices):
        self.file, self.choices = file, choices
        self.said: list[str] = []
        self.lengths: list[tuple[MovedPart, Tone, int]] = []
        if choices.is_exact:
            self.listing, longer, said = exact.scaled(file)
            self.piece = piece_of(self.listing, longer)
            self.said += [said] if said else []
            self.moved = unmoved(self.piece)
        else:
            self.listing = self._on_grid()
            self.piece = piece_of(self.listing, is_cut=True)
            left = self.piece.left_out
            left["message of a controller that is not wanted"] = without_controllers(self.piece, choices.without)
            left["message that changes nothing"] = 0 if choices.with_idle else without_idle(self.piece)
            self.moved = moved(self.piece, choices)
        self.lines = self._lines()
        self.tempo = tempo_of(self.piece, self.lines, 1 if choices.is_exact else _STEP) if choices.with_tempo else Tempo()

    def _on_grid(self) -> Listing:
        """The file with its beginning where its grid begins, and with the ticks of its clock."""
        onsets = [event.tick for event in self.file.events if is_on(event)]
        shift = shift_of(onsets, self.file.division)
        if shift:
            self.file = self.file._replace(events=[event._replace(tick=max(0, event.tick - shift))
                                                   for event in self.file.events])
            self.said.append(f"the whole is {counted(abs(shift), 'tick')} {'earlier' if shift > 0 else 'later'}, where its "
                             "grid begins")
        clock = clock_in(self.file) if self.choices.with_clock and not self.choices.grid else None
        if clock:
            self.said.append(f"the file's ticks are those of another clock: {clock.step:.2f} of them are a sixteenth")
        return by_clock(clock, self.file) if clock else self.file

    def _lines(self) -> list[int]:
        """The bar lines. Where events move, the piece ends with its last bar."""
        piece, end = self.piece, self.piece.end
        if self.choices.is_exact:
            return bar_lines(piece)
        piece.end = max([min(tone.most, tone.end) for part in self.moved.parts for tone in part.tones]
                        + [word.tick for part in self.moved.parts for word in part.words], default=end)
        lines = bar_lines(piece)
        piece.end = max(piece.end, lines[-1])
        if piece.end != end:
            self.said.append(f"it ends with its last bar, {counted(abs(piece.end - end), 'tick')} "
                             f"{'after' if piece.end > end else 'before'} the file")
        return lines

    def voices(self) -> Iterator[Voiced]:
        """The voices in bars."""
        choices, whole = self.choices, 4 * self.piece.division
        for part in self.moved.parts:
            voices = exact.voices_of(part) if choices.is_exact else voices_of(part, choices.ends)
            ways = Ways(whole, part.part.channel == DRUM_CHANNEL and not choices.is_exact, usual_percent(voices, whole),
                        0 if choices.is_exact else choices.ends)
            for voice in voices:
                bars, lengths = bars_of(voice, self.lines, self.piece.end, ways)
                self.lengths += [(part, tone, length) for tone, length in lengths]
                yield Voiced(part.part, not voice.chords, bars)

    def text(self, source: str) -> tuple[str, int]:
        """The text, and how many branches it has."""

        @lru_cache(maxsize=None)
        def length(ticks: int) -> str:
            return written(ticks, 4 * self.piece.division)

        piece, is_exact = self.piece, self.choices.is_exact
        voices = list(self.voices())
        branches = branches_of(voices, words_of(voices, length, piece.signatures))
        writer = Writer(piece, self.lines, branches, length, self.choices.with_phrases)
        made = (f"{plain(source)} by formula-score import" + " --exact" * is_exact
                + f"; each length is {piece.longer} times as long as there" * (piece.longer > 1))
        return writer.text(made, [_NOTE] * bool(is_exact and self.tempo.parts), self.tempo, not is_exact), len(branches)


def imported(file: Listing, source: str, choices: Choices, plays: Callable[[str], Listing],
             tells: Callable[[str], None]) -> Imported:
    """The score of a file, played and compared; it is told what is done."""
    tells("looking for its grid")
    way = _Way(file, choices)
    tells("writing its text")
    text, branches = way.text(source)
    tells("playing it, to compare")
    played = plays(without_warp(text))
    answer = judged(way.listing, way.moved, way.lengths, played, choices)
    told = way.said + ([] if choices.is_exact else [*_grids(way.moved), *_table(answer)])
    left = [f"{count:,} {what}" for what, count in sorted(way.piece.left_out.items()) if count]
    left += [way.tempo.said] if way.tempo.said else []
    if way.tempo.parts and choices.is_exact:
        left.append("the tempo, as a shape that is not used")
    told += [f"left out or changed: {'; '.join(left)}"] if left else []
    if way.tempo.parts and not choices.is_exact:
        told.append(f"to the last note {_seconds(plays(text)):.2f} s, in the file {_seconds(way.file):.2f} s")
    said = f"played and compared: {'' if answer.faults else 'all '}{answer.events:,} events"
    where = "at their ticks" if choices.is_exact else "within these bounds"
    told.append(f"{said}: {answer.faults:,} are not {where}; first {answer.first}" if answer.faults else f"{said} are {where}")
    if choices.is_exact:
        early, others = exact.out_of_order(way.listing, way.piece, played)
        told += [f"{counted(early, 'note-off')} on another side of a message of the same tick than in the file"] * bool(early)
        told += [f"{counted(others, 'other event')} in another order at one tick and channel than in the file"] * bool(others)
    return Imported(text, branches, len(way.lengths), tuple(told), not answer.faults)


def _seconds(listing: Listing) -> float:
    """The seconds to the last note, by the tempos of a file."""
    return tempos_of(listing).seconds(max((event.tick for event in listing.events if is_on(event)), default=0))


def _said(parts: Sequence[int]) -> str:
    return ",".join(f"1/{part}" for part in parts)


def _grids(found: Moved) -> Iterator[str]:
    """The grid of the whole, and parts that lie on none: which grid would move them least, against what chance would."""
    division, parts = found.division, [part for part in found.parts if part.tones]
    ticks = sorted({tone.first for part in parts for tone in part.tones})
    best = next((grid for grid in LADDER if fit(Grid(grid), ticks, division).share >= _ALL), None)
    if best and ticks:
        yield f"its onsets lie on {_said(best)}"
    for part in parts:
        if part.step is None and not found.is_asked:
            yield f"{said_of(part.part)}: its onsets stay; {_advice(part, division)}"


def _advice(part: MovedPart, division: int) -> str:
    """Which grid would move a part least."""
    onsets = sorted({tone.first for tone in part.tones})
    best, parts = min(((fit(Grid(parts), onsets, division), parts) for parts in _ADVISED),
                      key=lambda each: each[0].looseness)
    if best.looseness >= _KNOWN:
        return "no grid fits: played without a click, or by another tempo than the file says"
    grid = Grid(parts)
    away = [distance(grid.nearest(tick, division), tick, division) for tick in onsets]
    return (f"--grid {_said(parts)} would move them by {sum(away) / len(away):.0f} ticks in the mean, "
            f"{max(away):.0f} at most")


def _table(answer: Judged) -> Iterator[str]:
    """What moved."""
    yield f"{'':<14}{'events':>9}{'moved':>9}{'at most':>9}{'mean':>8}   ticks of 480 a quarter note"
    for kind, events, count, most, mean in answer.moves:
        yield f"{kind:<14}{events:>9,}{count:>9,}{most:>9.1f}{mean:>8.1f}"
