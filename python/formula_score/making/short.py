"""Notes in a short line, as `c4 d e/8 f g/2 | c5~ c`: octaves and lengths stay until others are written.

A word is a note, a chord (`c4+e+g`) or a rest (`r`), with a length where it is another than before: `/8` is an eighth,
`/8.` a dotted one. `~` ties it to the next one, and `|` stands where a bar ends.
"""

from __future__ import annotations

import re
from fractions import Fraction
from typing import Iterator, NamedTuple, Optional

from .errors import ScoreError
from .lengths import MAX_LENGTH, WHOLE_NOTE, written
from .nodes import MAX_PITCHES, Note, Rest, Seq
from .pitch import Pitch

_WORD = re.compile(r"(?P<sounds>r|[a-g][sb]?[0-9]?(?:\+[a-g][sb]?[0-9]?)*)"
                   r"(?:/(?P<part>[0-9]{1,4})(?P<dots>\.{0,3}))?(?P<tie>~?)")
_FIRST = Fraction(1, 4)


class Struck(NamedTuple):
    """A note, a chord, or without names a rest: how its pitches are written, where it begins, and its length, in
    ticks."""

    names: tuple[str, ...]
    begin: int
    length: int

    def statement(self, whole: int = WHOLE_NOTE) -> str:
        """How a score writes it, with so many ticks to a whole note."""
        length = written(self.length, whole)
        return f"note {', '.join(self.names)} {length};" if self.names else f"rest {length};"


class _Line:
    """Reads a line from left to right."""

    def __init__(self, whole: int, bar: int, upbeat: int):
        self.whole, self.bar, self.upbeat = whole, bar, upbeat
        self.octave, self.length, self.at = "", _FIRST, 0
        self.found: list[Struck] = []
        self.tied: tuple[str, ...] = ()

    def word(self, word: str) -> None:
        """Takes a word."""
        if word == "|":
            self.check()
            return
        found = _WORD.fullmatch(word)
        if not found:
            raise ScoreError("this is no note: write `c4`, `fs4`, `bb3`, `c4+e+g`, `r`, `c4/8.` or `c4~`")
        names = () if found["sounds"] == "r" else tuple(self.pitch(name) for name in found["sounds"].split("+"))
        if len(names) > MAX_PITCHES:
            raise ScoreError(f"a chord has at most {MAX_PITCHES} pitches")
        if found["part"]:
            self.length = self.part(int(found["part"]), len(found["dots"]))
        self.add(names, int(self.length * self.whole))
        self.tied = self.held(names) if found["tie"] else ()

    def pitch(self, name: str) -> str:
        """The whole name of a pitch."""
        self.octave = name[-1] if name[-1].isdigit() else self.octave
        if not self.octave:
            raise ScoreError("the first pitch needs its octave, as `c4`, which is middle C")
        whole_name = name.rstrip("0123456789") + self.octave
        Pitch(whole_name)
        return whole_name

    def part(self, under: int, dots: int) -> Fraction:
        """A length."""
        length = Fraction(1, under) * (2 - Fraction(1, 2 ** dots)) if under else Fraction(0)
        if not length or (length * self.whole).denominator != 1:
            raise ScoreError(f"this length is no whole number of ticks, of which a whole note has {self.whole:,}")
        return length

    def held(self, names: tuple[str, ...]) -> tuple[str, ...]:
        """What the next note has to be."""
        if not names:
            raise ScoreError("a rest has no tie")
        return names

    def add(self, names: tuple[str, ...], ticks: int) -> None:
        """A note or a rest more, or a longer note."""
        if self.tied and [Pitch(name) for name in self.tied] != [Pitch(name) for name in names]:
            raise ScoreError(f"the note before is tied, so here comes `{'+'.join(self.tied)}` once more")
        begun = self.found.pop() if self.tied else Struck(names, self.at, 0)
        if begun.length + ticks > MAX_LENGTH:
            raise ScoreError(f"a note has at most {MAX_LENGTH:,} ticks")
        self.found.append(begun._replace(length=begun.length + ticks))
        self.at += ticks

    def check(self) -> None:
        """A bar ends here."""
        ticks = (self.at - self.upbeat) % self.bar
        if self.at and ticks:
            more, less = Fraction(ticks, self.whole), Fraction(self.bar - ticks, self.whole)
            raise ScoreError(f"the bar is {less} too short" if less <= more else f"the bar is {more} too long")


def struck(line: str, whole: int = WHOLE_NOTE, bar: Optional[int] = None, upbeat: int = 0) -> list[Struck]:
    """What a line says, with so many ticks to a whole note, to a bar and to an upbeat.

    A `ScoreError` names the word that is wrong, by its place in the line.
    """
    reader = _Line(whole, whole if bar is None else bar, upbeat)
    place, word = 0, ""
    try:
        for found in re.finditer(r"\||[^\s|]+", line):
            place, word = found.start() + 1, found[0]
            reader.word(word)
    except ScoreError as error:
        raise ScoreError(f"`{word}` at {place}: {error}") from error
    if reader.tied:
        raise ScoreError(f"`{word}` at {place}: no note follows the tie")
    return reader.found


def statements(notes: list[Struck], whole: int, bar: int, upbeat: int = 0, width: int = 100) -> Iterator[str]:
    """The notes as lines of a score: a bar a line, or some where it is long; a note over a bar line is in its first
    bar."""
    words: list[str] = []
    number: Optional[int] = None
    for note in notes:
        own, text = (note.begin - upbeat) // bar, note.statement(whole)
        if words and (own != number or sum(map(len, words)) + len(words) + len(text) > width):
            yield " ".join(words)
            words = []
        words.append(text)
        number = own
    if words:
        yield " ".join(words)


def notes(line: str, meter: str = "4/4") -> Seq:
    """Notes of a short line: `notes("c4 d e/8 f g/2 | c5~ c c4+e+g/2.")`.

    Octaves and lengths stay until others are written, the first length is a quarter note. `/8` is an eighth, `/8.` a
    dotted one, `r` a rest, `+` joins a chord, `~` ties a note to the next one, and a `|` has to be where a bar ends.
    """
    found = re.fullmatch(r"([1-9][0-9]?)/([1-9][0-9]?)", meter)
    if not found or WHOLE_NOTE * int(found[1]) % int(found[2]):
        raise ScoreError(f"{meter!r} is no time signature: write '3/4'")
    several = struck(line, WHOLE_NOTE, WHOLE_NOTE * int(found[1]) // int(found[2]))
    return Seq(tuple(Note(tuple(map(Pitch, each.names)), each.length) if each.names else Rest(each.length)
                     for each in several))
