"""The text of a score with its written pitches moved by semitones, spelled by the new key; all else stays byte by byte."""

from __future__ import annotations

from typing import Iterator, NamedTuple, Optional

from ..making.midi import DRUM_CHANNEL
from ..making.pitch import Pitch
from ..making.spelling import FLATTEST, SHARPEST, name_of, place_of, signature_of
from ..reading.marks import Finding
from ..reading.tree import Expression, Phrase, Reading, Statement, Token

#: How far left and right of its key a spelling may lie on the line of fifths; further out another name is nearer.
_LEFT, _RIGHT = -6, 10


class Transposed(NamedTuple):
    """The new text, and what it could not move: pitches that are computed, each with its place; how many it moved."""

    text: bytes
    left: list[Finding]
    moved: int


class Refused(ValueError):
    """Why a text is not transposed, with the place."""

    def __init__(self, token: Token, what: str):
        super().__init__(what)
        self.finding = Finding(token.line, token.column, what)


class _Written(NamedTuple):
    """A pitch as it is written: its first and last token, and its key; None where it is computed."""

    first: Token
    last: Token
    key: Optional[int]


def _near(place: int, key: int) -> int:
    """A spelling of the same key of the keyboard that is usual in a key, and has a name."""
    while place > min(key + _RIGHT, SHARPEST):
        place -= 12
    while place < max(key + _LEFT, FLATTEST):
        place += 12
    return place


def transposed(reading: Reading, semitones: int, only: Optional[str] = None) -> Transposed:
    """The text with its pitches moved, or those of one phrase alone; a `Refused` where one leaves the range."""
    chosen = [] if only is None else [reading.phrases[only].block]
    first, last = (chosen[0].opened.start, chosen[0].closed.start) if chosen else (0, len(reading.text))
    heard = _channels(reading)
    moved = [(statement, written) for statement in reading.every_statement() if first <= statement.first.start < last
             and _moves(statement, heard) for written in _pitches(reading, statement)]
    names = [written.first.text for _, written in moved if written.first.text != "key"]
    old = signature_of(names)
    keys = (old + 7 * semitones + 12 * turn for turn in range(-90, 91))
    new = min(keys, key=lambda key: (abs(key), (key > 0) != (old > 0)))
    pieces, behind, left = [], 0, []
    for _, (token, end, key) in moved:
        if key is None:
            left.append(Finding(token.line, token.column, "this pitch is computed, and stays"))
            continue
        if not 0 <= key + semitones <= 127:
            said = token.text if token is end else f"key {key}"
            raise Refused(token, f"`{said}` moved by {semitones} is key {key + semitones}, and keys go from 0 to 127")
        pieces += [reading.text[behind:token.start], _moved(token, key + semitones, old, new).encode()]
        behind = end.start + len(end.text)
    return Transposed(b"".join([*pieces, reading.text[behind:]]), left, len(pieces) // 2)


def _moved(token: Token, key: int, old: int, new: int) -> str:
    if token.text == "key":
        return f"key {key}"
    return name_of(key, _near(_near(place_of(token.text), old) + new - old, new))


def _pitches(reading: Reading, statement: Statement) -> Iterator[_Written]:
    """The pitches of a statement, with their tokens."""
    tokens = iter(reading.tokens_between(statement.first, statement.last))
    next(tokens, None)
    for name, pitch in zip(statement.names, statement.pitches):
        first = last = next(token for token in tokens if token.text not in (",",))
        if name != "key":
            yield _Written(first, last, int(Pitch(name)))
        elif isinstance(pitch, Expression):
            depth, last = 1, next(tokens)
            while depth:
                last = next(tokens)
                depth += (last.text == "(") - (last.text == ")")
            yield _Written(first, last, None)
        else:
            last = next(tokens)
            yield _Written(first, last if last.text != "-" else next(tokens), pitch)


def _channels(reading: Reading) -> dict[int, set[int]]:
    """By the byte of each note the channels on which it is played; of a phrase that is not, as if it were on channel
    0."""
    found: dict[int, set[int]] = {}
    seen: set[tuple[str, int]] = set()

    def go(statements: tuple[Statement, ...], channel: int) -> None:
        for statement in statements:
            if statement.pitches:
                found.setdefault(statement.first.start, set()).add(channel)
            elif statement.word == "do" and (statement.name, channel) not in seen:
                seen.add((statement.name, channel))
                go(reading.phrases[statement.name].block.statements, channel)
            for block in statement.blocks:
                go(block.statements, statement.number if statement.word == "channel" else channel)

    go(reading.statements, 0)
    for name, phrase in reversed(list(reading.phrases.items())):
        if not any(known == name for known, _ in seen):
            seen.add((name, 0))
            go(phrase.block.statements, 0)
    return found


def _moves(statement: Statement, heard: dict[int, set[int]]) -> bool:
    """Whether the pitches of a statement are no drums."""
    channels = heard.get(statement.first.start, set())
    if DRUM_CHANNEL in channels and len(channels) > 1:
        raise Refused(statement.first,
                      "this note is played on the channel of drums and on others: it cannot move for one alone")
    return bool(channels) and DRUM_CHANNEL not in channels


def plays_others(reading: Reading, name: str) -> list[str]:
    """The phrases that a phrase plays by name."""
    phrase: Phrase = reading.phrases[name]
    return sorted({statement.name for statement in reading.every_statement() if statement.word == "do"
                   and phrase.block.opened.start < statement.first.start < phrase.block.closed.start})
