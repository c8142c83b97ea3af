"""What a word of a text means: the row of the reference for each word, and what a pitch or a number stands for."""

from __future__ import annotations

from typing import NamedTuple, Optional

from formula_score.language.grammar import KEYWORDS
from formula_score.language.index import musical
from formula_score.language.tokens import INDEX, NAME, NUMBER, PITCH, REGISTER, Token, tokens
from formula_score.making.midi import DRUM_CHANNEL, DYNAMICS, INSTRUMENTS
from formula_score.making.pitch import Pitch
from formula_score.reading.names import CONTROLLERS
from formula_score.repair.forms import FORMS
from formula_score.repair.spot import Spot
from .names import Use, definition

#: How much of a definition is shown, in bytes.
SHOWN = 200

#: What each word of the language says. docs/LANGUAGE.md has more of each.
SAYS = {
    "formula": "the version of the language, 1 or 2, with which each score begins",
    "division": "the ticks of a quarter note, 24 to 960; behind `formula 2;` alone, 480 where it is not said",
    "seed": "the number from which `pick` draws; 0 where it is not said",
    "shape": "a time deformation of parts one after another, which `warp` plays a block through",
    "flat": "a part of a shape: a length by one stretch in thousandths; 1000 is as written, 2000 half as fast",
    "slope": "a part of a shape: a length by a stretch that goes evenly from one number to another, in thousandths",
    "pause": "a part of a shape without length in the block: delays all that falls on it or follows",
    "breath": "a part of a shape: as `pause`, but a note-off that falls exactly on it stays where it is",
    "by": "the stretch of a part in thousandths, 1 to 1,000,000: 120,000 divided by the quarter notes a minute",
    "to": "the stretch at the end of a `slope`, in thousandths",
    "ticks": "a length in ticks, 0 to 1,000,000; computed as `ticks (E) max N`",
    "phrase": "a name for statements, which `do` plays; outside all blocks, above its first `do`",
    "note": "starts up to 16 pitches together, and moves on by the length",
    "play": "a note whose length is the next entry of the innermost `rhythm`",
    "rest": "moves on in silence",
    "skip": "a rest whose length is the next entry of the innermost `rhythm`",
    "control": "a control change: the controller and the value, both 0 to 127",
    "program": "a program change, 0 to 127: the number in a list of General MIDI less one",
    "bend": "a pitch bend, -8192 to 8191; 0 is none, 8192 is two semitones on most instruments",
    "set": "gives a register, `r0` to `r7`, a value",
    "if": "plays its first block where the value is above 0, else the block behind `else`",
    "else": "the block of an `if` whose value is not above 0",
    "repeat": "plays its block so many times, 0 to 1,000,000; `n0` is the round, from 0; computed as `(E) max N`",
    "max": "the most that a computed count or length may be; `max(a, b)` is the greater of two values",
    "do": "plays the statements of an earlier phrase in its place",
    "par": "branches that begin together; what follows begins where the longest one has ended",
    "branch": "a voice of a `par`: a process of its own, with registers of its own",
    "warp": "plays its block through a shape",
    "channel": "the channel of its block, 0 to 15; 9 is that of drums",
    "volume": "the velocity of the notes of its block, 1 to 127; 64 where it is not said",
    "gate": "how long the notes of its block sound, in percent of their lengths, 0 to 400; 90 where it is not said",
    "rhythm": "lengths for `play` and `skip`, an entry each in turn; the list goes round",
    "artic": "percentages, 0 to 400, an entry for each note or chord in turn; the list goes round",
    "loud": "velocities, 1 to 127, an entry for each note or chord in turn; the list goes round",
    "key": "a pitch by its number in MIDI, 0 to 127; 60 is `c4`, middle C",
    "pick": "draws a number from 0 to n - 1; 0 where n is below 1",
    "min": "the less of two values",
    "less": "1 where the first value is below the second, else 0",
    "same": "1 where two values are equal, else 0",
}
_FORMS = {
    "flat": "flat 4/1 by 1250", "slope": "slope 1/1 by 1000 to 1500", "pause": "pause 1/4", "breath": "breath 1/16",
    "by": "flat 4/1 by 1250", "to": "slope 1/1 by 1000 to 1500", "ticks": "ticks 120", "max": "max(48, r0)",
    "branch": "par { branch { .. } branch { .. } }", "key": "key 60", "pick": "pick(12)", "min": "min(72, r0)",
    "less": "less(r0, 60)", "same": "same(n0, 3)",
}


class Row(NamedTuple):
    """What a word means: how it is written, '' where that says nothing, and what it says; and where it stands."""

    form: str
    says: str
    start: int
    end: int


def form_of(word: str) -> str:
    """How a word of the language is written."""
    return FORMS.get(word) or _FORMS[word]


def row_at(data: bytes, byte: int) -> Optional[Row]:
    """What the word or number at a byte means; None where there is none."""
    for token in tokens(data.decode("latin-1")):
        if token.start > byte or not token.text:
            return None
        if byte < token.end or byte == token.end and (token.is_word or token.kind == NUMBER):
            found = _means(data, token)
            return Row(*found, token.start, token.end) if found else None
    return None


def _means(data: bytes, token: Token) -> Optional[tuple[str, str]]:
    if token.kind in KEYWORDS:
        return form_of(token.text), SAYS[token.text]
    if token.kind == PITCH:
        return token.text, f"key {int(Pitch(token.text))}"
    if token.kind == REGISTER:
        return token.text, "a register: a value that `set` gives it, 0 at the beginning of each process"
    if token.kind == INDEX:
        return token.text, f"the round, from 0, of the loop {'round this' if token.text == 'n0' else 'so far outwards'}"
    if token.kind == NUMBER:
        spot = Spot(data, token.start)
        return _number(int(token.text[:9]), spot.word, spot.expected.get(NUMBER, ""))
    if token.text == "division" and "division" in Spot(data, token.start).expected:
        return form_of("division"), SAYS["division"]
    if token.kind == NAME:
        return _name(data, token)
    return None


def _number(number: int, word: str, place: str) -> Optional[tuple[str, str]]:
    """What a number means at a place of the grammar, in the statement of a word."""
    if word == "program" and place == "amount" and number < 128:
        return f"program {number};", INSTRUMENTS[number]
    if place == "controller" and number in CONTROLLERS:
        return f"control {number} ..", CONTROLLERS[number]
    if word == "channel" and place == "setting" and number == DRUM_CHANNEL:
        return "channel 9 { .. }", "the channel of drums"
    if word == "volume" and place == "setting":
        names = [name for name, velocity in DYNAMICS.items() if velocity == number]
        return (f"volume {number} {{ .. }}", names[0]) if names else None
    if place == "stretch" and number:
        return f"by {number}", f"{120_000 / number:.2f} quarter notes a minute"
    return None


def _name(data: bytes, token: Token) -> Optional[tuple[str, str]]:
    defined = definition(data, Use("", token.text, token.start, False))
    if defined is None:
        line = musical(token.text)
        return (line.write, f"{line.words}: {line.note.replace('*', '')}") if line else None
    begin = data.rfind(b"\n", 0, defined.start) + 1
    shown = data[begin:data.find(b"\n", defined.start) if b"\n" in data[defined.start:] else len(data)][:SHOWN]
    return shown.decode("utf-8", "replace").strip(), f"{defined.kind} of line {data.count(10, 0, defined.start) + 1}"
