"""What rows are made of: texts that patterns share, and what is written for what they find."""

from __future__ import annotations

import re
from fractions import Fraction
from typing import Callable, Optional

from ...making.midi import INSTRUMENTS
from ..row import Write
from ..spelling import STEPS, length, pitch, spelled, written

#: A pitch, the same as others may spell it, a length, a value, and a sum of values.
P = r"[a-g][sb]?[0-9]"
F = r"[A-Ha-h](?:isis|eses|is|es|[sb#♯♭])?(?:[0-9]|['’]+)"
L = r"(?:[0-9]+/[0-9]+|ticks [0-9]+)"
V = r"(?:[rn]?[0-9]+|\([^()]*\)|(?:pick|min|max)\([^()]*\))"
E = rf"((?:- ?)?{V}(?: ?[-+*/%] ?{V})*)"
CONTROLS = {"modulation": 1, "mod": 1, "breath": 2, "volume": 7, "vol": 7, "balance": 8, "pan": 10, "panning": 10,
            "expression": 11, "sustain": 64, "pedal": 64, "damper": 64, "reverb": 91, "chorus": 93}
DIGITS = dict(zip("zero one two three four five six seven eight nine ten".split(), range(11)))
LOUD = {"pianissimo": 33, "piano": 49, "mezzopiano": 64, "mezzoforte": 80, "forte": 96, "fortissimo": 112}


def spell(by: Callable[[str], Optional[str]], group: int = 0) -> Write:
    """What a speller makes of what is found, if that is another text."""
    def write(found: "re.Match[str]") -> Optional[str]:
        new = by(found[group])
        return new if new != found[0] else None
    return write


def by_digit(found: "re.Match[str]") -> Optional[str]:
    """A pitch whose octave is a digit."""
    new = pitch(found[0]) if re.search("[0-9]", found[0]) else None
    return new if new != found[0] else None


def key_of(found: "re.Match[str]") -> str:
    """The key of a pitch."""
    name = (re.search(P, found[0]) or found)[0]
    return str(12 * (int(name[-1]) + 1) + STEPS[name[0]] + {"s": 1, "b": -1}.get(name[1], 0))


def instrument(found: "re.Match[str]") -> Optional[str]:
    """The program of an instrument of General MIDI."""
    name = found[1].lower().replace("_", " ").strip("'\" ")
    fitting = [each for each in INSTRUMENTS if name == each] or [each for each in INSTRUMENTS if re.search(
        rf"\b{re.escape(name)}\b", each)]
    return f"program {INSTRUMENTS.index(fitting[0])};" if fitting and len(name) > 3 and name != "breath" else None


def tempo(found: "re.Match[str]") -> Optional[str]:
    """The shape of a tempo, and a block of it."""
    number = int(found[1])
    return f"shape tempo_{number} = flat 500/1 by {round(120_000 / number)}; warp tempo_{number} {{" if (
        20 <= number <= 400) else None


def chord(found: "re.Match[str]") -> Optional[str]:
    """Pitches, however they are spelled and parted, as a chord."""
    each = [pitch(text) for text in re.findall(F, found[0])]
    return ", ".join(filter(None, each)) if all(each) else None


def row_of_notes(found: "re.Match[str]") -> Optional[str]:
    """Pitches each with its length, as notes."""
    each = [(pitch(one), long if "/" in long or " " in long else length(long)) for one, long in re.findall(
        rf"({F}) ({L}|[0-9]+\.*)", found[0])]
    return " ".join(f"note {one} {long};" for one, long in each) if all(one and long for one, long in each) else None


def named(found: "re.Match[str]") -> Optional[str]:
    """A note whose pitch and length have names."""
    long = found[2].strip() if re.fullmatch(L, found[2].strip()) else length(found[2].strip())
    one = f"key {found[1]}" if found[1].isdigit() else pitch(found[1])
    return f"note {one} {long};" if one and long else None


def stretch(found: "re.Match[str]") -> Optional[str]:
    """A stretch as a share or in percent, in thousandths."""
    value = Fraction(found[1]) * (10 if found[0].endswith("%") else 1000)
    return str(value) if value.denominator == 1 and value else None


def rest_of_letter(found: "re.Match[str]") -> Optional[str]:
    """`r4.`, `R1*2` or `r1~1`: a rest of LilyPond or alda."""
    lengths = [length(each) or "ticks" for each in found[1].split("~")]
    if any("t" in each for each in lengths):
        return None
    return f"rest {written(sum(map(Fraction, lengths), Fraction(0)) * int(found[2] or 1))};"


#: Values of controllers in words.
VALUES = {"off": 0, "up": 0, "min": 0, "left": 0, "half": 64, "center": 64}


def in_parentheses(found: "re.Match[str]") -> str:
    """What is in the parentheses behind a word, without them."""
    inner = found[2].replace(",", "") if found[1] == "control" else re.sub(", (?=[0-9]+/)", " ", found[2])
    return f"{found[1]} {inner}{';' if found[3] == ';' else ' {'}"


def at_speed(found: "re.Match[str]") -> str:
    """A block so many times as fast or slow."""
    name, times = f"{found[1]}_{found[2]}", int(found[2]) or 1
    by = 1000 // times if found[1] == "fast" else 1000 * times
    return f"shape {name} = flat 250/1 by {by}; warp {name} {{"


def tempo_outside(found: "re.Match[str]") -> str:
    """Where the shape of a tempo goes that is written inside a block."""
    beats = found[1]
    return (f"if {beats} is quarter notes a minute, write `shape tempo_{beats} = flat 500/1 by "
            f"{round(120_000 / max(1, int(beats)))};` outside all blocks,\nand `warp tempo_{beats} {{ .. }}` here")


#: Drums by what others call them, as pitches.
DRUM = {"kick": "c2", "bd": "c2", "bass drum": "c2", "snare": "d2", "sn": "d2", "hihat": "fs2", "hi-hat": "fs2",
        "hh": "fs2", "hhc": "fs2", "hho": "bb2", "clap": "eb2", "tom": "a2", "crash": "cs3", "cymc": "cs3",
        "ride": "eb3", "rim": "cs2", "rimshot": "cs2", "cowbell": "gs3", "tambourine": "fs3"}
_CHORDS = {"major": (4, 7), "maj": (4, 7), "M": (4, 7), "minor": (3, 7), "min": (3, 7), "m": (3, 7), "dim": (3, 6),
           "aug": (4, 8), "maj7": (4, 7, 11), "m7": (3, 7, 10), "dom7": (4, 7, 10), "7": (4, 7, 10)}


def chord_of(found: "re.Match[str]") -> Optional[str]:
    """A chord by its lowest pitch and its kind."""
    root = re.match(P, found[1])
    each = [found[1], *(spelled(int(key_of(root)) + above, "c", 99) for above in _CHORDS[found[2]])] if root else []
    return ", ".join(filter(None, each)) or None


def setting_of(found: "re.Match[str]") -> str:
    """A block of a setting that another program writes in parentheses."""
    word = {"vol": "volume", "velocity": "volume", "quant": "gate", "quantize": "gate"}.get(found[1], found[1])
    return f"{word} {found[2]} {{"


def tuplet(found: "re.Match[str]") -> Optional[str]:
    """Notes, each two thirds as long."""
    lengths = {text: written(Fraction(text) * Fraction(2, 3)) for text in re.findall(r"[0-9]+/[1-9][0-9]*", found[1])}
    if not lengths or not all(lengths.values()):
        return None
    return re.sub(r"[0-9]+/[0-9]+", lambda text: lengths[text[0]] or "", found[1]).strip()


def tremolo(found: "re.Match[str]") -> Optional[str]:
    """A loop of notes of one length that are together as long."""
    times = Fraction(found[2]) * int(found[3])
    return f"repeat {times} {{ note {found[1]} 1/{found[3]}; }}" if times.denominator == 1 else None


def octaves(found: "re.Match[str]") -> str:
    """Pitches an octave higher or lower."""
    rise = -1 if found[0].startswith("8vb") else 1
    return re.sub(rf"\b{P}\b", lambda text: f"{text[0][:-1]}{min(9, max(0, int(text[0][-1]) + rise))}", found[1])


def pattern(found: "re.Match[str]") -> Optional[str]:
    """Pitches in a row, of lengths in turn."""
    each = [f"play {pitch(text.strip(' :')) or ''};" for text in found[1].split(",")]
    return f"rhythm [{(found[2] or '1/4').strip(' ,')}] {{ {' '.join(each)} }}" if "play ;" not in each else None


def notes_of_lilypond(found: "re.Match[str]") -> Optional[str]:
    """Notes of LilyPond: a length holds for those behind it."""
    long, notes = "1/4", list[str]()
    for name, digits in re.findall(r"([a-g](?:is|es)?(?:'+|,+))([0-9]*\.*)", found[0]):
        long = length(digits) or long if digits else long
        notes.append(f"note {pitch(name)} {long};")
    return " ".join(notes)


OPERATORS = {"mod": "%", "times": "*", "plus": "+", "minus": "-", "and": "+", "x": "*", "×": "*", "·": "*", "÷": "/"}


def compared(found: "re.Match[str]") -> str:
    """A comparison by its sign."""
    left, sign, right = found.groups()
    if sign[0] in "<>" and sign != "<>":
        less = f"less({left}, {right})" if sign in ("<", ">=") else f"less({right}, {left})"
        return f"1 - {less}" if sign.endswith("=") else less
    return f"{'' if sign in ('=', '==', '===', 'is', 'eq') else '1 - '}same({left}, {right})"


def tied(found: "re.Match[str]") -> Optional[str]:
    """Lengths of alda that are tied, as one."""
    each = [length(text) for text in found[1].split("~")]
    return written(sum((Fraction(text) for text in each if text and "t" not in text), Fraction(0)))
