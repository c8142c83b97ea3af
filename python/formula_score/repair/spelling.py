"""Pitches and lengths as others spell them, and how they are spelled here."""

from __future__ import annotations

import re
import unicodedata
from fractions import Fraction
from typing import Optional

STEPS = dict(zip("cdefgabh", (0, 2, 4, 5, 7, 9, 11, 11)))
_NAMES = ("c", "cs", "d", "eb", "e", "f", "fs", "g", "ab", "a", "bb", "b")
_SIGNS = {"": 0, "n": 0, "nat": 0, "natural": 0, "♮": 0, "=": 0, "s": 1, "is": 1, "sharp": 1, "#": 1, "♯": 1, "^": 1,
          "b": -1, "es": -1, "f": -1, "flat": -1, "♭": -1, "_": -1, "isis": 2,
          "ss": 2, "x": 2, "##": 2, "𝄪": 2, "^^": 2,
          "♯♯": 2, "eses": -2, "bb": -2, "ff": -2, "♭♭": -2, "𝄫": -2, "__": -2}
_SIGN = "|".join(sorted((re.escape(each) for each in _SIGNS if each), key=len, reverse=True))
_PITCH = re.compile(rf"(?P<before>\^\^?|__?|=)?(?P<letter>[A-Ha-h])[-_ ]?(?P<sign>{_SIGN})?[-_]?"
                    rf"(?P<octave>-1|[0-9]{{1,2}}|['’]+|,+)?(?P<behind>[#♯♭]|s|b|(?:is|es)(?=$))?")
_SYLLABLE = re.compile(r"(do|re|mi|fa|sol|la|si|ti)([sb#]?)([0-9]?)")
_LETTER = dict(zip("do re mi fa sol la si ti".split(), "cdefgabb"))


def spelled(key: int, letter: str, rise: int) -> Optional[str]:
    """A key as a pitch with this letter, where it has at most one sign; else with another letter."""
    octave = (key - rise - STEPS[letter]) // 12 - 1
    if abs(rise) < 2 and 0 <= octave <= 9 and key <= 127:
        return f"{'b' if letter == 'h' else letter}{('', 's', 'b')[rise]}{octave}"
    if not 12 <= key <= 127:
        return f"key {key}" if 0 <= key < 12 else None
    return f"{_NAMES[key % 12]}{key // 12 - 1}"


def pitch(text: str) -> Optional[str]:
    """A pitch as others spell it; None for none."""
    named = _SYLLABLE.fullmatch(text)
    if named:
        return f"{_LETTER[named[1]]}{named[2].replace('#', 's')}{named[3] or 4}"
    found = _PITCH.fullmatch(text)
    if not found or (found["before"] or "") and (found["sign"] or found["behind"]):
        return None
    letter, sign = found["letter"].lower(), found["before"] or found["sign"] or found["behind"] or ""
    if found["sign"] and found["behind"]:
        return None
    rise = -1 if text in ("as", "es", "As", "Es") or sign == "s" and letter in "ae" and "'" in text else _SIGNS[sign]
    marks = found["octave"] or ""
    octave = 4
    if marks[:1] in ("'", "’", ","):
        if found["letter"].isupper():
            return abc(text)
        base = 3
        octave = base + len(marks) * (-1 if marks[0] == "," else 1)
    elif marks:
        octave = int(marks)
    if octave > 9:
        return None
    return spelled(12 * (octave + 1) + STEPS[letter] + rise, letter, rise)


def abc(text: str) -> Optional[str]:
    """A pitch with marks of the octave as ABC reads them: `C` is middle C, `c` is above it."""
    found = _PITCH.fullmatch(text)
    if not found or not (found["octave"] or "").strip("0123456789-"):
        return None
    marks, base = found["octave"], 5 if found["letter"].islower() else 4
    octave = base + len(marks) * (-1 if marks[0] == "," else 1)
    return pitch(f"{found['before'] or ''}{found['letter']}{found['sign'] or ''}{octave}") if 0 <= octave <= 9 else None


_WORDS = {"whole": "1/1", "half": "1/2", "quarter": "1/4", "eighth": "1/8", "sixteenth": "1/16", "semibreve": "1/1",
          "minim": "1/2", "crotchet": "1/4", "quaver": "1/8", "semiquaver": "1/16", "w": "1/1", "h": "1/2",
          "q": "1/4", "e": "1/8", "qn": "1/4", "breve": "2/1", "beat": "1/4", "beats": "1/4", "quarters": "1/4",
          "eighths": "1/8", "bar": "1/1", "thirtysecond": "1/32",
          "ganze": "1/1", "halbe": "1/2", "viertel": "1/4", "achtel": "1/8", "sechzehntel": "1/16", "ronde": "1/1",
          "blanche": "1/2", "noire": "1/4", "croche": "1/8", "semibreves": "1/1", "minima": "1/2", "croma": "1/8"}
_PARTS = dict(zip("¼½¾⅛⅜⅝⅞⅓⅔⅙♩♪", "1/4 1/2 3/4 1/8 3/8 5/8 7/8 1/3 2/3 1/6 1/4 1/8".split()))
_ENDING = {"t": Fraction(2, 3), "triplet": Fraction(2, 3), "d": Fraction(3, 2), "dotted": Fraction(3, 2)}
_LENGTH = re.compile(r"(?:([0-9]{1,4}) ?[/:\\|⁄] ?)?([0-9]{1,4}) ?(\.{0,3}) ?(t|d|triplet|dotted|th|nd|n|rd|st|)")


def written(value: Fraction) -> Optional[str]:
    """A part of a whole note as a length."""
    if value <= 0 or (value * 1920).denominator != 1 or value > 520:
        return None
    return f"{value.numerator}/{value.denominator}" if value.denominator <= 128 else f"ticks {value * 1920}"


def length(text: str) -> Optional[str]:
    """A length as others write it; None for none."""
    dotted = re.match(r"dotted[ _-]?", text)
    word = re.sub(r"^dotted[ _-]?|[ _-]?notes?$", "", text)
    if word in _WORDS or text in _PARTS:
        value = Fraction(_WORDS.get(word) or _PARTS[text])
        return written(value * Fraction(3, 2) if dotted else value)
    if re.fullmatch(r"[0-9]*\.[0-9]+", text):
        return written(Fraction(text))
    found = _LENGTH.fullmatch(text)
    if not found:
        return None
    over, under, dots, ending = found.groups()
    if not int(under):
        return None
    value = Fraction(int(over or 1), int(under)) * (2 - Fraction(1, 2 ** len(dots))) * _ENDING.get(ending, 1)
    if not over and int(under) not in (1, 2, 4, 8, 16, 32, 64, 128):
        pair = re.fullmatch(r"([1-7])([248])", under)
        return None if dots or ending else f"{pair[1]}/{pair[2]}" if pair else f"ticks {under}"
    return written(value)


#: Letters of other alphabets that look like those of this one.
_ALIKE = str.maketrans("асеорхуіѕјΑΒΕαο", "aceopxyisjABEao")


def plain(text: str) -> Optional[str]:
    """A word without the marks of its letters."""
    parts = unicodedata.normalize("NFKD", text.translate(_ALIKE))
    new = "".join(each for each in parts if not unicodedata.combining(each)).lower()
    return new if new.isascii() else None


def total(text: str) -> Optional[str]:
    """Lengths that are added, tied or multiplied."""
    parts = re.findall(r"([-+~_&*x]?) ?([0-9]+)(?:/([0-9]+))?", text)
    value = Fraction(0)
    for sign, over, under in parts:
        if under == "0":
            return None
        each = Fraction(int(over), int(under or 1))
        value = value * each if sign in ("*", "x") else value - each if sign == "-" else value + each
    return written(value)
