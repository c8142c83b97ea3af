"""Faults of numbers: one out of its range, a length that is no whole number of ticks, too many pitches or entries."""

from __future__ import annotations

import re
from fractions import Fraction

from ..language.ranges import ENTRIES, MILLION, PITCHES, Range, range_at
from .sentences import Told, lines
from .spot import Spot
from ..language.tokens import NUMBER, PITCH

#: What has too many items in a statement, by its word: what is counted, and where the others go.
_MANY = {"note": (PITCHES, "pitch", "a second voice"), "play": (PITCHES, "pitch", "a second voice"),
         "shape": (ENTRIES, "part", "a second shape")}


def _many(spot: Spot) -> tuple[int, str, str]:
    return _MANY.get(spot.word, (ENTRIES, "entry", "a second block after it"))


def at_number(spot: Spot, number: int) -> Told:
    """A number that may not be here, with fault 7 or 8."""
    most, item, other = _many(spot)
    commas = sum(each.text == "," for each in spot.line.lexemes[spot.first:spot.index])
    where = spot.expected.get(spot.here.kind, "")
    if commas >= most and number == 7:
        return Told("fact", f"`{spot.word}` has at most {most} of them: write the others in {other}", (),
                    f"this {item} is one too many")
    if spot.here.kind == PITCH:
        return Told("fact", "named pitches go from `cb0`, key 11, to `g9`, key 127", (),
                    f"`{spot.here.text}` is out of its range")
    if where == "length" and spot.here.kind == NUMBER and spot.text(spot.index + 1) == "/":
        return _length(spot, int(spot.here.text), int(spot.text(spot.index + 2) or 0))
    sign = spot.here.text == "-"
    found = range_at(where, spot.word or spot.here.text)
    digits = spot.text(spot.index + sign)
    if found is None or not digits.isdigit():
        return Told("fact", "")
    return _range(spot, found, -int(digits) if sign else int(digits), spot.index + sign)


def _range(spot: Spot, found: Range, value: int, last: int) -> Told:
    what = found.what if spot.whole == 1920 else found.what.replace("1,920", f"{spot.whole:,}")
    cure = f"write a number from {_digits(found.low)} to {_digits(found.high)} ({what})"
    meant = [("the greatest" if value > found.high else "the least",
              found.high if value > found.high else found.low)]
    if value == 0 and found.low == 1 and spot.word in ("volume", "loud"):
        cure, meant = cure + "; if silence is meant, write a `rest`", []
    elif value > found.high + 2 and value > 9:
        fewer = (value // 10, int(str(value)[1:]))  # without its last digit, and without its first one
        meant += [("one digit less", each) for each in dict.fromkeys(fewer) if max(found.low, 1) <= each <= found.high]
    texts = tuple(spot.written(spot.index, last + 1, str(number)) for _, number in meant)
    cures = lines(cure, *(f"if {words} is meant, write `{number}`" for words, number in meant))
    return Told("if" if meant else "fact", cures, texts, f"`{value}` is out of its range")


def _digits(number: int) -> str:
    return f"{number:,}" if abs(number) >= 10_000 else str(number)


def _length(spot: Spot, over: int, under: int) -> Told:
    """A length that is no whole number of ticks, or too short or long."""
    whole = spot.whole
    if under == 0:
        return Told("fact", "the number after the `/` is at least 1, as in `1/4`", (), f"`{over}/0` is no length")
    ticks = Fraction(over * whole, under)
    if ticks.denominator == 1:
        what = f"`{over}/{under}` is {int(ticks):,} ticks"
        if ticks <= MILLION:
            return Told("fact", "write a length of at least 1 tick, as in `1/1`", (), what)
        less = [f"{each}/{under}" for each in (over // 10,) if each * whole <= MILLION * under]
        texts = tuple(spot.written(spot.index, spot.index + 3, each) for each in less)
        most = MILLION // whole
        return Told("if", f"write at most `{most}/1`, which is {most * whole:,} ticks" + "".join(
            f"; if one digit less is meant, write `{each}`" for each in less), texts, what)
    fitting = [each for each in range(1, 2 * under + 1) if over * whole % each == 0]
    near = [max((each for each in fitting if each < under), default=0),
            min((each for each in fitting if each > under), default=0)]
    once = re.sub(r"(.)\1", r"\1", str(under), count=1)
    near += [int(once)] if once in ("2", "4", "8", "16", "32") and once != str(under) else []
    written = [f"{over}/{each}" for each in near if each] + [f"ticks {round(ticks)}"]
    texts = tuple(spot.written(spot.index, spot.index + 3, each) for each in written)
    finer = next((each for each in range(whole // 4, 961, whole // 4) if over * 4 * each % under == 0), 0)
    more = f"; with `division {finer};` it is one" if finer and whole != 1920 else ""
    return Told("if", "write a whole number of ticks: the nearest are " + ", ".join(f"`{each}`" for each in written)
                + more, texts, f"`{over}/{under}` is {float(ticks):.2f} ticks, and no whole number of them")
