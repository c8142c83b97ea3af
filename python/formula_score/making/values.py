"""What a caller hands in, read in one place: whole and real numbers, truths, lists and names.

Whole numbers are what `operator.index` takes, so numpy's and others' too; a truth and a float are none. Whatever
else is handed in is a `ScoreError` that shows it.
"""

from __future__ import annotations

import difflib
import itertools
import math
import numbers
import operator
import os
import sys
from decimal import Decimal
from typing import Iterable, Iterator, Optional

from .errors import ScoreError

#: The most statements that a score can hold, so the most that any list can be of use for.
MOST_ITEMS = 262_144
_SHOWN = 60


def shown(value: object) -> str:
    """The value for a message; the end of a long one is left out."""
    try:
        text = repr(value)
    except Exception:  # a class may do what it likes, and an int may have too many digits
        text = f"a value of the type {type(value).__name__}"
    return text if len(text) <= _SHOWN else text[:_SHOWN] + "…"


def whole(what: str, value: object, low: int, high: int) -> int:
    """The whole number, of so many to so many."""
    number = index(value)
    if number is None:
        raise ScoreError(f"{what} is a whole number from {low:,} to {high:,}, and {shown(value)} is none")
    if not low <= number <= high:
        raise ScoreError(f"{what} goes from {low:,} to {high:,}, and {shown(number)} does not")
    return number


def index(value: object) -> Optional[int]:
    """The value as an int, where it is a whole number; else None."""
    if is_truth(value):
        return None
    try:
        return int(operator.index(value))  # type: ignore[arg-type]
    except Exception:  # no `__index__`, or one that fails
        return None


def is_truth(value: object) -> bool:
    """Whether the value is True or False, numpy's too."""
    return isinstance(value, bool) or type(value).__name__ in ("bool", "bool_")


def real(what: str, value: object) -> float:
    """The number, a float or of any other kind; no infinite one, and no truth."""
    try:
        if is_truth(value) or not isinstance(value, (numbers.Real, Decimal)) and index(value) is None:
            raise TypeError
        number = float(value)  # type: ignore[arg-type]
    except Exception:  # no number, or one that is too great for a float
        raise ScoreError(f"{what} is a number, and {shown(value)} is none") from None
    if not math.isfinite(number):
        raise ScoreError(f"{what} is a number, and {shown(value)} is none")
    return number


def truth(what: str, value: object) -> bool:
    """True or False, numpy's too, or 1 or 0."""
    if is_truth(value):
        return bool(value)
    number = index(value)
    if number not in (0, 1):
        raise ScoreError(f"{what} is True or False, and {shown(value)} is neither")
    return bool(number)


def text(what: str, value: object) -> str:
    """The text."""
    if not isinstance(value, str):
        raise ScoreError(f"{what} is a text, and {shown(value)} is none")
    return value


def listed(what: str, values: object, low: int, high: int = MOST_ITEMS) -> list[object]:
    """The values of a list or of whatever else goes through its values, so many to so many of them."""
    try:
        if isinstance(values, (str, bytes)):
            raise TypeError
        found: Iterator[object] = iter(values)  # type: ignore[call-overload]
    except Exception:  # it has no values, or does not give them
        raise ScoreError(f"{what} is a list, and {shown(values)} is none: put it into brackets") from None
    taken = list(itertools.islice(found, high + 1))
    if not low <= len(taken) <= high:
        count = f"more than {high:,}" if len(taken) > high else f"{len(taken):,}"
        raise ScoreError(f"{what} has {low:,} to {high:,} entries, and this one {count}")
    return taken


def near(name: str, names: Iterable[str]) -> str:
    """What may have been meant, as the end of a message: those that hold the name, else those with a word that begins
    like it, else those of near spelling."""
    every, letters = list(names), "".join(filter(str.isalnum, name.lower()))
    if not letters:
        return ""
    found = ([candidate for candidate in every if letters in "".join(filter(str.isalnum, candidate))]
             or [candidate for candidate in every if any(word.startswith(letters[:3]) for word in candidate.split())]
             or difflib.get_close_matches(name.lower(), every, 3, 0.5))
    return f"; is it {' or '.join(found[:6])}?" if found else ""


def known(what: str, name: object, names: Iterable[str]) -> str:
    """The name, which has to be one of these."""
    every = list(names)
    if not isinstance(name, str) or name not in every:
        nearest = near(name, every) if isinstance(name, str) and len(name) < _SHOWN else ""
        raise ScoreError(f"there is no {what} {shown(name)}{nearest or '; there are ' + ', '.join(every)}")
    return name


def plain(name: str) -> str:
    """A name from elsewhere, in which each character that is not printed, as an escape or a line end, is escaped."""
    return "".join(c if c.isprintable() else c.encode("unicode_escape").decode() for c in name)


#: The characters that a terminal obeys, but a line end and a tabulator, and those that turn the direction of a text.
_OBEYED = [*range(9), *range(11, 32), *range(127, 160), *range(0x202A, 0x202F), *range(0x2066, 0x206A)]
_ESCAPES = {number: chr(number).encode("unicode_escape").decode() for number in _OBEYED}


def escaped(text: str) -> str:
    """Lines for a terminal, in which it finds nothing to obey."""
    return text.translate(_ESCAPES)


def draw_line(text: str) -> None:
    """Draws the last line of the terminal that standard error is anew, straight: what is printed there is escaped."""
    sys.stderr.flush()
    os.write(2, f"\r{escaped(text)}\x1b[K".encode("utf-8", "backslashreplace"))
