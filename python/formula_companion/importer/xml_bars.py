"""The measures of a MusicXML file in the order in which they are played, and how long they are."""

from __future__ import annotations

import re
from fractions import Fraction
from typing import Iterator, Optional, Sequence
from xml.etree.ElementTree import Element

from formula_score.reading.playing import Failed

_MOST_PLAYED = 100_000
_TAKES_TIME = "note", "forward", "backup"


def number(text: str, what: str) -> Fraction:
    """The number that a text is."""
    try:
        return Fraction(text.strip())
    except (ValueError, ZeroDivisionError):
        raise Failed(1, f"{what} is no number: {text[:20]!r}") from None


def number_of(element: Element, path: str, otherwise: Optional[Fraction] = None) -> Fraction:
    """The number in an element."""
    text = element.findtext(path)
    return otherwise if text is None and otherwise is not None else number(text or "", f"<{element.tag}>: <{path}>")


def length_of(item: Element, divisions: Fraction) -> Fraction:
    """The length of an element as a part of a whole note."""
    return number_of(item, "duration", Fraction(0)) / divisions / 4


def _rounds(measure: Element) -> Optional[list[int]]:
    """In which rounds the ending is played that begins with a measure; None where none begins."""
    for ending in measure.iterfind("barline/ending"):
        if ending.get("type") == "start":
            return list(map(int, re.findall(r"\d+", ending.get("number", "")))) or [1]
    return None


def _closes(measure: Element) -> bool:
    return any(ending.get("type") in ("stop", "discontinue") for ending in measure.iterfind("barline/ending"))


def order_of(measures: Sequence[Element]) -> list[int]:
    """The measures in the order in which repeats and endings play them."""
    found: list[int] = []
    start, turn, at = 0, 1, 0
    is_inside = False  # an ending, whose last measure leads back
    while at < len(measures) and len(found) < _MOST_PLAYED:
        measure = measures[at]
        if measure.find("barline/repeat[@direction='forward']") is not None and start != at:
            start, turn = at, 1
        rounds = _rounds(measure)
        if rounds and turn not in rounds:
            while at < len(measures) and not _closes(measures[at]):
                at += 1
            at += 1
            continue
        is_inside = is_inside or bool(rounds)
        found.append(at)
        back = measure.find("barline/repeat[@direction='backward']")
        if back is not None and (is_inside or turn < int(re.sub(r"\D", "", back.get("times", "")) or 2)):
            at, turn = start, turn + 1
        else:
            if back is not None or is_inside and _closes(measure):
                start, turn = at + 1, 1
            at += 1
        is_inside = is_inside and not _closes(measure)
    return found


def lengths_of(parts: Sequence[Element]) -> list[Fraction]:
    """The length of each measure: of its longest part, or where nothing is in it by its time signature."""
    found: list[Fraction] = []
    for part in parts:
        divisions, signature = Fraction(1), Fraction(1)
        for at, measure in enumerate(part.findall("measure")):
            now = longest = Fraction(0)
            for item in measure:
                if item.tag == "attributes":
                    divisions = _divisions(item, divisions)
                    signature = signature_of(item) or signature
                elif item.tag in _TAKES_TIME and item.find("chord") is None and item.find("cue") is None:
                    now += length_of(item, divisions) * (-1 if item.tag == "backup" else 1)
                    longest = max(longest, now)
            found += [Fraction(0)] * (at + 1 - len(found))
            found[at] = max(found[at], longest or signature)
    return found


def _divisions(attributes: Element, otherwise: Fraction) -> Fraction:
    found = number_of(attributes, "divisions", otherwise)
    if found <= 0:
        raise Failed(1, f"<divisions> is {found}")
    return found


def signature_of(attributes: Element) -> Optional[Fraction]:
    """The length of a bar by a time signature; of one that adds beats, as 3+2, their sum."""
    beats, unit = attributes.findtext("time/beats"), attributes.findtext("time/beat-type")
    if not beats or not unit or not unit.strip().isdigit() or int(unit) == 0:
        return None
    return Fraction(sum(map(int, re.findall(r"\d+", beats))), int(unit)) or None


def played(part: Element, order: Sequence[int],
           lengths: Sequence[Fraction]) -> Iterator[tuple[Fraction, Element, Fraction]]:
    """Each measure of a part as it is played: where it begins, and its divisions at its beginning."""
    measures, at = part.findall("measure"), Fraction(0)
    divisions: list[Fraction] = []
    now = Fraction(1)
    for measure in measures:
        divisions.append(now)
        for attributes in measure.findall("attributes"):
            now = _divisions(attributes, now)
    for number in order:
        if number < len(measures):
            yield at, measures[number], divisions[number]
        at += lengths[number]
