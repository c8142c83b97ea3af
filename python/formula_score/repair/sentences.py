"""What is said of a change: `write`, or `if .. is meant`, by how sure it is."""

from __future__ import annotations

import re
from fractions import Fraction
from typing import NamedTuple, Optional

from .search import NEAR
from .spot import Spot
from .ways import Way, old_of


class Told(NamedTuple):
    """What is told: how sure it is (`write`, `if`, `fact` or `form`), what to do, and the texts that this leads to.

    `what` is what is at the place, "" where the meaning of the fault says it.
    """

    strength: str
    cure: str
    texts: tuple[bytes, ...] = ()
    what: str = ""


#: How long a statement is shown, and how long a line is, in characters.
SHOWN, LINE = 90, 160
#: Stretches that may be beats a minute.
BEATS = range(30, 301)
_PITCH = re.compile(r"\b[a-g][sb]?([0-9])\b")


def lines(*parts: str) -> str:
    """Parts of a sentence, on one line where they have room."""
    whole = "; ".join(part for part in parts if part)
    return whole if len(whole) <= LINE else "\n".join(part for part in parts if part)


def _stretches(text: str) -> set[int]:
    return {int(each) for each in re.findall(r"\b(?:by|to) ([0-9]+)\b", text)}


def _both(way: Way, spot: Spot, why: str) -> Optional[Told]:
    """Both readings of stretches that may be beats a minute, where the text has them in another way."""
    slow = sorted(each for each in _stretches(way.shown) if each in BEATS)
    wrote = spot.line.part(spot.first, max(way.repair.end, spot.first))
    if not set(slow) - _stretches(wrote):
        return None
    named = " and ".join(map(str, slow))

    def beats(text: str) -> str:
        for each in slow:
            text = re.sub(rf"\b(by|to) {each}\b", rf"\1 {round(120_000 / each)}", text)
        return text

    are, is_it = ("are", "they are stretches") if len(slow) > 1 else ("is", "it is a stretch")
    end = way.data.find(b";", spot.place)
    begun = spot.byte(spot.first)
    part = beats(way.data[begun:end].decode("utf-8", "surrogateescape")).encode("utf-8", "surrogateescape")
    return Told("if", lines(f"{why}if {named} {are} quarter notes a minute, write `{beats(way.shown)}`",
                            f"if {is_it}, write `{way.shown}`"),
                (way.data[:begun] + part + way.data[end:], way.data))


def _moves_far(way: Way, spot: Spot) -> bool:
    """Whether a length changes by more than four times, or the octave of a pitch is none that was written."""
    for edit in way.repair.edits:
        old = old_of(spot.line, edit)
        lengths = [[Fraction(int(a), int(b)) for a, b in re.findall(r"([0-9]+)/([1-9][0-9]*)", text)]
                   for text in (old, edit.new)]
        if all(lengths) and not lengths[0][0] <= 4 * lengths[1][0] <= 16 * lengths[0][0]:
            return True
        if not set(_PITCH.findall(edit.new)) <= set(re.findall("[0-9]", old)):
            return True
    return False


def _gone(way: Way, spot: Spot) -> str:
    """What a repair takes away, where it writes nothing."""
    if any(edit.new for edit in way.repair.edits):
        return ""
    return "` and `".join(dict.fromkeys(old_of(spot.line, edit) for edit in way.repair.edits))


def _cut(text: str, most: int) -> str:
    return text if len(text) <= most else text[:most - 1].rstrip() + "…"


def said(way: Way, spot: Spot) -> Told:
    """How sure a repair is, and its sentence."""
    edits = way.repair.edits
    main = max(edits, key=lambda edit: edit.row.cost)
    why = f"{main.row.why}: " if main.row.why else ""
    both = _both(way, spot, why)
    if both:
        return both
    is_sure = all(edit.row.sure for edit in edits) and not _moves_far(way, spot)
    strength, texts = "write" if is_sure else "if", (way.data,)
    if main.row.to_end and main.new:
        return Told("if", f"{why}if `{_cut(old_of(spot.line, main), 40)}` is a comment, write `#` before it", texts)
    gone = _gone(way, spot)
    if gone:
        return Told(strength, f"{why}take `{_cut(gone, 60)}` away" if is_sure else
                    f"{why}if nothing is meant by `{_cut(gone, 60)}`, take it away", texts)
    if main.row is NEAR and is_sure:
        return Told("write", f"did you mean `{main.new}`?", texts)
    old = old_of(spot.line, main)
    new = main.new.strip()
    what = (f"`{way.shown}`" if len(way.shown) <= SHOWN else f"`{_cut(new, 60)}` in place of `{_cut(old, 40)}`"
            if old else f"`{_cut(new, 60)}` before `{_cut(spot.text(main.first) or 'the end', 30)}`")
    if is_sure:
        return Told(strength, lines(f"{why}write {what}"), texts)
    new = new.rstrip(" {")
    meant = f"`{new}`" if new and len(new) < 30 and new != way.shown else "that"
    return Told(strength, f"{why}if {meant} is meant, write {what}", texts)
