"""What an editor shows beside a text while it is written: why it is refused, else what lint and bars find."""

from __future__ import annotations

import re
from fractions import Fraction
from typing import Callable, NamedTuple, Optional

from ..explaining.explain import Place, place_of, refusal
from ..language.tokens import tokens
from ..reading.meter import Meter, groups_of
from ..reading.reader import read
from ..reading.tree import Reading
from ..repair import told
from .bars import Heard, edges, off
from .finding import ERROR, Edit, Found
from .lint import looked, not_ignored
from .looking import Looking

#: Of a text that plays more statements only what shows without playing is found.
MOST = 20_000
#: How much of a changed line is shown, in characters.
SHOWN = 80
_NAME = "score"
_WORD = re.compile(rb"\w+|\S")
#: The meters of a text of which nobody knows it.
_USUAL = ("4/4", "3/4")


class Change(NamedTuple):
    """A change in words, and what is written where."""

    title: str
    edits: tuple[Edit, ...]


class Problem(NamedTuple):
    """How bad something is, by which rule, what it is, from which byte to which, and what would change it. Of a refusal
    `said` is all that a terminal shows of it, and `cure` its end."""

    severity: str
    rule: str
    what: str
    start: int
    end: int
    changes: tuple[Change, ...]
    cure: str = ""
    said: str = ""


def problems(text: bytes, said: str, heard: Heard, meter: Optional[Callable[[Reading], Meter]] = None,
             most: Optional[int] = MOST) -> list[Problem]:
    """What is to be shown of a text about which the program said this, which is nothing where it accepts it; `heard`
    gives the listing of its file, with which what is played here is compared."""
    place = place_of(said)
    if place is not None or said:
        return [refused(text, place)] if place else []
    reading = read(text)
    walk = Looking(reading, edges(reading), most)
    found, is_whole = looked(walk, heard)
    names = {each.rule for each in found}
    found += [each for each in (_of_bars(walk, meter) if is_whole else ()) if each.rule not in names]
    starts = [0, *(end.end() for end in re.finditer(b"\n", text))]
    return [_shown(text, starts[each.line - 1] + each.column - 1, each) for each in sorted(found)]


def _of_bars(walk: Looking, meter: Optional[Callable[[Reading], Meter]]) -> list[Found]:
    """What is off in the bars; where nobody knows the meter, in the one of the usual ones in which least is. It may have
    an upbeat, where a comment says so."""
    reading = walk.reading
    parts = range(7 if any("upbeat" in comment.text for comment in reading.comments) else 1)
    usual = (Meter(groups_of(word), Fraction(part, 8), reading.whole) for part in parts for word in _USUAL)
    meters = [meter(reading)] if meter else list(usual)
    found = [(not_ignored(reading, off(walk, each)), _ends_off(walk.end, each)) for each in meters]
    return min(found, key=lambda both: len(both[0]) + both[1])[0]


def _ends_off(end: int, meter: Meter) -> bool:
    """Whether a piece ends off the bar lines; its last bar may be shorter by the upbeat."""
    bar = meter.start(2) - meter.start(1)
    return bool(end % bar and (end - meter.upbeat) % bar)


def _shown(text: bytes, start: int, found: Found) -> Problem:
    word = _WORD.match(text, start)
    changes = (_change(text, found.changed(text), found.edits),) if found.edits else ()
    return Problem(found.severity, found.rule, found.what, start, word.end() if word else start, changes)


# ---- a refusal

def refused(text: bytes, place: Place) -> Problem:
    """What is told of a text that the program refuses at a place, and which part of it is to be underlined."""
    said = refusal(_NAME, text, place)
    first, *others = said.split("\n")
    _, line, column, heading = first.split(":", 3)
    # two lines show the text and a caret under it
    shows = bool(others) and others[0].startswith(f"{line} |")
    found = told(text, *place)
    changes = tuple(_change(text, new) for new in (found.texts if found else ()))
    start, end = _underlined(text, int(line), int(column))
    return Problem(ERROR, f"fault {place.number}", heading.strip(), start, end, changes,
                   "\n".join(others[2:] if shows else others), said)


def _underlined(text: bytes, line: int, column: int) -> tuple[int, int]:
    """The token at a place; where none begins there, the character before it in its line."""
    starts = [0, *(end.end() for end in re.finditer(b"\n", text))]
    begin = starts[min(line, len(starts)) - 1]
    byte = min(len(text), begin + column - 1)
    token = next(tokens(text[byte:byte + 4000].decode("latin-1")))
    if token.start == 0 and token.text:
        end = byte + token.end
        while end < len(text) and text[end] & 0xC0 == 0x80:  # a character of several bytes
            end += 1
        return byte, end
    start = byte
    while start > begin and (start == byte or text[start] & 0xC0 == 0x80):
        start -= 1
    return start, byte


# ---- changes

def _change(text: bytes, new: bytes, edits: tuple[Edit, ...] = ()) -> Change:
    """The lines in which a new text differs, in words; and as one edit, where there are no others."""
    olds, news = text.split(b"\n"), new.split(b"\n")
    same = next((at for at, (one, other) in enumerate(zip(olds, news)) if one != other), min(len(olds), len(news)))
    most = min(len(olds), len(news)) - same
    end = next((at for at in range(most) if olds[-1 - at] != news[-1 - at]), most)
    changed, gone = (b"\n".join(lines[same:len(lines) - end]).decode("utf-8", "replace") for lines in (news, olds))
    begin = sum(map(len, olds[:same])) + same if same < len(olds) else len(text)
    behind = len(text) - sum(map(len, olds[len(olds) - end:])) - end
    title = f"write `{_short(changed)}`" if changed.strip() else f"take `{_short(gone)}` away"
    if len(olds) - end <= same:  # lines are added alone
        behind, changed = begin, changed + "\n"
    return Change(title, edits or (Edit(begin, behind, changed),))


def _short(lines: str) -> str:
    words = " ".join(lines.split())
    return words if len(words) <= SHOWN else words[:SHOWN] + "…"
