"""What is at a refused place, in words."""

from __future__ import annotations

import re
import unicodedata

from .spot import Spot
from ..language.tokens import END, INDEX, NAME, NUMBER, OTHER, PITCH, REGISTER

_KINDS = {NUMBER: "a number", PITCH: "a pitch", REGISTER: "a register", INDEX: "an index", NAME: "a name"}
_PLACES = {"length": "a length", "pitch": "a pitch", "statement": "a statement", "operator": "an operator",
           "value": "a value", "part": "a part"}


def is_over_line(spot: Spot) -> bool:
    """Whether something is missing at the end of a line above, or of the text."""
    before = spot.text(spot.index - 1) if spot.index else ""
    return bool(before) and spot.first < spot.index and before not in ("{", "}", ",") and spot.here.apart == 2


def _expected(spot: Spot) -> str:
    """What may be at the place, the last three of it."""
    found: list[str] = []
    for kind, place in spot.expected.items():
        if place in _PLACES and kind not in ("}", ")", ",", END):
            found.append(_PLACES[place])
        elif kind in _KINDS:
            found.append(_KINDS[kind])
        elif kind not in ("(", "-"):
            found.append(f"`{kind}`" if kind[0].isalpha() else f"a `{kind}`")
    return " or ".join(list(dict.fromkeys(found))[-3:])


def _byte(spot: Spot) -> str:
    """What is said of a byte that begins no token."""
    here = spot.here.text
    first = spot.data[spot.place:spot.place + 4].decode("utf-8", "replace")[:1]
    named = unicodedata.name(first, "").lower()
    if first.isascii() and first.isalpha():
        return f"`{here}` is no word of the language, by its capital letter"
    if named and (first.isspace() or unicodedata.category(first) in ("Cf", "Zs", "Zl", "Zp")):
        return f"there is {'an' if named[0] in 'aeiou' else 'a'} {named}, which is no blank of the language"
    plain = unicodedata.normalize("NFKC", first)
    if named and plain != first and plain in ";{}()[],=/+-*%":
        return f"this sign looks like `{plain}`, and is another one, a {named}"
    if not named:
        return f"the byte {spot.data[spot.place]:02X} begins no word of the language"
    return f"`{first}` begins no word of the language"


def heading(spot: Spot, number: int) -> str:
    """What is at the place of a fault of tokens or of the grammar."""
    here = spot.here
    if number == 1:
        return _byte(spot)
    if number == 2:
        found = re.match(r"[0-9a-z_]+", here.text + spot.source[here.end:here.end + 30])
        return f"`{found[0][:24] if found else here.text}` is no number"
    if "formula" in spot.expected:
        return f"a score begins with `formula 1;`, this one with `{here.text}`" if here.text else "the text is empty"
    if not spot.word:
        if here.kind == END:
            return "the text ends, and a `{` is open" if spot.around.blocks else "the text ends too early"
        return "this `}` closes nothing" if here.text == "}" else f"`{here.text}` begins no statement"
    expected = _expected(spot)
    if here.kind == END:
        return f"here {expected} is expected, and the text ends"
    first = spot.data[spot.place:spot.place + 4].decode("utf-8", "replace")[:1] if here.kind == OTHER else ""
    shown = first if first and not first.isalnum() else here.text
    if is_over_line(spot):
        line = spot.data.count(b"\n", 0, spot.place) + 1
        return f"here {expected} is expected, and `{shown}` of line {line} follows"
    return f"here {expected} is expected, and there is `{shown}`"
