"""Faults of names: one that is taken, and one that no phrase or shape above has."""

from __future__ import annotations

import difflib
import re

from .sentences import Told
from .spot import Spot, line_of, names_of


def _lines(data: bytes, name: str) -> list[int]:
    """The lines on which a name is defined."""
    clean = data.split(b"\n")
    return [number for number, line in enumerate(clean, 1)
            if name in names_of(line) or name in names_of(b"\n".join(clean[max(0, number - 2):number]))]


def taken(spot: Spot) -> Told:
    """A name that an earlier shape or phrase has."""
    name = spot.here.text
    line = next(iter(_lines(spot.head, name)), 1)
    stem, digits = re.fullmatch(r"(.*?_?)([0-9]*)", name).groups()  # type: ignore[union-attr]
    names = names_of(spot.data)
    new = next(each for each in (f"{stem if digits else name + '_'}{number}" for number in range(2, 999))
               if each not in names)
    return Told("if", f"if this is another one, give it a name of its own, such as `{new}`; if it is the same, take "
                "one of the two away", (spot.written(spot.index, spot.index + 1, new),),
                f"the name `{name}` is taken on line {line}")


def unknown(spot: Spot) -> Told:
    """A `do` or `warp` whose name is none above."""
    name, head = spot.here.text, spot.word
    kind = "phrase" if head == "do" else "shape"
    what = f"no {kind} above has the name `{name}`"
    others = names_of(spot.data)
    block = spot.around.blocks[0] if spot.around.blocks else None
    opened = spot.data[block.begun:block.brace].split() if block else []
    if [b"phrase", name.encode()] == opened[:2]:
        return Told("fact", f"a phrase cannot play itself: write its `}}` before `do {name};`, or a `repeat` round "
                    "what comes again", (), what)
    if name in spot.names and spot.names[name] != kind:
        form = f"`do {name};`" if head == "warp" else f"`warp {name} {{ .. }}`"
        return Told("if", f"`{name}` is a {spot.names[name]}: if it is meant, write {form}", (), what)
    if others.get(name) == kind and name not in spot.names:
        line = next((each for each in _lines(spot.data, name) if each >= line_of(spot.data, spot.place)), 0)
        return Told("fact", f"the {kind} is below, on line {line}: move it above this statement", (), what)
    above = [each for each, of in spot.names.items() if of == kind]
    meant = difflib.get_close_matches(name, above, 2, 0.7) or [
        each for each in above if len(name) > 2 and (each.startswith(name) or len(each) > 2 and name.startswith(each))]
    if meant:
        return Told("write", "did you mean " + " or ".join(f"`{each}`" for each in meant) + "?",
                    tuple(spot.written(spot.index, spot.index + 1, each) for each in meant), what)
    form = f"phrase {name} {{ .. }}" if head == "do" else f"shape {name} = slope 1/1 by 1000 to 1500;"
    known = f"; there {'are' if len(above) > 1 else 'is'} {', '.join(f'`{each}`' for each in above)}"
    return Told("fact", f"if it is a new one, write `{form}` above" + (known if 0 < len(above) < 6 else ""), (), what)
