"""What is told of a refused text: the first repair that is sure enough, a fact of the place, or its form."""

from __future__ import annotations

import re
from typing import Optional

from ..language.index import musical
from .forms import AT, FORMS, GRAMMAR
from .layout import missing, play_of
from .names import taken, unknown
from .numbers import at_number
from .rows import FACTS, ROWS
from .search import BESIDE, is_guess
from .sentences import SHOWN, Told, lines, said
from .spot import Spot, depth, line_of
from .ways import Way, ways_of

#: How dear a repair may be to be told, and how dear where no fact is known.
TOLD, PERHAPS = 1.9, 2.2
_ANY = "begin a statement with a word such as `note`, `rest`, `repeat` or `do`, and write other text after `#`"


def told_of(spot: Spot, number: int) -> Optional[Told]:
    """What is told of a fault at a place; None where the meaning of the fault says all."""
    if number in (10, 11):
        return _without_rhythm(spot.data, spot.place) if number == 10 else _of_index(spot)
    if number > 8 or number == 4:
        return None
    if spot.is_long:
        return Told("form", "this statement is too long to be read here: look for a missing `;`")
    if number > 4:
        return taken(spot) if number == 5 else unknown(spot) if number == 6 else at_number(spot, number)
    if spot.stack is None:
        return None
    return _of_braces(spot) or _of_repairs(spot)


def _without_rhythm(data: bytes, place: int) -> Optional[Told]:
    own = re.compile(rb"(play|skip)([^;{}]*?)\s*;").match(data, place)
    if own:
        new = (b"note" if own[1] == b"play" else b"rest") + own[2] + b" 1/4;"
        text = data[:place] + new + data[own.end():]
        return Told("if", f"`{own[1].decode()}` takes its length from a `rhythm`: write `rhythm [1/4] {{ .. }}` round "
                    f"it, or with a length of its own `{new.decode('utf-8', 'replace')}`", (text,))
    play = play_of(data, place)
    if play is None:
        return None
    word = "play" if data.startswith(b"play", play) else "skip"
    return Told("fact", f"the `{word}` on line {line_of(data, play)} has no `rhythm` round it: write "
                f"`rhythm [1/4] {{ .. }}` round it, or `{'note' if word == 'play' else 'rest'}` with a length")


def _of_index(spot: Spot) -> Optional[Told]:
    """An index of a loop that is not open: which one is, if the statement is in a loop."""
    data, place = spot.data, spot.place
    loops = sum(block.word == "repeat" for block in spot.around.blocks)
    end = re.compile(rb"[^;{]*").match(data, place)
    found = [each for each in re.finditer(rb"\bn([0-9]+)\b", data[place:end.end() if end else place])
             if int(each[1]) >= loops]
    if not found or not loops:
        return None
    name = found[0][0].decode()
    new = f"n{loops - 1}"
    at = place + found[0].start()
    count = "one loop is" if loops == 1 else f"{loops} loops are"
    return Told("if", f"{count} open here, the outermost one with the index `{new}`: write it in place of `{name}`",
                (data[:at] + new.encode() + data[at + len(name):],))


def _of_braces(spot: Spot) -> Optional[Told]:
    """A brace that is missing or one too many, where the text ends or a `phrase` follows inside a block."""
    here, blocks = spot.here, spot.around.blocks
    if spot.index != spot.first or not blocks:
        return None
    if here.text in ("phrase", "shape") and depth(spot.data) <= 0:
        first = blocks[0]
        begun = first.brace - len(spot.data[first.begun:first.brace].lstrip())
        return Told("fact", f"a `{here.text}` is outside all blocks: move it above `{first.word}` on line "
                    f"{line_of(spot.data, begun)}")
    is_between = {"branch": "branch", "else": "if"}.get(here.text) == blocks[-1].word and depth(spot.data) > 0
    if here.kind != "END" and here.text not in ("phrase", "shape") and not is_between:
        return None
    brace = missing(spot.data, spot.place)
    if brace is None:
        return None
    column = brace.byte - spot.data.rfind(b"\n", 0, brace.byte)
    before = f" before line {brace.before}" if brace.before else "" if here.kind == "END" else f" before `{here.text}`"
    at = spot.place
    if brace.before:
        at = sum(len(line) + 1 for line in spot.data.split(b"\n", brace.before)[:brace.before - 1])
    is_block = not spot.data[brace.byte + 1:spot.data.find(b"\n", brace.byte) % (len(spot.data) + 1)].strip()
    end = b"\n" + b" " * brace.inset + b"}\n" if is_block else b" }\n"
    text = spot.data[:at].rstrip() + end + spot.data[at:]
    where = f"line {brace.line}, column {column}"
    return Told("write", f"the `{{` of `{brace.word}` ({where}) has no `}}`: write it{before}", (text,))


def _of_repairs(spot: Spot) -> Told:
    """The cheapest repair, unless it is dear and a fact is known of the place."""
    found = list(ways_of(spot, ROWS, PERHAPS))
    is_near = bool(found) and found[0].cost <= TOLD and not is_guess(found[0].repair)
    fact = _fact(spot, is_near)
    if fact:
        return Told("fact", fact)
    return _of_ways(spot, found) if found else Told("form", _form(spot))


def _of_ways(spot: Spot, found: list[Way]) -> Told:
    first = said(found[0], spot)
    if first.strength == "write" or len(first.texts) > 1:
        return first
    for other in found[1:]:
        if other.cost <= found[0].cost + BESIDE and 0 < len(other.shown) <= SHOWN and other.shown != found[0].shown:
            second = said(other, spot)
            if "\n" not in first.cure + second.cure:
                whys = [max(way.repair.edits, key=lambda edit: edit.row.cost).row.why for way in (found[0], other)]
                why = f" ({whys[1]})" if whys[1] and whys[0] != whys[1] else ""
                return Told("if", lines(first.cure, f"or write `{other.shown}`{why}"), first.texts + second.texts)
    return first


def _fact(spot: Spot, only_first: bool) -> str:
    """What is known of the place that is no change of the statement alone; "" for nothing."""
    places = set(spot.expected.values())
    where = frozenset(places.union(f"{place}@{spot.word}" for place in places)) | {"here", "near"}
    round_it = [at for at in (spot.index, spot.index + 1, spot.index - 1) if 0 <= at < len(spot.line.lexemes)]
    for at in round_it:
        for row in FACTS:
            is_there = row.places & where if at == spot.index else "near" in row.places
            found = row.look.match(spot.line.text, spot.line.offsets[at]) if is_there and (
                row.opens or not only_first) else None
            sentence = row.written(found) if found else None
            if sentence:
                return sentence
    return "" if only_first else next(filter(None, (_musical(spot, at) for at in round_it)), "")


def _musical(spot: Spot, at: int) -> str:
    lexeme = spot.line.lexemes[at]
    if lexeme.kind not in ("NAME", "OTHER", "breath", "pause") or not re.match(r"[^\W\d_]{2}", lexeme.text):
        return ""
    line = musical(lexeme.text.lower())
    return lines(f"if `{lexeme.text}` means {line.words}, write it as in `{line.write}`",
                 line.note.replace("*", "")) if line else ""


def _form(spot: Spot) -> str:
    """The form of the place, else of the statement."""
    form = FORMS.get(spot.word, "note c4 1/4;")
    for place in reversed(list(spot.expected.values())):
        at = AT.get(f"{place}@{spot.word}") or AT.get(place)
        if at:
            return at.format(word=spot.word, form=form, of="phrase" if spot.word == "do" else "shape")
    return f"write `{spot.word}` like this: `{GRAMMAR[spot.word]}`, as in `{form}`" if spot.word in GRAMMAR else _ANY
