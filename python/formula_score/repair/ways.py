"""The ways to mend a statement: each repair with the text that it leads to, if that is read to the statement's end."""

from __future__ import annotations

import re
from typing import Iterator, NamedTuple, Sequence

from .lexing import Line
from ..language.judging import Judge
from .row import Row
from .search import Edit, Repair, Search
from .spot import BRACES, Spot, depth, names_of

#: How many tokens before the place a repair may begin.
BEFORE = 80


class Way(NamedTuple):
    """A repair, the whole text with it, and the statements that it changes as they are to be written."""

    repair: Repair
    data: bytes
    shown: str

    @property
    def cost(self) -> float:
        """What the repair costs."""
        return self.repair.cost


def _encoded(text: str) -> bytes:
    return text.encode("utf-8", "surrogateescape")


def _changed(line: Line, repair: Repair) -> str:
    """The text of a line with the edits of a repair."""
    made: list[str] = []
    at = 0
    for edit in repair.edits:
        if edit.first < edit.last:
            made += [line.source[at:line.lexemes[edit.first].start], edit.new]
            at = line.lexemes[edit.last - 1].end
            continue
        # something is added: behind the token before
        is_close = edit.new in (",", ")", "]") or edit.new.endswith((";", "}"))
        place = max(at, line.lexemes[edit.first - 1].end if edit.first and is_close else line.lexemes[edit.first].start)
        made += [line.source[at:place], edit.new if edit.new in (";", ",", ")") else f" {edit.new} "]
        at = place
    text = ""
    for part in [*made, line.source[at:]]:
        text += " " + part if re.match(r"\w", part) and re.search(r"\w\Z", text) else part
    return text


_ELSE = re.compile(rb"\s*else\b")


def old_of(line: Line, edit: Edit) -> str:
    """What an edit writes anew."""
    return line.part(edit.first, edit.last)


def _opened(line: Line, repair: Repair) -> int:
    """How many more braces a repair opens than it closes."""
    return sum(edit.new.count("{") - edit.new.count("}")
               - sum({"{": 1, "}": -1}.get(each.text, 0) for each in line.lexemes[edit.first:edit.last])
               for edit in repair.edits)


def _balanced(spot: Spot, changed: str, repair: Repair) -> bytes:
    """What follows the head of a text, changed: with the `}` of a block that the repair opens, or without that of one
    that it takes away."""
    text, opened = _encoded(changed), _opened(spot.line, repair)
    left = len(spot.around.blocks) + depth(text) + spot.tail_depth if opened else 0
    behind = spot.line.source[spot.line.lexemes[repair.edits[-1].last].start:]
    start = len(text) - len(_encoded(behind))
    text += spot.tail
    if not opened or left == 0 or (opened > 0) != (left > 0):
        return text
    if opened > 0 and not any(edit.row.opens for edit in repair.edits):
        end = text.find(b";", start)
        if end >= 0:
            return text[:end + 1] + b" }" * opened + text[end + 1:]
    inner = level = old_of(spot.line, repair.edits[-1]).count("{")  # of an `else if` the block of its `if`
    for found in BRACES.finditer(text, start):
        level += {123: 1, 125: -1}.get(text[found.start()], 0)
        if level == 0 < min(inner, opened) and not _ELSE.match(text, found.end()):
            return text[:found.end()] + b" }" * opened + text[found.end():]
        if level < 0:
            new = b"} " * opened + text[found.start():] if opened > 0 else text[found.end():]
            return text[:found.start()] + new
    return text.rstrip() + b" }" * opened if opened > 0 else text


def _shown(spot: Spot, repair: Repair, text: str) -> str:
    """The statements that a repair changes, as they are to be written."""
    lexemes = spot.line.lexemes
    first = next((at for at in range(repair.edits[0].first, 0, -1) if spot.text(at - 1) in (";", "{", "}")), 0)
    last = repair.edits[-1]
    stop = lexemes[repair.end].start
    if last.new.strip().endswith((";", "}")):  # the statement ends there
        stop = lexemes[last.last - 1].end if last.last else 0
    left = len(spot.line.source) - stop
    part = re.sub(r"#[^\n]*", "", text[lexemes[first].start:len(text) - left])
    part = re.sub(r"\s+(?=[;,)\]])|(?<=[(\[])\s+", "", re.sub(r"\s+", " ", part).strip())
    opened = part.count("{") - part.count("}")
    return re.sub(r" ?\{$", " { ..", part) + " }" * opened if part.endswith("{") else part


def _passes(spot: Spot, changed: str, data: bytes, repair: Repair, names: bool) -> bool:
    """Whether the changed text is read to the end of the statement that is mended, with its numbers and names."""
    window = data[spot.begun:spot.begun + len(changed) + 4000].decode("latin-1")
    left = spot.line.source[spot.line.lexemes[repair.end].start:]
    stop = max(1, len(_encoded(changed)) - len(_encoded(left)))
    judge = Judge(window, spot.start, spot.whole, names_of(spot.head) if names else None)
    return judge.first(0, stop) is None


def ways_of(spot: Spot, rows: Sequence[Row], dearest: float) -> Iterator[Way]:
    """The ways that pass, the cheapest first; of a long statement only the tokens before the place are changed."""
    start, stack = max(0, spot.index - BEFORE), spot.start
    for each in spot.line.lexemes[:start]:
        behind = stack.after(each.kind)
        if behind is None:
            return
        stack = behind
    words = sorted({block.word for block in spot.around.blocks})
    for repair in Search(spot.line, rows, spot.index, spot.names, words).found(start, stack):
        if repair.cost > dearest:
            return
        changed = _changed(spot.line, repair)
        data = spot.head + _balanced(spot, changed, repair)
        shown = _shown(spot, repair, changed)
        if _passes(spot, changed, data, repair, bool(re.search(r"\b(?:do|warp|phrase|shape)\b", shown))):
            yield Way(repair, data, shown)
