"""A comment `# notes: c4 d e`, or `# notes 3/4: ..`: the statements of its line, to be written below it."""

from __future__ import annotations

import re
from typing import NamedTuple, Optional

from formula_score.making.errors import ScoreError
from formula_score.making.short import statements, struck

_COMMENT = re.compile(rb"([ \t]*)[^#\n]*#[ \t]*notes(?:[ \t]+([1-9][0-9]?)/([1-9][0-9]?))?[ \t]*:[ \t]*([^\r\n]*)")
_DIVISION = re.compile(rb"\bdivision\s+([0-9]{1,3})\s*;")


class Written(NamedTuple):
    """What a comment says: where it ends, and the lines to write there; or what is wrong with it."""

    end: int
    new: str
    wrong: str


def written(data: bytes, start: int) -> Optional[Written]:
    """The notes of a comment on the line that begins at a byte; None where there is none, or they are below it
    already."""
    found = _COMMENT.match(data, start)
    if found is None:
        return None
    head = _DIVISION.search(data, 0, 4000)
    whole = 4 * int(head[1]) if head else 1920
    bar = whole * int(found[2] or 4) // int(found[3] or 4)
    indent = found[1].decode()
    try:
        notes = struck(found[4].decode("utf-8", "replace"), whole, bar)
    except ScoreError as error:
        return Written(found.end(), "", str(error))
    lines = [indent + line for line in statements(notes, whole, bar, width=100 - len(indent))]
    new = "".join(f"\n{line}" for line in lines)
    return None if not lines or data.startswith(new.encode(), found.end()) else Written(found.end(), new, "")
