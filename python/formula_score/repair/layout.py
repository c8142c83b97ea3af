"""Places that are far from a refused one: an open brace by how lines are set in, and a `play` without a rhythm."""

from __future__ import annotations

import re
from typing import NamedTuple, Optional

_MARKS = re.compile(rb"#[^\n]*|[;{}]|\n[ \t]*")
_PLAY = re.compile(rb"#[^\n]*|\b(?:rhythm|play|skip|do\s+([a-z][a-z0-9_]*))\b|[{}]")
_COMMENT, _BEGIN, _END, _NEWLINE, _SEMICOLON = b"#{}\n;"


class Brace(NamedTuple):
    """An open brace: its byte, its word with a name, its line, how far the line of its statement is set in, and the
    line before which its `}` is missing, 0 for unknown."""

    byte: int
    word: str
    line: int
    inset: int
    before: int


class _Lines:
    """Reads the braces of a text, line by line, and finds the first line that is not set in for an open one."""

    def __init__(self, data: bytes):
        self.data = data
        self.blocks: list[Brace] = []
        self.begun = 0                      # where the present statement begins
        self.line, self.inset = 1, len(data) - len(data.lstrip(b" "))
        self.statement_inset = self.inset   # how far its line is set in

    def missing(self, place: int) -> Optional[Brace]:
        """The innermost brace that a line before the place is not set in for, else the innermost open one."""
        data = self.data
        for found in _MARKS.finditer(data, 0, place):
            start, end = found.span()
            mark = data[start]
            if mark == _NEWLINE:
                self.line += 1
                behind = data[end:end + 1]
                if end >= place or behind in (b"", b"\n", b"\r", b"#"):
                    continue
                self.inset = end - start - 1 if end - start < 2 else len(found[0][1:].expandtabs(8))
                if not data[self.begun:start].strip():
                    self.statement_inset = self.inset
                    if self.blocks and self._is_out(behind == b"}"):
                        return self.blocks[-1]._replace(before=self.line)
            elif mark == _COMMENT:
                self.begun = self.begun if data[self.begun:start].strip() else end
            elif mark == _SEMICOLON:
                self.begun, self.statement_inset = end, self.inset
            else:
                self._marked(mark, found)
        return self.blocks[-1] if self.blocks else None

    def _is_out(self, is_end: bool) -> bool:
        """Whether the line that begins is not set in for the innermost block."""
        last = self.blocks[-1]
        return last.line < self.line and self.inset <= last.inset - is_end

    def _marked(self, mark: int, found: "re.Match[bytes]") -> None:
        if mark == _BEGIN:
            words = re.sub(rb"#[^\n]*", b"", self.data[self.begun:found.start()]).split()
            self.blocks.append(Brace(found.start(), b" ".join(words[:2]).decode("latin-1"), self.line,
                                     self.statement_inset, 0))
        elif mark == _END and self.blocks:
            self.blocks.pop()
        self.begun, self.statement_inset = found.end(), self.inset


def missing(data: bytes, place: int) -> Optional[Brace]:
    """The brace whose `}` is missing before a place: the innermost block that a later line is not set in for."""
    return _Lines(data).missing(place)


def play_of(data: bytes, place: int, seen: tuple[bytes, ...] = ()) -> Optional[int]:
    """The `play` or `skip` outside every rhythm that the `do` at a place brings in."""
    name = re.compile(rb"do\s+([a-z][a-z0-9_]*)").match(data, place)
    if not name or name[1] in seen:
        return None
    above = re.sub(rb"#[^\n]*", lambda found: b" " * len(found[0]), data[:place])
    begun = re.search(rb"\bphrase\s+" + name[1] + rb"\s*\{", above)
    if not begun:
        return None
    depth, rhythms, waits = 1, list[int](), False
    for found in _PLAY.finditer(data, begun.end()):
        text = found[0]
        if text == b"rhythm":
            waits = True
        elif text == b"{":
            depth += 1
            rhythms += [depth] if waits else []
            waits = False
        elif text == b"}":
            rhythms = [each for each in rhythms if each < depth]
            depth -= 1
            if not depth:
                return None
        elif text in (b"play", b"skip") and not rhythms:
            return found.start()
        elif text.startswith(b"do") and not rhythms:
            inner = play_of(data, found.start(), (*seen, name[1]))
            if inner is not None:
                return inner
    return None
