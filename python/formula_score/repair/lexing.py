"""The tokens of a part of a text, each with its kind in the language; and the same as one line that rows look at."""

from __future__ import annotations

import re
from bisect import bisect_right
from typing import NamedTuple

from ..language.grammar import OUTSIDE, STATEMENTS
from ..language.tokens import END, NUMBER, OTHER, kind_of

_TOKEN = re.compile(r"([^\W\d_]\w*|_\w+)|([0-9]+)|([^ \t\r\n])")
_BLANKS = re.compile(r"[ \t\r\n]*")
#: A `#` behind a letter of a pitch, and before its octave or a blank, is a sharp that was meant, and no comment.
_SHARP = re.compile(r"(?:(?<=[\s,<(\[][A-Ha-h])|(?<=[\s,<(\[][A-Ha-h][0-9]))#(?=[0-9,;'\s])")
_BEGINS = frozenset(STATEMENTS + OUTSIDE)
_STRICT = re.compile(r"[a-z][a-z0-9_]*")


class Lexeme(NamedTuple):
    """A token: its kind (OTHER for what no score has), its text, where it is, and what is before it: 0 for nothing, 1
    for a blank, 2 for the end of a line."""

    kind: str
    text: str
    start: int
    end: int
    apart: int


def _kind(source: str, found: re.Match[str]) -> str:
    word, number, _ = found.groups()
    text = found[0]
    if word:
        return kind_of(word) if _STRICT.fullmatch(word) else OTHER
    if number:
        behind = source[found.end():found.end() + 1]
        return OTHER if len(number) > 9 or behind == "_" or "a" <= behind <= "z" else NUMBER
    return text if text in ";{}()[],=/+-*%" else OTHER


class Line:
    """A part of a text as tokens and as one line: a blank between tokens that are apart."""

    def __init__(self, source: str):
        self.source = source
        self.lexemes = self._lexemes()
        pieces: list[str] = []
        self.offsets: list[int] = []  # where each token begins in the line
        length = 0
        for each in self.lexemes:
            if each.apart and length:
                pieces.append(" ")
                length += 1
            self.offsets.append(length)
            pieces.append(each.text)
            length += len(each.text)
        self.text = "".join(pieces)
        #: by the place in the line behind a token the number of the next one
        self.ends = {offset + len(each.text): index + 1 for index, (offset, each) in enumerate(
            zip(self.offsets, self.lexemes)) if each.text}
        self._starts = [each.start for each in self.lexemes]

    def _lexemes(self) -> list[Lexeme]:
        found: list[Lexeme] = []
        at, source = 0, self.source
        while at < len(source):
            start = self._behind_blanks(at)
            token = _TOKEN.match(source, start)
            if not token:
                at = start + 1
                continue
            gap = 2 if "\n" in source[at:start] else int(start > at)
            found.append(Lexeme(_kind(source, token), token[0], start, token.end(), gap))
            at = token.end()
        texts = [each.text for each in found[:4]]
        if texts[:2] == ["formula", "2"] and "division" in texts[2:]:  # it is a word there
            at = texts.index("division", 2)
            found[at] = found[at]._replace(kind="division")
        return [*found, Lexeme(END, "", len(source), len(source), 2)]

    def _behind_blanks(self, at: int) -> int:
        while True:
            blanks = _BLANKS.match(self.source, at)
            end = blanks.end() if blanks else at
            if self.source[end:end + 1] == "#" and not _SHARP.match(self.source, end):
                stop = self.source.find("\n", end)
                end = len(self.source) if stop < 0 else stop
            if end == at:
                return at
            at = end

    def end_of_text(self, at: int) -> tuple[int, bool]:
        """The first token behind a text in a line: of the next line, or of a statement in this one; and which it is."""
        for index in range(at + 1, len(self.lexemes)):
            if self.lexemes[index].apart == 2:
                return index, True
            if self.lexemes[index].kind in _BEGINS:
                return index, False
        return len(self.lexemes) - 1, True

    def at(self, place: int) -> int:
        """The token at or behind a place."""
        index = max(0, bisect_right(self._starts, place) - 1)
        return index if self.lexemes[index].end > place or index == len(self.lexemes) - 1 else index + 1

    def part(self, first: int, last: int) -> str:
        """Some tokens as they are in the line."""
        return self.text[self.offsets[first]:self.offsets[last - 1] + len(self.lexemes[last - 1].text)] if (
            first < last) else ""
