"""The tokens of a text, also of one that is no score, each with its place."""

from __future__ import annotations

import re
from typing import Iterator, NamedTuple

from .grammar import KEYWORDS

#: Kinds of tokens. A keyword or a symbol has its own text as its kind.
NUMBER, PITCH, REGISTER, INDEX, NAME, OTHER, END = "NUMBER", "PITCH", "REGISTER", "INDEX", "NAME", "OTHER", "END"

_TOKEN = re.compile(r"(?:[ \t\r\n]+|#[^\n]*)*(?:([a-z][a-z0-9_]*)|([0-9]+)|([;{}()\[\],=/+\-*%])|(.)|\Z)", re.S)
_KINDS = ((PITCH, re.compile(r"[a-g][sb]?[0-9]")), (REGISTER, re.compile(r"r[0-7]")),
          (INDEX, re.compile(r"n(?:[0-9]|1[0-5])")))


class Token(NamedTuple):
    """A token: its kind, its text, and where it begins, a byte counted from 0."""

    kind: str
    text: str
    start: int

    @property
    def end(self) -> int:
        """The byte behind it."""
        return self.start + len(self.text)

    @property
    def is_word(self) -> bool:
        """Whether it has letters."""
        return self.text[:1].isalpha() and self.kind != OTHER


def kind_of(word: str) -> str:
    """What a word is."""
    if word in KEYWORDS:
        return word
    return next((kind for kind, pattern in _KINDS if pattern.fullmatch(word)), NAME)


_WORDS = {word: word for word in KEYWORDS}


def tokens(source: str, start: int = 0) -> Iterator[Token]:
    """The tokens from a place on, the last one the end of the text; a character is a byte."""
    known = dict(_WORDS)
    for found in _TOKEN.finditer(source, start):
        group = found.lastindex
        if group is None:
            yield Token(END, "", len(source))
            return
        text = found[group]
        if group == 1:
            kind = known.get(text) or known.setdefault(text, kind_of(text))
        else:
            kind = NUMBER if group == 2 else text if group == 3 else OTHER
        yield Token(kind, text, found.start(group))
