"""What the checks tell: a place, the rule that found it, how bad it is, a sentence, and a change where there is one."""

from __future__ import annotations

from typing import NamedTuple, Optional

from ..reading.tree import Token

ERROR, WARNING, REMARK = "error", "warning", "remark"


class Edit(NamedTuple):
    """A change of a text: what its bytes from `start` to `end` become."""

    start: int
    end: int
    new: str


class Found(NamedTuple):
    """Something that is accepted and hardly meant. `edits` are in the order of the text, and do not overlap."""

    line: int
    column: int
    rule: str
    severity: str
    what: str
    edits: tuple[Edit, ...] = ()

    def changed(self, text: bytes) -> bytes:
        """The text with the change in it."""
        for edit in reversed(self.edits):
            text = text[:edit.start] + edit.new.encode() + text[edit.end:]
        return text


def replaced(token: Token, new: str) -> Edit:
    """Another word or number in place of a token."""
    return Edit(token.start, token.start + len(token.text), new)


def number_behind(tokens: tuple[Token, ...], first: Token) -> Optional[Token]:
    """The first number behind a token."""
    at = next(at for at, token in enumerate(tokens) if token.start == first.start)
    return next((token for token in tokens[at:] if token.text.isdigit()), None)
