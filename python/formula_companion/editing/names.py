"""The names of a text: where phrases and shapes are defined and used, and new names for them."""

from __future__ import annotations

import re
from typing import NamedTuple, Optional, Union

from formula_score.language.tokens import NAME, Token, kind_of, tokens

#: Of a word the kind of the name that follows it, and whether it is defined there.
_BEFORE = {"phrase": ("phrase", True), "shape": ("shape", True), "do": ("phrase", False), "warp": ("shape", False)}


class Use(NamedTuple):
    """A name in a text: of a phrase or of a shape, where it stands, and whether it is defined there."""

    kind: str
    name: str
    start: int
    defines: bool

    @property
    def end(self) -> int:
        """The byte behind it."""
        return self.start + len(self.name)


def uses(data: bytes) -> list[Use]:
    """All names of a text in their order."""
    found: list[Use] = []
    before: Optional[Token] = None
    for token in tokens(data.decode("latin-1")):
        if token.kind == NAME and before is not None and before.kind in _BEFORE:
            kind, defines = _BEFORE[before.kind]
            found.append(Use(kind, token.text, token.start, defines))
        before = token
    return found


def use_at(data: bytes, byte: int) -> Optional[Use]:
    """The name at a byte or directly before it."""
    return next((use for use in uses(data) if use.start <= byte <= use.end), None)


def definition(data: bytes, use: Use) -> Optional[Use]:
    """Where the name of a use is defined."""
    return next((candidate for candidate in uses(data) if candidate.defines and candidate.name == use.name), None)


def same_name(data: bytes, use: Use) -> list[Use]:
    """All places of a name, its definition too."""
    return [candidate for candidate in uses(data) if candidate.name == use.name]


def renamed(data: bytes, byte: int, name: str) -> Union[list[Use], str]:
    """The places at which a new name is to be written; or why it may not be."""
    use = use_at(data, byte)
    if use is None:
        return "there is no name of a phrase or shape here"
    if not re.fullmatch(r"[a-z][a-z0-9_]*", name):
        return f"`{name}` is no name: it begins with a small letter, and has small letters, digits and `_`"
    kind = kind_of(name)
    if kind != NAME:
        return f"`{name}` is a word of the language" if kind == name else f"`{name}` is a {kind.lower()}, and no name"
    if name != use.name and any(candidate.name == name for candidate in uses(data)):
        return f"another phrase or shape is called `{name}`"
    return same_name(data, use)
