"""The outline of a text: its phrases, its shapes, and the branches of its `par`s."""

from __future__ import annotations

from dataclasses import dataclass, field
from typing import Optional

from formula_score.language.tokens import NAME, Token, tokens


@dataclass
class Part:
    """A phrase, a shape or a branch: from which byte to which, where its name stands, and the branches in it."""

    kind: str
    name: str
    start: int
    end: int
    name_start: int
    name_end: int
    inner: list["Part"] = field(default_factory=list)


class _Outline:
    """Goes over the tokens, and knows which braces are open and whose they are."""

    def __init__(self, end: int):
        self.end = end
        self.top: list[Part] = []
        self.braces: list[Optional[Part]] = []
        self.branches: list[int] = []       # of each open `par` how many branches it has
        self.pars: list[int] = []           # at which depth each was opened
        self.waiting: Optional[Part] = None  # what opens with the next brace
        self.is_par = False

    def add(self, part: Part) -> None:
        owner = next((brace for brace in reversed(self.braces) if brace is not None), None)
        (self.top if owner is None else owner.inner).append(part)

    def step(self, before: Optional[Token], token: Token) -> None:
        if token.kind == "par":
            self.is_par = True
        elif token.kind == "branch" and self.branches:
            self.branches[-1] += 1
            self.waiting = Part("branch", f"branch {self.branches[-1]}", token.start, self.end, token.start, token.end)
            self.add(self.waiting)
        elif token.kind == NAME and before is not None and before.kind in ("phrase", "shape"):
            part = Part(before.kind, token.text, before.start, self.end, token.start, token.end)
            self.add(part)
            self.waiting = part
        elif token.kind == ";" and self.waiting is not None and self.waiting.kind == "shape":
            self.waiting.end, self.waiting = token.end, None
        elif token.kind == "{":
            self.opened()
        elif token.kind == "}" and self.braces:
            self.closed(token.end)

    def opened(self) -> None:
        self.braces.append(self.waiting)
        self.waiting = None
        if self.is_par:
            self.is_par = False
            self.pars.append(len(self.braces))
            self.branches.append(0)

    def closed(self, end: int) -> None:
        if self.pars and self.pars[-1] == len(self.braces):
            self.pars.pop()
            self.branches.pop()
        part = self.braces.pop()
        if part is not None:
            part.end = end


def outline(data: bytes) -> list[Part]:
    """The parts that stand outside all others, in their order; what is not closed goes on to the end."""
    seen = _Outline(len(data))
    before: Optional[Token] = None
    for token in tokens(data.decode("latin-1")):
        seen.step(before, token)
        before = token
    return seen.top
