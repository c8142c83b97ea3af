"""Turns the patterns of clauses, functions and cases into tests of Python, and into names for what they bind."""
from __future__ import annotations

import re

from notation import File, NotRead, Word
from repository import Repository, Target
from sizes import label_of, local
from terms import Pattern


def used(lets: list[tuple[str, str]], text: str) -> list[tuple[str, str]]:
    """What a pattern binds, without what a text does not name."""
    names = set(re.findall(r"\w+", text))
    return [(name, value) for name, value in lets if name in names]


class Patterns:
    """The patterns of one definition, with the names of its file."""

    def __init__(self, repository: Repository, file: File):
        self.repository, self.file = repository, file
        # how many names of the translation's own there are
        self.fresh = 0

    def refuse(self, word: Word, why: str) -> NotRead:
        return NotRead(f"{self.file.path}:{word.line}: {why}: {word.text}")

    def resolved(self, word: Word) -> Target | None:
        return self.repository.resolve(self.file, tuple(word.parts), word.line)

    def match(self, pattern: Pattern, value: str, tests: list[str], lets: list[tuple[str, str]], bound: dict[str, str]) -> None:
        """Adds the tests of a pattern and what it binds."""
        if pattern.kind == "any":
            return
        if pattern.kind == "variable":
            name = pattern.word.parts[0]
            if value.isidentifier():
                # an argument needs no other name
                bound[name] = value
                return
            bound[name] = local(name)
            lets.append((local(name), value))
        elif pattern.kind == "tuple":
            for index, part in enumerate(pattern.parts):
                self.match(part, f"{value}[{index}]", tests, lets, bound)
        elif pattern.kind == "record":
            for label, part in zip(pattern.labels, pattern.parts, strict=True):
                self.match(part, f"{value}{label_of(label)}", tests, lets, bound)
        else:
            self.match_constructor(pattern, value, tests, lets, bound)

    def match_constructor(self, pattern: Pattern, value: str, tests: list[str], lets: list[tuple[str, str]],
                          bound: dict[str, str]) -> None:
        name, parts = pattern.word.parts[-1], pattern.parts
        known: dict[str, tuple[str, list[str]]] = {
            "zero": (f"{value} == 0", []), "suc": (f"{value} > 0", [f"({value} - 1)"]),
            "true": (value, []), "false": (f"not {value}", []), "tt": ("True", []),
            "[]": (f"{value} is NIL", []), "∷": (f"{value} is not NIL", [f"{value}.head", f"{value}.tail"]),
            "pos": (f"{value} >= 0", [value]), "negsuc": (f"{value} < 0", [f"(-1 - {value})"]),
        }
        own = self.resolved(pattern.word) if name not in known else None
        if own is None and name in known:
            test, values = known[name]
        else:
            test, values = f"{value}.tag == {name!r}", [f"{value}.args[{index}]" for index in range(len(parts))]
        tests.append(test)
        for part, inner in zip(parts, values, strict=True):
            self.match(part, inner, tests, lets, bound)

    def let_parts(self, pattern: Pattern, value: str, bound: dict[str, str]) -> list[tuple[str, str]]:
        if pattern.kind == "variable":
            name = pattern.word.parts[0]
            bound[name] = local(name)
            return [(local(name), value)]
        self.fresh += 1
        whole = f"t{self.fresh}"
        lets: list[tuple[str, str]] = []
        self.match(pattern, whole, [], lets, bound)
        return [(whole, value), *lets]
