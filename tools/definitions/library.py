"""What the names of the toolchain's libraries mean, as a reader of a contract is told."""
from __future__ import annotations

import os
from collections.abc import Iterable, Iterator

from notation import NotRead

_HERE = os.path.dirname(os.path.abspath(__file__))


def table() -> Iterator[tuple[str, str, str]]:
    """The subject of each name, the name, and what it means."""
    subject = ""
    with open(os.path.join(_HERE, "library.txt"), encoding="utf-8") as file:
        for line in map(str.rstrip, file):
            if line.startswith("-- "):
                subject = line[3:]
            elif line and not line.startswith("#"):
                name, _, meaning = line.partition(": ")
                yield subject, name, meaning


def notation() -> list[tuple[str, str]]:
    """Each form of the notation, and what it means."""
    with open(os.path.join(_HERE, "notation.txt"), encoding="utf-8") as file:
        return [(sign, meaning) for sign, _, meaning in (line.rstrip().partition(" | ") for line in file)]


def meanings(names: Iterable[str]) -> list[tuple[str, list[tuple[str, str]]]]:
    """By subject these names with what they mean, in the order of the table; each has to be in it."""
    wanted = set(names)
    found: dict[str, list[tuple[str, str]]] = {}
    for subject, name, meaning in table():
        if name in wanted:
            found.setdefault(subject, []).append((name, meaning))
            wanted.remove(name)
    if wanted:
        raise NotRead(f"tools/definitions/library.txt does not say what these mean: {', '.join(sorted(wanted))}")
    return list(found.items())
