"""Writes a reading list as text."""
from __future__ import annotations

import os
import re

from handed import Piece
from library import meanings, notation
from repository import Needed, Repository, Target
from statement import Statement, head_end, rows_by_file, text_of

# The head of the code that follows the definitions.
HANDED = "what is handed in, and the calls that alone change what is seen of it"
# The head of what the libraries' names mean.
LIBRARIES = "taken from the libraries"


def pieces_by_file(statement: Statement) -> dict[str, list[Piece]]:
    """The code of what is handed in, file by file."""
    found: dict[str, list[Piece]] = {}
    for piece in statement.handed:
        found.setdefault(piece.path, []).append(piece)
    return found


def anchor(target: Target) -> str:
    return f"{target.module}.{target.name}".removeprefix("Rattle.")


def counts(statement: Statement) -> list[tuple[str, int]]:
    """The numbers at the end of a list."""
    files = {definition.path for definition in statement.needed}
    return [
        ("definitions", len(statement.needed)),
        ("lines, with their comments", statement.lines()),
        ("files", len(files)),
        ("crates", len({path.split("/")[1] for path in files})),
        ("of these, types, constants and traits of the code",
         sum(definition.code is not None for definition in statement.needed)),
        ("with a row that computes them", sum(definition.target in statement.rows for definition in statement.needed)),
        ("names of the libraries", len(library_names(statement))),
        ("lines of code of what is handed in", sum(piece.text.count("\n") + 1 for piece in statement.handed)),
    ]


def modules_named(statement: Statement) -> list[str]:
    """The modules of definitions in the order of the list: the first one of a crate with the crate's name, the next ones
    alone."""
    found, crate = [], ""
    for _, files in statement.chapters:
        for path, _ in files:
            if "/specs/" in path:
                _, name, _, module = path.removesuffix(".antt").split("/", 3)
                found.append(module if name == crate else f"{name}/specs/{module}")
                crate = name
    return found


def heads(definition: Needed, shown: tuple[int, ...]) -> tuple[str, tuple[int, ...]]:
    """The heads of the sections round a definition that were not printed yet, and the sections round it."""
    new = tuple(block.start for block in definition.blocks)
    lines = []
    for block in definition.blocks:
        if block.start not in shown and definition.file:
            lines += definition.file.lines[block.first - 1:head_end(block)]
    return "\n".join(lines), new


def as_text(repository: Repository, statement: Statement) -> str:
    place = os.path.relpath(statement.function.path, repository.top)
    lines = ["== the notation", ""]
    lines += [f"   {sign:<24} {meaning}" for sign, meaning in notation()]
    lines += ["", "== the contract", "", f"-- {place}"]
    lines += [f"{number:>6}  {line}" for number, line in contract_of(statement)]
    for subject, files in statement.chapters:
        lines += ["", f"== {subject}"]
        for path, needed in files:
            shown: tuple[int, ...] = ()
            lines += ["", f"-- {path}"]
            for definition in needed:
                head, shown = heads(definition, shown)
                for number, line in numbered(head, definition.blocks[-1].first if head else 0):
                    lines.append(f"{number:>6}  {line}")
                lines += [f"{number:>6}  {line}"
                          for number, line in numbered(text_of(repository, definition), definition.first)]
                if definition.target in statement.rows:
                    lines.append(f"        rows: {rows_by_file(statement.rows[definition.target])}")
    lines += ["", f"== {HANDED}"] if statement.handed else []
    for path, pieces in pieces_by_file(statement).items():
        lines += ["", f"-- {path}"]
        for piece in pieces:
            lines += [*(f"{number:>6}  {line}" for number, line in numbered(piece.text, piece.first)), ""]
    lines += ["", f"== {LIBRARIES}"]
    for subject, names in meanings(library_names(statement)):
        lines += ["", f"-- {subject}", *(f"   {name:<24} {meaning}" for name, meaning in names)]
    lines += ["", *(f"{number:>6} {name}" for name, number in counts(statement))]
    return "\n".join(lines)


def contract_of(statement: Statement) -> list[tuple[int, str]]:
    """The lines of the function from its comment to its premises, and of the clauses that are looked at."""
    function = statement.function
    head = function.head.split("\n")
    first = function.line - next(at for at, line in enumerate(head) if re.match(r" *pub fn", line))
    end = next((at for at, line in enumerate(head) if re.match(r" *(requires|ensures)\b", line)), len(head))
    lines = list(enumerate(head[:end], first))
    for clause in statement.clauses:
        lines += enumerate(f"    {clause.word} {clause.name} {{ {clause.text} }}".split("\n"), clause.line)
    return lines


def library_names(statement: Statement) -> set[str]:
    """The names of the libraries that occur."""
    return {name for names in statement.library.values() for name in names}


def numbered(text: str, first: int) -> list[tuple[int, str]]:
    return list(enumerate(text.split("\n"), first)) if text else []
