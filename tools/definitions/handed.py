"""The objects that a contract is about: what a clause sees of a parameter, and the calls that alone change that.

A clause reads a parameter through the `Model` of its type. The view of that names fields, whose types have models of their
own, down to a type with a ghost field that holds data. Nothing at run time holds such data, so what it is follows from
the functions of its module alone, and from those of the types beside it that have such a field."""
from __future__ import annotations

import os
import re
from collections.abc import Iterator
from dataclasses import dataclass

from free_names import Uses
from notation import Word
from repository import Repository, Target
from rust import Clause, CodeItem, Function, end_of, in_braces, terms_of, without_texts

# The mark of a type whose ghost field holds data.
GHOST_DATA = "also_owns"


@dataclass
class Piece:
    """Lines of a file of code, and the definitions that they name."""

    path: str
    first: int
    text: str
    names: list[Target]


def handed_to(repository: Repository, function: Function, clauses: list[Clause]) -> list[Piece]:
    """The pieces of code for the parameters that some clauses name."""
    found: dict[Target, None] = {}
    for name in parameters_named(function, clauses):
        type_name = re.search(rf"\b{name}: &(?:mut )?(\w+)", function.head)
        target = type_name and repository.type_named(function.path, type_name[1])
        if target and is_modelled(repository, target):
            follow(repository, target, found)
    return [piece for target in found for piece in pieces_of(repository, target, found)]


def parameters_named(function: Function, clauses: list[Clause]) -> list[str]:
    """The parameters of which the clauses read a value, in the order of the function."""
    texts = " ".join(clause.text for clause in clauses)
    return [name for name in re.findall(r"\b(\w+): &", function.head) if re.search(rf"\b{name}\.(?:old|new|now)\b", texts)]


def item_of(repository: Repository, target: Target) -> CodeItem:
    return repository.code(target.module)[target.name]


def is_modelled(repository: Repository, target: Target) -> bool:
    return "Model for" in item_of(repository, target).text


def follow(repository: Repository, target: Target, found: dict[Target, None]) -> None:
    """Adds a type and those of its fields that have a model."""
    if target in found:
        return
    found[target] = None
    for name in repository.types_in(target, item_of(repository, target)):
        if is_modelled(repository, name):
            follow(repository, name, found)


def fields_with_data(repository: Repository, target: Target, found: dict[Target, None]) -> list[str]:
    """The fields of a type that hold one with ghost data."""
    data = [other.name for other in found if GHOST_DATA in item_of(repository, other).text]
    return re.findall(rf"^ +(?:pub(?:\([^)]*\))? )?(\w+): (?:{'|'.join(data)}),$", item_of(repository, target).text, re.M) if data else []


def pieces_of(repository: Repository, target: Target, found: dict[Target, None]) -> Iterator[Piece]:
    """A type with its model, and the functions that change the ghost data in it."""
    item = item_of(repository, target)
    code = repository.code_of[item.path]
    yield named(repository, item.path, item.first, "\n".join(code.lines[item.first - 1:item.last]))
    at, last = model_of(code.lines, target.name)
    yield named(repository, item.path, at + 1, "\n".join(code.lines[at:last + 1]))
    fields = fields_with_data(repository, target, found)
    for first, text in functions_of(repository.code_of[item.path].lines):
        if GHOST_DATA in item.text or any(re.search(rf"\b{field}: |self\.{field}\b", text) for field in fields):
            yield named(repository, item.path, first, text)


def model_of(lines: list[str], name: str) -> tuple[int, int]:
    """Where the model of a type begins and ends in its file."""
    at = next(at for at, line in enumerate(lines) if re.match(rf"impl(?:<.*?>)? Model for {name}\b", line))
    return at, end_of(lines, at)


def own_words(text: str) -> frozenset[str]:
    """The names of a piece that stand for values: parameters, fields and type parameters."""
    return frozenset({"self", "result", *re.findall(r"(\w+):", text), *re.findall(r"\b([A-Z])\b", text)})


def named(repository: Repository, path: str, first: int, text: str) -> Piece:
    """A piece with the definitions that its clauses and ghost members name."""
    file, own = repository.ghost_file(path), own_words(text)
    names: list[Target] = []
    for _, _, _, _, words in terms_of(text, path, first):
        uses = Uses(path, lambda word: repository.is_constructor(file, word))
        uses.term(words_without_types(words), 0, own, frozenset())
        names += repository.targets(file, uses.found)
    return Piece(os.path.relpath(path, repository.top), first, text, list(dict.fromkeys(names)))


def words_without_types(words: list[Word]) -> list[Word]:
    return [word for word in words if not re.fullmatch(r"[A-Z]\.\w+", word.text)]


def functions_of(lines: list[str]) -> Iterator[tuple[int, str]]:
    """Each function of a file with its comment, its clauses and its body: where it begins, and its text."""
    for at, line in enumerate(lines):
        if not re.match(r" *(?:pub(?:\([^)]*\))? )?fn \w", line):
            continue
        first, body = at, at
        while first > 0 and re.match(r" *(//|#\[)", lines[first - 1]):
            first -= 1
        while not re.search(r"(?:^ *|\) |> |\w )\{(?:\})?$", lines[body]):
            body += 1
        text = "\n".join([lines[body][lines[body].rindex("{"):], *(without_texts(line) for line in lines[body + 1:])])
        last = body + text[:in_braces(text, text.index("{"))].count("\n")
        yield first + 1, "\n".join(lines[first:last + 1])
