"""Reads what definitions take from the code: types, constants and traits, and the contract of a function."""
from __future__ import annotations

import os
import re
from dataclasses import dataclass, field

from notation import NotRead, Word, words_of

ITEM = re.compile(r"^(?:pub(?:\([^)]*\))? )?(?:unsafe )?(?P<kind>enum|struct|trait|const|type) (?P<name>\w+)")
GHOST_USE = re.compile(r"ghost use ([^;]*);", re.DOTALL)


@dataclass
class CodeItem:
    """A type, constant or trait of the code, with its comment and attributes."""

    kind: str
    name: str
    path: str
    first: int
    last: int
    text: str
    # the clauses and ghost members in it, as words of the notation
    terms: list[list[Word]] = field(default_factory=list)


@dataclass
class Clause:
    """One clause of a function's contract."""

    word: str
    name: str
    line: int
    text: str
    terms: list[Word]


@dataclass
class Function:
    path: str
    line: int
    head: str
    clauses: list[Clause]
    # the names that stand for what it is handed, and the traits that bound its types
    bound: frozenset[str]
    traits: list[str]


def without_texts(line: str) -> str:
    """A line of code without its comment and quoted texts, so that brackets can be counted."""
    line = re.sub(r'"(\\.|[^"\\])*"', '""', line)
    line = re.sub(r"'(\\.|[^'\\])'", "' '", line)
    return re.sub(r"//.*", "", line)


def end_of(lines: list[str], start: int) -> int:
    """Returns the index of the line with which an item ends."""
    depth = 0
    for at in range(start, len(lines)):
        line = without_texts(lines[at])
        depth += sum(line.count(mark) for mark in "{([") - sum(line.count(mark) for mark in "})]")
        if depth == 0 and line.rstrip().endswith(("}", ";")):
            return at
    raise NotRead(f"line {start + 1}: an item of the code without its end")


def in_braces(text: str, at: int) -> int:
    """Returns where the brace that opens here is closed."""
    depth = 0
    for index in range(at, len(text)):
        depth += (text[index] == "{") - (text[index] == "}")
        if depth == 0:
            return index
    raise NotRead("a brace that is not closed")


def terms_of(text: str, path: str, line: int) -> list[tuple[str, str, int, str, list[Word]]]:
    """Each clause and ghost member of a piece of code: its word, its name, its line, its text and its words."""
    found = []
    for match in re.finditer(r"\b(requires|ensures|ghost)(?: (\w+))?(:| =)? *\{", text):
        open_at = match.end() - 1
        close = in_braces(text, open_at)
        inner = text[open_at + 1:close]
        at = line + text[:match.start()].count("\n")
        words = [Word(word.text, word.line + at - 1, word.column, word.kind) for word in words_of(inner, path)]
        found.append((match[1], match[2] or "", at, inner.strip(), words))
    return found


class CodeFile:
    """A file of code: its items, what it brings in for its clauses, and its functions."""

    def __init__(self, path: str):
        self.path = path
        with open(path, encoding="utf-8") as file:
            self.text = file.read()
        self.lines = self.text.split("\n")
        self.ghost_uses = [re.sub(r"\s+", " ", use) for use in GHOST_USE.findall(self.text)]

    def items(self) -> dict[str, CodeItem]:
        found: dict[str, CodeItem] = {}
        for at, line in enumerate(self.lines):
            match = ITEM.match(line)
            if match is None:
                continue
            end, first = end_of(self.lines, at), at
            while first > 0 and re.match(r"(///|#\[)", self.lines[first - 1]):
                first -= 1
            text = "\n".join(self.lines[first:end + 1])
            terms = [term[4] for term in terms_of(text, self.path, first + 1)]
            found[match["name"]] = CodeItem(match["kind"], match["name"], self.path, first + 1, end + 1, text, terms)
        for at, line in enumerate(self.lines):
            match = re.match(r"impl(?:<.*?>)? Model for (\w+)", line)
            if match and match[1] in found:
                end, item = end_of(self.lines, at), found[match[1]]
                text = "\n".join(self.lines[at:end + 1])
                item.text += "\n\n" + text
                item.terms += [term[4] for term in terms_of(text, self.path, at + 1)]
        return found

    def function(self, name: str) -> Function | None:
        for at, line in enumerate(self.lines):
            match = re.match(rf" *pub fn {name}\b", line)
            if match is None:
                continue
            end = at
            while end < len(self.lines) and not re.match(r" *\{|.*\{\}$|.*;$", self.lines[end]):
                end += 1
            first = at
            while first > 0 and re.match(r" *(///|#\[)", self.lines[first - 1]):
                first -= 1
            head = "\n".join(self.lines[first:end])
            body = "\n".join(self.lines[at:end])
            clauses = [Clause(*term) for term in terms_of(body, self.path, at + 1)]
            before = body[:body.find("requires")] if "requires" in body else body
            before = before[:before.find("ensures")] if "ensures" in before else before
            generics = dict(re.findall(r"(\w+): ([\w +]+)[,>]", before[:before.find("(")] + ">"))
            names = set(re.findall(r"(\w+):", before)) | set(generics) | {"result", "self"}
            traits = [bound.strip() for bounds in generics.values() for bound in bounds.split("+")]
            return Function(self.path, at + 1, head, clauses, frozenset(names), traits)
        return None


def code_files(folder: str) -> list[str]:
    """The files of code of a crate, tests left out."""
    return sorted(f"{at}/{name}" for at, _, names in os.walk(f"{folder}/src") for name in names
                  if name.endswith(".rt") and "tests" not in at)
