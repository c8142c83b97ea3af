"""Finds what a definition names and does not bind.

The names are those of its type, of its clauses, and of what a record or a data type declares. What binds a name, as a λ, a
`let` or a pattern, is known by the rules of the notation; what this reader does not know ends it with file and line."""
from __future__ import annotations

from collections.abc import Callable
from dataclasses import dataclass

from notation import MARKS, NUMERAL, Item, NotRead, Word, equals_of, groups_of, is_operator, parts_of, signature_of


@dataclass(frozen=True)
class Named:
    """A name that a definition uses and does not bind."""

    parts: tuple[str, ...]
    line: int
    column: int


class Uses:
    """Finds the free names of terms, by the rules of what binds a name."""

    def __init__(self, path: str, is_constructor: Callable[[Word], bool]):
        self.path, self.is_constructor = path, is_constructor
        self.found: list[Named] = []

    def refuse(self, word: Word, why: str) -> NotRead:
        return NotRead(f"{self.path}:{word.line}: {why}: {word.text}")

    def use(self, word: Word) -> None:
        self.found.append(Named(tuple(word.parts), word.line, word.column))

    def term(self, words: list[Word], at: int, bound: frozenset[str], stops: frozenset[str]) -> int:
        """Reads a term up to one of the words that stop it, and returns where that stands."""
        while at < len(words):
            word = words[at]
            text = word.text
            if text in stops and word.kind != "text":
                return at
            if text == "λ":
                at, bound = self.binders(words, at + 1, bound)
            elif text == "let":
                at, bound = self.let(words, at + 1, bound)
            elif text in ("(", "{"):
                at, bound = self.group(words, at, bound)
            elif text == "record":
                at = self.record(words, at + 1, bound)
            elif text == "elim":
                at = self.elim(words, at + 1, bound)
            elif text == "unfold":
                at += 1
                while words[at].text != "in":
                    self.use(words[at])
                    at += 1
                at += 1
            elif word.kind in ("text", "behind") or text in MARKS or text in ("Type", "_", "?", "𝕀", "as", "in"):
                at += 1
            elif NUMERAL.fullmatch(text):
                at += 1
            else:
                if word.parts[0] not in bound:
                    self.use(word)
                at += 1
        return at

    def closed(self, words: list[Word], at: int) -> int:
        """Returns where the bracket that opens here is closed."""
        depth = 0
        for index in range(at, len(words)):
            if words[index].text in ("(", "{", "[") and words[index].kind != "text":
                depth += 1
            elif words[index].text in (")", "}", "]") and words[index].kind != "text":
                depth -= 1
                if depth == 0:
                    return index
        raise self.refuse(words[at], "a bracket that is not closed")

    def telescope(self, words: list[Word], at: int) -> list[str] | None:
        """The names of `(x y : A)` or `{x : A}`, or None where the bracket holds something else."""
        names, index = [], at + 1
        while index < len(words) and words[index].kind == "name" and len(words[index].parts) == 1:
            names.append(words[index].parts[0])
            index += 1
        return names if names and index < len(words) and words[index].text == ":" else None

    def group(self, words: list[Word], at: int, bound: frozenset[str]) -> tuple[int, frozenset[str]]:
        """A bracket: binders of a type, an implicit argument, a tuple, or a term in parentheses."""
        names = self.telescope(words, at)
        close = self.closed(words, at)
        if names is not None:
            colon = at + 1 + len(names)
            self.term(words[:close], colon + 1, bound, frozenset())
            return close + 1, bound | frozenset(names)
        inner = at + 1
        if words[at].text == "{":
            if inner + 1 < close and words[inner + 1].text == "=":
                inner += 2
            elif all(NUMERAL.fullmatch(word.text) or word.text in (",", "ℓ") for word in words[inner:close]):
                return close + 1, bound
        # a `,` or `;` parts terms; what a `(x : A) ×` binds ends at the bracket
        self.terms(words, inner, close, bound)
        return close + 1, bound

    def terms(self, words: list[Word], at: int, close: int, bound: frozenset[str]) -> None:
        inner = words[:close]
        while at < close:
            at = self.term(inner, at, bound, frozenset((",", ";"))) + 1

    def binders(self, words: list[Word], at: int, bound: frozenset[str]) -> tuple[int, frozenset[str]]:
        """What a λ binds, up to its dot."""
        new: set[str] = set()
        while words[at].text != ".":
            at = self.binder(words, at, bound, new)
        return at + 1, bound | new

    def binder(self, words: list[Word], at: int, bound: frozenset[str], new: set[str]) -> int:
        """One name, pattern of a tuple or of a record, or name with its type."""
        word = words[at]
        if word.text in ("(", "{"):
            close = self.closed(words, at)
            names = self.telescope(words, at)
            if names is not None:
                self.term(words[:close], at + 2 + len(names), bound, frozenset())
                new.update(names)
            else:
                index = at + 1
                while index < close:
                    index = index + 1 if words[index].text in (",", "=") else self.binder(words, index, bound, new)
            return close + 1
        if word.text == "record":
            close = self.closed(words, at + 1)
            index = at + 2
            while index < close:
                # label = name
                index = self.binder(words, index + 2, bound, new)
                if words[index].text == ";":
                    index += 1
            return close + 1
        if word.text != "_":
            new.add(word.parts[0])
        return at + 1

    def let(self, words: list[Word], at: int, bound: frozenset[str]) -> tuple[int, frozenset[str]]:
        new: set[str] = set()
        at = self.binder(words, at, bound, new)
        if words[at].text == ":":
            at = self.term(words, at + 1, bound, frozenset("="))
        if words[at].text != "=":
            raise self.refuse(words[at], "a `let` without `=`")
        at = self.term(words, at + 1, bound, frozenset(("in",)))
        return at + 1, bound | new

    def record(self, words: list[Word], at: int, bound: frozenset[str]) -> int:
        """`record { .. }` as a value or a type, or `record r { .. }`."""
        if words[at].text == "(":
            close = self.closed(words, at)
            self.terms(words, at + 1, close, bound)
            at = close + 1
        elif words[at].text != "{":
            if words[at].parts[0] not in bound:
                self.use(words[at])
            at += 1
        if at < len(words) and words[at].kind == "behind":
            at += 1
        close = self.closed(words, at)
        index, inner = at + 1, words[:close]
        while index < close:
            label, sign = words[index], words[index + 1].text
            if sign not in ("=", ":"):
                raise self.refuse(label, "a field without `=` or `:`")
            index = self.term(inner, index + 2, bound, frozenset(";")) + 1
            if sign == ":":
                bound = bound | {label.text}
        return close + 1

    def elim(self, words: list[Word], at: int, bound: frozenset[str]) -> int:
        """`elim t as (λ x. M) [ p ↦ e | .. ]`."""
        at = self.term(words, at, bound, frozenset("["))
        close = self.closed(words, at)
        index, inner = at + 1, words[:close]
        while index < close:
            new: set[str] = set()
            index = self.pattern(inner, index, bound, new, "↦")
            index = self.term(inner, index + 1, bound | new, frozenset("|")) + 1
        return close + 1

    def pattern(self, words: list[Word], at: int, bound: frozenset[str], new: set[str], stop: str) -> int:
        """Reads patterns up to the word that stops them; adds the names that they bind."""
        while words[at].text != stop:
            word = words[at]
            if word.text == "{" and words[at + 2].text == "=":
                at += 3
                continue
            if word.kind == "mark" or word.text == "_" or word.kind == "text":
                at += 1
                continue
            if self.is_constructor(word):
                self.use(word)
            else:
                if len(word.parts) > 1:
                    raise self.refuse(word, "a path in a pattern that is no constructor")
                new.add(word.parts[0])
            at += 1
        return at


def names_in_item(path: str, item: Item, is_constructor: Callable[[Word], bool], fixed: frozenset[str]) -> list[Named]:
    """Returns what a definition names and does not bind; `fixed` are the parameters of the sections round it."""
    uses = Uses(path, is_constructor)
    words = item.words
    if item.kind in ("record", "data"):
        return names_in_type(uses, item, fixed)
    if item.kind != "definition":
        return []
    behind, unfolded, ends = signature_of(item)
    levels = frozenset(word.text for word in words[:behind] if word.kind == "name")
    uses.term(words[:unfolded], behind + 1, fixed | (levels - {item.name}), frozenset())
    for word in words[unfolded + 1:ends]:
        uses.use(word)
    for clause in item.clauses:
        new: set[str] = set()
        sides = clause if is_operator(item.name) else clause[1:]
        if is_operator(item.name):
            own = set(parts_of(item.name)) | {item.name}
            sides = [word for index, word in enumerate(clause)
                     if not (word.text in own and index < clause.index(equals_of(clause)))]
        at = uses.pattern(sides, 0, fixed, new, "=")
        uses.term(sides, at + 1, fixed | new, frozenset())
    return uses.found


def names_in_signature(path: str, item: Item, is_constructor: Callable[[Word], bool]) -> list[Named]:
    """Returns what the type of a definition without parameters names."""
    uses = Uses(path, is_constructor)
    behind, unfolded, _ = signature_of(item)
    uses.term(item.words[:unfolded], behind + 1, frozenset(), frozenset())
    return uses.found


def names_in_type(uses: Uses, item: Item, fixed: frozenset[str]) -> list[Named]:
    """What a record or a data type names: its parameters, its type, its fields or constructors in turn."""
    words = item.words
    start = next(index for index, word in enumerate(words) if word.text in ("record", "data")) + 2
    where = next((index for index, word in enumerate(words) if word.text == "where"), len(words))
    bound, at = fixed, start
    while at < where and words[at].text in ("(", "{"):
        at, bound = uses.group(words, at, bound)
    uses.term(words[:where], at + 1, bound, frozenset())
    for line in groups_of(words[where + 1:]):
        if line[0].text == "deriving":
            continue
        colon = next((index for index, word in enumerate(line) if word.text == ":"), None)
        if colon is None:
            continue
        uses.term(line, colon + 1, bound, frozenset())
        if item.kind == "record":
            bound = bound | {word.parts[0] for word in line[:colon] if word.text != "pub"}
    return uses.found
