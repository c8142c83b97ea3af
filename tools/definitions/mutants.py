"""The changes of a definition by rule, one place at a time: a number is one more or one less, two arms or the bodies of two
clauses are exchanged, `<` stands for `≤`, an onset for an ending, an argument or an operand for another of its type, a field
for another of its record, a summand is left out, the greatest stands for the least, what is taken for what is dropped."""
from __future__ import annotations

import re
from collections import Counter, defaultdict
from collections.abc import Callable, Iterator
from dataclasses import dataclass, replace
from functools import partial
from typing import Any

from notation import Item, NotRead, Word, signature_of
from repository import Repository, Target
from sizes import says_only
from terms import Clause, Pattern, Term
from translate import Translator

# What stands for what.
OTHER = {
    "nat_lt": "nat_le", "nat_le": "nat_lt", "int_lt": "int_le", "int_le": "int_lt", "min": "max", "max": "min",
    "int_min": "int_max", "int_max": "int_min", "take": "drop", "drop": "take", "list_any": "list_all",
    "list_all": "list_any", "Onset": "Ending", "Ending": "Onset", "true": "false", "false": "true",
    "before_first": "after_first", "after_first": "before_first",
}
OTHER_OPERATOR = {"<": "≤", "≤": "<", "+": "-", "-": "+", "&&": "||", "||": "&&"}
OTHER_FIELD = {"onset": "ending", "ending": "onset"}
# Operators of which one side may be left out, and those whose sides are no longer the same when exchanged.
SUMS = ("+", "+ℤ", "++", "&&", "||", "*", "×")
UNEVEN = ("-", "-ℤ", "/", "%", "++", "<", "≤")


@dataclass(frozen=True)
class Mutant:
    target: Target
    place: str
    change: str
    clauses: tuple[Clause, ...]
    # the last constructor among the patterns of the clause, where there is one
    of: str = ""


# ---- changes of a term

def number(value: int, word: Word) -> Term:
    return Term("number", Word(str(value), word.line, word.column))


def library_operator(sign: str, word: Word) -> Word:
    """An operator of the libraries, whether or not the file brings it in."""
    return Word(sign, word.line, word.column, "mark")


def spine(term: Term) -> tuple[Term, list[Term]]:
    """What is applied, and to what."""
    arguments: list[Term] = []
    while term.kind == "apply":
        parts: Any = term.parts
        arguments.insert(0, parts[1])
        term = parts[0]
    return term, arguments


def applied(head: Term, arguments: list[Term]) -> Term:
    for argument in arguments:
        head = Term("apply", head.word, (head, argument))
    return head


class Changes:
    """The changes of terms in one definition."""

    def __init__(self, translator: Translator, target: Target):
        self.translator, self.target = translator, target
        self.file, self.item = translator.found(target)

    def of(self, term: Term) -> Iterator[tuple[str, Term]]:
        yield from self.itself(term)
        yield from self.inside(term)

    def inside(self, term: Term) -> Iterator[tuple[str, Term]]:
        """Changes of a part, with the whole round it."""
        if term.kind == "apply":
            head, arguments = spine(term)
            for index, argument in enumerate(arguments):
                for change, mutant in self.of(argument):
                    yield change, applied(head, [*arguments[:index], mutant, *arguments[index + 1:]])
            for change, mutant in self.of(head):
                yield change, applied(mutant, arguments)
            return
        for rebuilt, part in parts_of_term(term):
            for change, mutant in self.of(part):
                yield change, rebuilt(mutant)

    def itself(self, term: Term) -> Iterator[tuple[str, Term]]:
        """Changes of the term itself."""
        parts: Any = term.parts
        word = term.word
        if term.kind == "number":
            value = int(word.text.replace("_", ""), 0)
            yield f"{value} is {value + 1}", number(value + 1, word)
            if value:
                yield f"{value} is {value - 1}", number(value - 1, word)
        elif term.kind == "choice":
            yield "arms exchanged", Term("choice", word, (parts[0], parts[2], parts[1]))
        elif term.kind == "operator":
            yield from self.of_operator(term)
        elif term.kind == "name":
            yield from self.of_name(term)
        elif term.kind == "apply":
            yield from self.of_arguments(term)
        elif term.kind == "elim":
            cases = parts[1]
            for index in range(len(cases) - 1):
                if bound(cases[index].patterns) == bound(cases[index + 1].patterns):
                    swapped = exchanged(cases, index)
                    yield f"cases {index + 1} and {index + 2} exchanged", Term("elim", word, (parts[0], tuple(swapped)))
        elif term.kind == "field" and word.text in OTHER_FIELD:
            other = OTHER_FIELD[word.text]
            yield f".{word.text} is .{other}", Term("field", Word(other, word.line, word.column), term.parts)

    def of_operator(self, term: Term) -> Iterator[tuple[str, Term]]:
        left, right = term.parts
        sign = term.word.text
        if sign in SUMS:
            yield f"the left side of {sign} left out", right  # type: ignore[misc]
            if not (sign == "++" and isinstance(right, Term) and right.word.text == "[]"):
                yield f"the right side of {sign} left out", left  # type: ignore[misc]
        if sign in UNEVEN:
            yield f"the sides of {sign} exchanged", Term("operator", term.word, (right, left))
        if sign in OTHER_OPERATOR:
            other = OTHER_OPERATOR[sign]
            yield f"{sign} is {other}", Term("operator", library_operator(other, term.word), term.parts)

    def of_name(self, term: Term) -> Iterator[tuple[str, Term]]:
        word = term.word
        first, *rest = word.parts
        if not rest and first in OTHER:
            yield f"{first} is {OTHER[first]}", self.library(OTHER[first], word)
        if rest and rest[-1] in OTHER_FIELD:
            other = ".".join([first, *rest[:-1], OTHER_FIELD[rest[-1]]])
            yield f"{word.text} is {other}", Term("name", Word(other, word.line, word.column))
        elif rest:
            for label in self.siblings(rest[-1]):
                other = ".".join([first, *rest[:-1], label])
                yield f"{word.text} is {other}", Term("name", Word(other, word.line, word.column))
        if not rest and self.is_constant(word):
            unit = number(1, word)
            for sign in ("+", "-"):
                yield f"{first} is {first} {sign} 1", Term("operator", library_operator(sign, word), (term, unit))

    def library(self, name: str, word: Word) -> Term:
        """A word of the libraries, whether or not the file brings it in."""
        return Term("made", Word(name, word.line, word.column))

    def siblings(self, label: str) -> list[str]:
        """Another field of the same type in the record of this field, where one record alone has a field of its name."""
        found = self.records().get(label, [])
        return [other for other, kind in found if other != label and kind == dict(found)[label]][:1]

    def records(self) -> dict[str, list[tuple[str, str]]]:
        return fields_of(self.translator.repository)

    def is_constant(self, word: Word) -> bool:
        try:
            target = self.translator.repository.resolve(self.file, tuple(word.parts), word.line)
        except NotRead:
            return False
        if target is None or target.kind != "code":
            return False
        return self.translator.repository.code(target.module)[target.name].kind == "const"

    def of_arguments(self, term: Term) -> Iterator[tuple[str, Term]]:
        head, arguments = spine(term)
        if head.kind != "name":
            return
        kinds = self.kinds(head.word)
        for index in range(len(arguments) - 1):
            if index + 1 < len(kinds) and kinds[index] == kinds[index + 1]:
                swapped = [*arguments[:index], arguments[index + 1], arguments[index], *arguments[index + 2:]]
                if text_of(arguments[index]) != text_of(arguments[index + 1]):
                    yield f"arguments {index + 1} and {index + 2} of {head.word.text} exchanged", applied(head, swapped)

    def kinds(self, word: Word) -> list[str]:
        """The types of the arguments of what a name means, as texts."""
        if len(word.parts) == 1 and word.text in ("nat_lt", "nat_le", "int_lt", "int_le"):
            return ["ℕ", "ℕ"]
        try:
            target = self.translator.repository.resolve(self.file, tuple(word.parts), word.line)
        except NotRead:
            return []
        if target is None or target.kind != "definition":
            return []
        _, item = self.translator.found(target)
        if item.kind == "definition" and target.name == word.parts[-1]:
            behind, unfolded, _ = signature_of(item)
            return argument_types(item.words[behind + 1:unfolded])
        if item.kind == "data" and word.parts[-1] in item.constructors:
            line = item.constructors[word.parts[-1]]
            words = [word for word in item.words if word.line == line]
            colon = next((index for index, word in enumerate(words) if word.text == ":"), None)
            return argument_types(words[colon + 1:]) if colon is not None else []
        return []


def argument_types(words: list[Word]) -> list[str]:
    """The types before the arrows of a type, `(x y : A)` as one for each name."""
    found: list[str] = []
    part: list[Word] = []
    depth = 0
    for word in [*words, Word("→", 0, 0)]:
        depth += (word.text in "({") - (word.text in ")}") if len(word.text) == 1 else 0
        if word.text == "→" and depth == 0:
            text = [word.text for word in part]
            if text[:1] == ["{"]:
                # what stands in braces is no argument
                text = text[text.index("}") + 1:]
            while text[:1] == ["("] and ":" in text and matching(text) != 0:
                close = matching(text)
                inner = text[1:close]
                colon = inner.index(":") if ":" in inner else -1
                if colon < 0:
                    break
                found += [" ".join(inner[colon + 1:])] * colon
                text = text[close + 1:]
            if text:
                found.append(" ".join(text))
            part = []
        else:
            part.append(word)
    return found[:-1] if found else []


def matching(text: list[str]) -> int:
    depth = 0
    for index, token in enumerate(text):
        depth += (token == "(") - (token == ")")
        if depth == 0:
            return index
    return 0


FIELDS: dict[str, list[tuple[str, str]]] = {}


def fields_of(repository: Repository) -> dict[str, list[tuple[str, str]]]:
    """The fields of each record with their types, by the name of a field that no other record has."""
    if not FIELDS:
        seen: Counter[str] = Counter()
        found: dict[str, list[tuple[str, str]]] = {}
        for file in list(repository.files.values()):
            for item in file.items:
                if item.kind != "record":
                    continue
                fields = record_fields(item)
                for label, _ in fields:
                    seen[label] += 1
                    found[label] = fields
        FIELDS.update({label: fields for label, fields in found.items() if seen[label] == 1})
    return FIELDS


def record_fields(item: Item) -> list[tuple[str, str]]:
    lines: dict[int, list[str]] = defaultdict(list)
    for word in item.words:
        lines[word.line].append(word.text)
    fields = []
    for text in lines.values():
        text = [token for token in text if token != "pub"]
        if len(text) > 2 and text[1] == ":" and text[0] != "record":
            fields.append((text[0], " ".join(text[2:])))
    return fields


def with_part(term: Term, index: int, part: Term) -> Term:
    return replace(term, parts=(*term.parts[:index], part, *term.parts[index + 1:]))


def with_field(term: Term, index: int, value: Term) -> Term:
    parts: Any = term.parts
    return replace(term, parts=(parts[0], (*parts[1][:index], (parts[1][index][0], value), *parts[1][index + 1:])))


def with_case(term: Term, index: int, body: Term) -> Term:
    parts: Any = term.parts
    return replace(term, parts=(parts[0], (*parts[1][:index], replace(parts[1][index], body=body), *parts[1][index + 1:])))


def parts_of_term(term: Term) -> Iterator[tuple[Callable[[Term], Term], Term]]:
    """Each part of a term, with what puts another in its place."""
    parts: Any = term.parts
    if term.kind in ("operator", "choice", "tuple", "field"):
        for index, part in enumerate(parts):
            yield partial(with_part, term, index), part
    elif term.kind == "function":
        yield (lambda part: replace(term, parts=(parts[0], part))), parts[1]
    elif term.kind == "let":
        yield (lambda part: replace(term, parts=(parts[0], part, parts[2]))), parts[1]
        yield (lambda part: replace(term, parts=(parts[0], parts[1], part))), parts[2]
    elif term.kind == "record":
        for index, (_, value) in enumerate(parts[1]):
            yield partial(with_field, term, index), value
    elif term.kind == "elim":
        if parts[0]:
            yield (lambda part: replace(term, parts=(part, parts[1]))), parts[0]
        for index, case in enumerate(parts[1]):
            yield partial(with_case, term, index), case.body


def bound(patterns: tuple[Pattern, ...]) -> list[str]:
    """The names that patterns bind."""
    found = []
    for pattern in patterns:
        if pattern.kind == "variable":
            found.append(pattern.word.text)
        found += bound(pattern.parts)
    return sorted(found)


def exchanged(clauses: Any, index: int) -> list[Clause]:
    first, second = clauses[index], clauses[index + 1]
    return [*clauses[:index], replace(first, body=second.body), replace(second, body=first.body), *clauses[index + 2:]]


def text_of(term: Any) -> str:
    """A term as a text, to tell whether two are the same."""
    if isinstance(term, Term):
        return f"{term.kind}:{term.word.text}({','.join(map(text_of, term.parts))})"
    if isinstance(term, tuple):
        return f"({','.join(map(text_of, term))})"
    if isinstance(term, (Clause, Pattern)):
        return repr(re.sub(r"line=\d+, column=\d+", "", repr(term)))
    return str(term)


def constructor_of(clause: Clause) -> str:
    kinds = ("variable", "any")
    return next((pattern.word.text for pattern in reversed(clause.patterns) if pattern.kind not in kinds), "")


def mutants_of(translator: Translator, target: Target) -> list[Mutant]:
    """Each change of one definition."""
    file, item = translator.found(target)
    if item.kind != "definition" or says_only(item) and target not in translator.wanted:
        return []
    clauses = translator.clauses(file, item)
    changes, found = Changes(translator, target), []
    for index, clause in enumerate(clauses):
        place = f"{file.path}:{clause.body.word.line}"
        for change, body in changes.of(clause.body):
            changed = (*clauses[:index], replace(clause, body=body), *clauses[index + 1:])
            found.append(Mutant(target, place, change, changed, constructor_of(clause)))
        if index + 1 < len(clauses) and bound(clause.patterns) == bound(clauses[index + 1].patterns) \
                and text_of(clause.body) != text_of(clauses[index + 1].body):
            found.append(Mutant(target, place, f"the bodies of clauses {index + 1} and {index + 2} exchanged",
                                tuple(exchanged(clauses, index))))
    return found
