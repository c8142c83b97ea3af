"""Reads a score's text as a tree (`tree`), by the grammar of the language.

The text has to be one that the program accepts: nothing is judged here.
"""

from __future__ import annotations

import re
from functools import lru_cache
from typing import Any, Callable, Sequence

from ..language.grammar import RULES, TOKENS, firsts
from ..language.tokens import NUMBER, kind_of
from ..making.pitch import Pitch
from ..making.shapes import Part
from .tree import Amount, Block, Comment, Computed, Expression, Length, Phrase, Reading, Shape, Statement, Token

#: What is between tokens, and a token, a comment, or a byte that begins none.
_PIECES = re.compile(r"([ \t\r\n]*)(?:([a-z][a-z0-9_]*|[0-9]+|[][;{}(),=/+*%-])|(#[^\n]*)|\Z|(.))", re.S)
_TIGHTER = {"+": 1, "-": 1, "*": 2, "/": 2, "%": 2}


class Unread(ValueError):
    """A text that is no score: the program refuses it, and says why."""


def _split(text: bytes) -> tuple[list[Token], list[Comment]]:
    """The tokens of a text, with an empty one at its end, and its comments."""
    tokens: list[Token] = []
    comments: list[Comment] = []
    line, line_start = 1, -1  # the line, and the byte before it
    source = text.decode("latin-1")  # a character a byte
    for found in _PIECES.finditer(source):
        blank, piece, comment, other = found.groups()
        at = found.start() + len(blank)
        if "\n" in blank:
            line += blank.count("\n")
            line_start = source.rindex("\n", 0, at)
        if piece:
            tokens.append(Token(piece, line, at - line_start, at))
        elif comment:
            is_alone = not tokens or tokens[-1].line != line
            said = comment[1:].encode("latin-1").decode("utf-8", "replace")
            comments.append(Comment(said.strip(), line, at - line_start, is_alone))
        elif other:
            raise Unread(f"no token begins at {line}:{at - line_start}")
        else:
            tokens.append(Token("", line, at - line_start, at))
            break
    return tokens, comments


def _kinds(tokens: Sequence[Token]) -> list[str]:
    """The kinds of tokens; `division` is a word behind `formula 2;`."""
    known: dict[str, str] = {"": "END"}
    for text in {token.text for token in tokens} - {""}:
        known[text] = NUMBER if text.isdigit() else kind_of(text) if text[0].isalpha() else text
    found = [known[token.text] for token in tokens]
    if [token.text for token in tokens[2:4]] == [";", "division"] and int(tokens[1].text) == 2:
        found[3] = "division"
    return found


#: By each rule and the kind of the next token the symbols that follow, each with its kind where it is a token.
_WAYS = {rule: {kind: tuple((symbol, TOKENS[symbol][0] if symbol in TOKENS else "") for symbol in way)
                for kind, way in firsts(rule).items()} for rule in RULES}


class _Reader:
    """Reads the tokens from left to right, rule by rule. A method `of_RULE` makes a value of what its rule has read."""

    def __init__(self, tokens: list[Token]):
        self.tokens, self.at = tokens, 0
        self.kinds = _kinds(tokens)
        self.version, self.division, self.seed = 1, 480, 0
        self.shapes: dict[str, Shape] = {}
        self.phrases: dict[str, Phrase] = {}
        self.statements: list[Statement] = []
        self.makers: dict[str, Callable[[list[Any]], Any]] = {
            rule: getattr(self, f"of_{rule}") for rule in RULES if hasattr(self, f"of_{rule}")}

    def read(self, rule: str) -> Any:
        """What a rule makes of the values of its way; of a list, which ends with itself, of all of them."""
        values: list[Any] = []
        ways, again, kinds = _WAYS[rule], True, self.kinds
        is_list = "" in ways
        while again:
            again = False
            way = ways.get(kinds[self.at])
            if way is None and not is_list:
                raise self.unread()
            for symbol, kind in way or ():
                if not kind:
                    if symbol == rule and is_list:
                        again = True
                    else:
                        values.append(self.read(symbol))
                elif kinds[self.at] == kind:
                    values.append(self.tokens[self.at])
                    self.at += kind != "END"
                else:
                    raise self.unread()
        make = self.makers.get(rule)
        return make(values) if make else values

    def unread(self) -> Unread:
        """The next token may not be here."""
        token = self.tokens[self.at]
        return Unread(f"{token.line}:{token.column}: {token.text!r} may not be here")

    # ---- lists: what is between commas

    def of_parts(self, values: list[Any]) -> list[Any]:
        return values[1::2]

    of_more = of_lengths = of_numbers = of_parts

    def of_pitches(self, values: list[Any]) -> list[tuple[str, Amount]]:
        return [values[0], *values[1]]

    # ---- lengths and amounts

    def of_length(self, values: list[Any]) -> Length:
        if len(values) == 2:
            return values[1] if isinstance(values[1], (int, Computed)) else int(values[1].text)
        return 4 * self.division * int(values[0].text) // int(values[2].text)

    of_duration = of_length

    def of_ticked(self, values: list[Any]) -> Length:
        return int(values[0].text) if len(values) == 1 else Computed(values[1], int(values[4].text))

    of_count = of_ticked

    def of_amount(self, values: list[Any]) -> Amount:
        if len(values) == 3:
            return _inner(values)
        return int(values[0].text) if len(values) == 1 else -int(values[1].text)

    of_keyed = of_amount

    def of_pitch(self, values: list[Any]) -> tuple[str, Amount]:
        name = values[0].text
        return (name, values[1]) if len(values) == 2 else (name, _key(name))

    # ---- expressions, by the strength of their operators

    def of_expr(self, values: list[Any]) -> Expression:
        return _grouped(values[0], values[1], 1)

    def of_factor(self, values: list[Any]) -> Expression:
        first = values[0].text
        if len(values) == 1:
            return Expression("number", int(first)) if first.isdigit() else Expression(first[0], int(first[1:]))
        if first == "-":
            return Expression("negative", 0, (values[1],))
        if first == "(":
            return _inner(values)
        return Expression(first, 0, (values[2],) if first == "pick" else (values[1][1], values[1][3]))

    # ---- statements

    def of_block(self, values: list[Any]) -> Block:
        return Block(values[0], values[0], values[2], tuple(values[1]))

    def of_branch(self, values: list[Any]) -> Block:
        return _headed(values[1], values[0])

    def of_statement(self, values: list[Any]) -> Statement:
        first = values[0]
        return Statement(first.text, first, self.tokens[self.at - 1], **_FIELDS[first.text](values))

    # ---- the whole

    def of_part(self, values: list[Any]) -> Part:
        if len(values) == 2:
            return Part(values[0].text, values[1])
        return Part(values[0].text, values[1], int(values[3].text), int(values[-1].text))

    def of_entry(self, values: list[Any]) -> None:
        if len(values) == 1:
            self.statements.append(values[0])
        elif values[0].text == "phrase":
            self.phrases[values[1].text] = Phrase(values[1], _headed(values[2], values[0]))
        else:
            self.shapes[values[1].text] = Shape(values[1], (values[3], *values[4]))

    def of_options(self, values: list[Any]) -> None:
        if len(values) > 1:
            self.division = int(values[1].text)

    def of_seed(self, values: list[Any]) -> None:
        if values:
            self.seed = int(values[1].text)


@lru_cache(maxsize=None)
def _key(name: str) -> int:
    return int(Pitch(name))


def _inner(values: list[Any]) -> Expression:
    """What is in parentheses."""
    inner: Expression = values[1]
    return inner


def _headed(block: Block, head: Token) -> Block:
    return Block(head, block.opened, block.closed, block.statements)


def _grouped(left: Expression, rest: list[Any], least: int) -> Expression:
    """An operand with what follows it, an operator and an operand in turn, as far as the operators are so strong."""
    while rest and _TIGHTER[rest[0].text] >= least:
        sign = rest.pop(0).text
        left = Expression(sign, 0, (left, _grouped(rest.pop(0), rest, _TIGHTER[sign] + 1)))
    return left


def _pitched(values: list[Any]) -> dict[str, Any]:
    return {"names": tuple(name for name, _ in values[1]), "pitches": tuple(amount for _, amount in values[1])}


def _listed(values: list[Any]) -> dict[str, Any]:
    entries = (values[2], *values[3])
    return {"entries": tuple(each if isinstance(each, int) else int(each.text) for each in entries),
            "blocks": (values[5],)}


def _numbered(values: list[Any]) -> dict[str, Any]:
    return {"number": int(values[1].text), "blocks": (values[2],)}


#: By its word the fields of a statement, from the values of its way.
_FIELDS: dict[str, Callable[[list[Any]], dict[str, Any]]] = {
    "note": lambda values: {**_pitched(values), "length": values[2]}, "play": _pitched,
    "rest": lambda values: {"length": values[1]}, "skip": lambda _: {},
    "control": lambda values: {"number": int(values[1].text), "amount": values[2]},
    "program": lambda values: {"amount": values[1]}, "bend": lambda values: {"amount": values[1]},
    "set": lambda values: {"number": int(values[1].text[1:]), "amount": values[3]},
    "if": lambda values: {"amount": values[1], "blocks": (values[2], *values[3][1:])},
    "repeat": lambda values: {"length": values[1], "blocks": (values[2],)},
    "do": lambda values: {"name": values[1].text},
    "par": lambda values: {"blocks": (values[2], *values[3])},
    "warp": lambda values: {"name": values[1].text, "blocks": (values[2],)},
    "channel": _numbered, "volume": _numbered, "gate": _numbered, "rhythm": _listed, "artic": _listed, "loud": _listed,
}


def read(text: bytes) -> Reading:
    """The reading of a text that the program accepts."""
    tokens, comments = _split(text)
    reader = _Reader(tokens)
    head = reader.read("score")
    return Reading(text, int(head[1].text), reader.division, reader.seed, reader.shapes, reader.phrases,
                   tuple(reader.statements), tuple(comments), tuple(tokens))
