"""The text of a score in one layout; tokens, comments, and where its lines and blocks break stay as they are written.

A line is set in by two blanks for each open block. A block is on one line, or its braces end and begin lines; one that
opens alone in another, on its line, closes with it. A statement is on one line; where lines are longer than a screen
they break between statements, and lists behind commas. Comments behind statements have two blanks before them, or
keep the column that they share.
"""

from __future__ import annotations

from itertools import accumulate
from typing import Iterator, NamedTuple, Optional, Sequence

from ..reading.tree import Block, Comment, Reading, Statement, Token

WIDTH = 120
#: Between these no blank stands: before one, and behind the other.
_TIGHT_BEFORE, _TIGHT_BEHIND = frozenset(";,)]"), frozenset("([")
_FUNCTIONS = frozenset(("pick", "min", "max", "less", "same"))
#: What stands between a line and the comment behind it.
_GAP = 2


class Row(NamedTuple):
    """A line: how deep it is set in, what it says, and the comment behind it; the comment's column in the old text,
    and how many blanks were before it."""

    depth: int
    text: str
    comment: str = ""
    column: int = 0
    gap: int = 0


class _Unit(NamedTuple):
    """A statement, a shape, a phrase or a branch: its first token, the tokens of its heads, and its blocks behind
    them."""

    first: Token
    last: Token
    heads: tuple[tuple[Token, ...], ...]
    blocks: tuple[tuple[Token, Token, tuple["_Unit", ...]], ...]


def formatted(reading: Reading) -> bytes:
    """The text in the layout."""
    page = _Page(reading)
    page.units(_units_of_score(reading), 0)
    page.comments_until(len(reading.text) + 2, 0)
    page.end(0)
    return "\n".join([*_aligned(page.rows), ""]).encode("latin-1")


# ---- the units of a text

def _units_of_score(reading: Reading) -> tuple[_Unit, ...]:
    """What stands outside all blocks."""
    found = [_unit(reading, statement) for statement in reading.statements]
    tokens, starts = reading.tokens, {token.start: at for at, token in enumerate(reading.tokens)}
    for shape in reading.shapes.values():
        at = starts[shape.name.start] - 1
        end = next(number for number in range(at, len(tokens)) if tokens[number].text == ";")
        found.append(_Unit(tokens[at], tokens[end], (tokens[at:end + 1],), ()))
    for phrase in reading.phrases.values():
        at = starts[phrase.name.start] - 1
        inner = tuple(_unit(reading, statement) for statement in phrase.block.statements)
        block = phrase.block.opened, phrase.block.closed, inner
        found.append(_Unit(tokens[at], phrase.block.closed, (tokens[at:at + 2],), (block,)))
    found.sort(key=lambda unit: unit.first.start)
    first = found[0].first.start if found else tokens[-1].start
    head: list[Token] = []
    for token in tokens:
        if token.start >= first or not token.text:
            break
        head.append(token)
        if token.text == ";":
            found.insert(_heads(found, first), _Unit(head[0], token, (tuple(head),), ()))
            head = []
    return tuple(found)


def _heads(found: Sequence[_Unit], first: int) -> int:
    return sum(unit.first.start < first for unit in found)


def _unit(reading: Reading, statement: Statement) -> _Unit:
    """A statement."""
    if statement.word == "par":
        opened = reading.tokens_between(statement.first, statement.last)[1]
        branches = tuple(_branch(reading, block) for block in statement.blocks)
        return _Unit(statement.first, statement.last, ((statement.first,),), ((opened, statement.last, branches),))
    heads, blocks, first = [], [], statement.first
    for block in statement.blocks:
        heads.append(reading.tokens_between(first, block.opened)[:-1])
        inner = tuple(_unit(reading, each) for each in block.statements)
        blocks.append((block.opened, block.closed, inner))
        behind = reading.tokens_between(block.closed, statement.last)
        first = behind[1] if len(behind) > 1 else block.closed
    if not blocks:
        heads.append(reading.tokens_between(first, statement.last))
    return _Unit(statement.first, statement.last, tuple(heads), tuple(blocks))


def _branch(reading: Reading, block: Block) -> _Unit:
    inner = tuple(_unit(reading, each) for each in block.statements)
    return _Unit(block.head, block.closed, ((block.head,),), ((block.opened, block.closed, inner),))


def spaced(tokens: Sequence[Token]) -> Iterator[str]:
    """Tokens that follow one another on a line, each with a blank before it where a reader expects one."""
    before, depth, is_sign = "", 0, False
    has_lengths = tokens[0].text not in ("set", "if")
    for token in tokens:
        is_length = "/" in (token.text, before) and depth == 0 and has_lengths
        is_call = token.text == "(" and before in _FUNCTIONS
        tight = not before or token.text in _TIGHT_BEFORE or before in _TIGHT_BEHIND or is_call or is_sign or is_length
        yield token.text if tight else f" {token.text}"
        depth += (token.text == "(") - (token.text == ")")
        # a `-` behind an operand is an operator, and else a sign
        is_operand = before == ")" or before[-1:].isdigit() and not (tokens[0].text == "control" and depth == 0)
        is_sign, before = token.text == "-" and not is_operand, token.text


def joined(tokens: Sequence[Token]) -> str:
    """Tokens on one line."""
    return "".join(spaced(tokens))


# ---- the page

class _Page:
    """Lines that are written one after another."""

    def __init__(self, reading: Reading):
        self.reading, self.rows = reading, list[Row]()
        self.comments = list(reading.comments)
        self.line = 1                   # of the old text, of what was written last
        self.open = ""                  # the line that is written
        self.more = 0                   # how much deeper it is set in, where it goes on with a statement
        self.is_closed = False          # whether it ends with a brace that closes more than a line
        self.lines = reading.text.split(b"\n")
        self.starts = list(accumulate((len(line) + 1 for line in self.lines), initial=0))

    # ---- lines

    def end(self, depth: int, comment: Optional[Comment] = None) -> None:
        """Ends the open line."""
        depth, self.more = depth + self.more, 0
        if comment:
            before = self.lines[comment.line - 1][:comment.column - 1]
            self.rows.append(Row(depth, self.open, self.words(comment), comment.column,
                                 len(before) - len(before.rstrip())))
        elif self.open:
            self.rows.append(Row(depth, self.open))
        self.open = ""

    def words(self, comment: Comment) -> str:
        """A comment as it is written, without the blanks at its end."""
        return self.lines[comment.line - 1][comment.column - 1:].decode("latin-1").rstrip()

    def comments_until(self, line: int, depth: int) -> None:
        """Writes the comments above a line of the old text, each behind what stands on its line, or on one of its
        own."""
        while self.comments and self.comments[0].line < line:
            comment = self.comments.pop(0)
            if comment.line == self.line and self.open:
                self.end(depth, comment)
            else:
                self.end(depth)
                self.gap(comment.line)
                self.rows.append(Row(depth, self.words(comment)))
            self.line = max(self.line, comment.line)

    def gap(self, line: int) -> None:
        """An empty line where the old text has one."""
        if self.rows and line > self.line + 1 and self.rows[-1].text[-1:] != "{" and self.rows[-1] != Row(0, ""):
            self.rows.append(Row(0, ""))

    # ---- units

    def units(self, units: Sequence[_Unit], depth: int) -> None:
        """Writes units one after another."""
        for unit in units:
            self.comments_until(unit.first.line, depth)
            if unit.first.line > self.line or self.is_closed:
                self.end(depth)
                self.gap(unit.first.line)
            self.line = max(self.line, unit.first.line)
            self.unit(unit, depth)

    def unit(self, unit: _Unit, depth: int, is_hugged: bool = False) -> None:
        """Writes a unit; one that is hugged opens on the line of the brace round it."""
        flat, self.is_closed = _flat(unit), False
        if self.is_flat(unit) and 2 * depth + len(flat) <= WIDTH:
            self.add(flat, depth)
            self.line = unit.last.line
            return
        if not is_hugged:
            self.end(depth)
        if not unit.blocks:
            self.words_of(unit.heads[0], "", depth)
            self.line = unit.last.line
        for head, (opened, closed, inner) in zip(unit.heads, unit.blocks):
            self.words_of(head, " {", depth)
            self.block(opened, closed, inner, depth)
        self.is_closed = True

    def is_flat(self, unit: _Unit) -> bool:
        """Whether a unit is on one line: its braces are, and no comment is in it."""
        if not unit.blocks and any(
                one.text == "," and other.line > one.line for one, other in zip(unit.heads[0], unit.heads[0][1:])):
            return False
        is_free = not any(unit.first.start < self.start(comment) < unit.last.start for comment in self.comments[:1])
        return is_free and all(opened.line == closed.line for opened, closed, _ in unit.blocks)

    def start(self, comment: Comment) -> int:
        """The byte of a comment."""
        return self.starts[comment.line - 1] + comment.column - 1

    def block(self, opened: Token, closed: Token, inner: Sequence[_Unit], depth: int) -> None:
        """What is in braces, of which the first one is written."""
        self.line = opened.line
        only = inner[0] if len(inner) == 1 and inner[0].blocks else None
        if only is not None and only.first.line == opened.line and len(only.blocks) == 1 and not self.is_flat(only):
            # it opens on the same line, and closes on that of this brace
            self.unit(only, depth, True)
            self.comments_until(closed.line, depth)
            self.open += " }" if self.open else "}"
            self.line = closed.line
            return
        self.behind(opened, depth)
        self.end(depth)
        self.units(inner, depth + 1)
        self.comments_until(closed.line, depth + 1)
        self.end(depth + 1)
        self.open, self.line = "}", closed.line

    def behind(self, opened: Token, depth: int) -> None:
        """A comment behind a brace that opens a block ends its line."""
        if self.comments and self.comments[0].line == opened.line:
            following = self.reading.tokens_between(opened, self.reading.tokens[-1])[1]
            if following.start > self.start(self.comments[0]) > opened.start:
                self.end(depth, self.comments.pop(0))

    def add(self, text: str, depth: int) -> None:
        """Adds words to the open line; a line that would be too long ends before them."""
        if self.open and 2 * (depth + self.more) + len(self.open) + 1 + len(text) > WIDTH:
            self.end(depth)
        self.open = f"{self.open} {text}" if self.open else text

    def words_of(self, tokens: Sequence[Token], behind: str, depth: int) -> None:
        """Adds a statement, or what is before a block, with something behind it: it breaks behind commas, where it did and
        where a line would be too long."""
        items: list[tuple[str, int]] = []   # what goes up to a comma, and the line of its first token
        is_new = True
        for token, text in zip(tokens, spaced(tokens)):
            items += [(text, token.line)] if is_new else []
            items[-1] = items[-1] if is_new else (items[-1][0] + text, items[-1][1])
            is_new = token.text == ","
        items[-1] = items[-1][0] + behind, items[-1][1]
        self.open = f"{self.open} {items[0][0]}" if self.open else items[0][0]
        for (text, begun), (_, line) in zip(items[1:], items):
            if begun > line or 2 * (depth + self.more) + len(self.open) + len(text) > WIDTH:
                self.end(depth)
                self.open, self.more = text.lstrip(), 2
            else:
                self.open += text


def _flat(unit: _Unit) -> str:
    """A unit on one line."""
    if not unit.blocks:
        return joined(unit.heads[0])
    return " ".join(f"{joined(head)} {{ {' '.join(map(_flat, inner))} }}" if inner else f"{joined(head)} {{ }}"
                    for head, (_, _, inner) in zip(unit.heads, unit.blocks))


def _aligned(rows: Sequence[Row]) -> Iterator[str]:
    """The lines; comments of lines that follow one another stay in one column where they are in one."""
    at = 0
    while at < len(rows):
        end = at + 1
        while end < len(rows) and rows[at].comment and rows[end].comment and rows[end].column == rows[at].column:
            end += 1
        texts = [f"{'  ' * row.depth}{row.text}" if row.text else "" for row in rows[at:end]]
        gap = max(_GAP, min(row.gap for row in rows[at:end])) if end > at + 1 else _GAP
        widest = max(map(len, texts)) + gap
        for text, row in zip(texts, rows[at:end]):
            yield f"{text:<{widest}}{row.comment}" if row.comment else text
        at = end
