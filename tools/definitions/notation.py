"""Reads the notation of definitions: files of words, names that a file brings in, and the items of each file.

A file is a head of `use` lines and then items. An item begins at the column of its block and goes on with lines that
stand further right, or with clauses that begin with the item's own name. What this reader does not know ends it with
file and line: nothing is skipped."""
from __future__ import annotations

import re
from collections.abc import Iterator
from dataclasses import dataclass, field

# What a name is made of is all but blanks and these.
NAME = r"[^\s(){}.;,@\"«»]+"
WORDS = re.compile(
    r"(?P<blank>\s+)|(?P<comment>--[^\n]*|\{-.*?-\})|(?P<text>\"(?:\\.|[^\"\\])*\")"
    rf"|(?P<behind>(?<=[)\]}}])(?:\.{NAME})+)|(?P<name>(?:«{NAME}»|{NAME})(?:\.(?:«{NAME}»|{NAME}))*)"
    r"|(?P<mark>[(){};,@.])",
    re.DOTALL,
)
CLOSERS = frozenset(") ] }".split())
MARKS = frozenset("→ λ × ↦ = | : [ ] ( ) { } ; , . ◌".split())
IN_FRONT = frozenset("pub abbrev unfoldable pattern axiom".split())
NUMERAL = re.compile(r"[0-9][0-9_]*|0[xob][0-9a-fA-F_]+")


class NotRead(Exception):
    """The notation at a place is not known to this reader."""


@dataclass(frozen=True)
class Word:
    text: str
    line: int
    column: int
    kind: str = "name"

    @property
    def parts(self) -> list[str]:
        """The names of a path, `«»` taken off."""
        return [part.strip("«»") for part in self.text.split(".")]


@dataclass(frozen=True)
class Import:
    """A name of this file, or a short name of a module, for what stands elsewhere."""

    module: str
    name: str | None
    passed_on: bool
    line: int


@dataclass
class Item:
    """A definition: its kind, where it stands with its comment, and its words."""

    kind: str
    name: str
    first: int
    start: int
    last: int
    words: list[Word]
    clauses: list[list[Word]] = field(default_factory=list)
    constructors: dict[str, int] = field(default_factory=dict)
    # sections and mutual blocks round it, from the outside
    blocks: tuple[Block, ...] = ()
    public: bool = False


@dataclass
class Block:
    """A section with parameters, or a block of items that name each other."""

    kind: str
    head: list[Word]
    first: int
    start: int
    column: int


@dataclass
class File:
    path: str
    module: str
    lines: list[str]
    imports: dict[str, Import]
    items: list[Item]
    head: str


def words_of(text: str, path: str = "") -> list[Word]:
    """Returns the words of a text with their places; comments are no words."""
    found, at, line, begin = [], 0, 1, 0
    while at < len(text):
        match = WORDS.match(text, at)
        if match is None:
            raise NotRead(f"{path}:{line}: no word begins here: {text[at:at + 20]!r}")
        kind, word = str(match.lastgroup), match.group()
        if kind in ("text", "behind", "name", "mark"):
            # a dot that is followed by a blank ends the binders of a λ
            found.append(Word(word, line, at - begin, "mark" if word in MARKS else kind))
        ends = word.count("\n")
        if ends:
            line += ends
            begin = at + word.rfind("\n") + 1
        at = match.end()
    return found


def is_operator(name: str) -> bool:
    return "◌" in name


def parts_of(name: str) -> list[str]:
    """The words between the places of an operator."""
    return [part for part in name.split("◌") if part]


def comment_above(lines: list[str], start: int) -> int:
    """Returns the number of the first line of the comment that stands right above a line, or that line's own."""
    first = start
    while first > 1 and re.match(r" *--(?! ----)", lines[first - 2]):
        first -= 1
    return first


def groups_of(words: list[Word]) -> Iterator[list[Word]]:
    """Cuts the words of a block into the lines that begin at its column, each with what stands further right."""
    if not words:
        return
    column, group = words[0].column, [words[0]]
    line = words[0].line
    for word in words[1:]:
        if word.line != line and word.column <= column and word.text not in CLOSERS:
            yield group
            group = []
        group.append(word)
        line = word.line
    yield group


def leading_marks(group: list[Word]) -> list[str]:
    """The words in front of a definition's head."""
    found = []
    for word in group:
        if word.text not in IN_FRONT:
            break
        found.append(word.text)
    return found


class Reader:
    """Reads one file."""

    def __init__(self, path: str, module: str, text: str):
        self.path, self.module, self.lines = path, module, text.split("\n")
        self.imports: dict[str, Import] = {}
        self.items: list[Item] = []
        self.read_block(words_of(text, path), ())
        first = self.lines[0] if self.lines and self.lines[0].startswith("--") else ""
        self.file = File(path, module, self.lines, self.imports, self.items, first.removeprefix("--").strip())

    def refuse(self, word: Word, why: str) -> NotRead:
        return NotRead(f"{self.path}:{word.line}: {why}: {word.text}")

    def read_block(self, words: list[Word], blocks: tuple[Block, ...]) -> None:
        current: Item | None = None
        for group in groups_of(words):
            marks = leading_marks(group)
            at = len(marks)
            head = group[at].text
            if head == "use":
                self.read_use(group[at + 1:], "pub" in marks)
            elif head == "mod":
                continue
            elif head in ("module", "mutual"):
                inner = self.inside(group, at)
                block = Block(head, group[:len(group) - len(inner)],
                              comment_above(self.lines, group[0].line), group[0].line, group[0].column)
                self.read_block(inner, (*blocks, block))
            elif head in ("record", "data"):
                current = self.item(head, group[at + 1], group, blocks, marks)
                if head == "data":
                    current.constructors = self.constructors(group)
            elif head in ("infix", "infixl", "infixr", "unfolding", "ruleset"):
                if current is not None and head == "unfolding":
                    current.words += group
                    current.last = group[-1].line
                elif head != "unfolding":
                    # the fixity of an operator: the operator has an item of its own
                    self.item(head, group[0], group, blocks, marks)
            elif self.is_signature(group, at):
                current = self.item("definition", group[at], group, blocks, marks)
            elif current is not None and self.names(group, current.name):
                current.clauses.append(group)
                current.words += group
                current.last = group[-1].line
            else:
                raise self.refuse(group[0], "no item begins so")

    def item(self, kind: str, name: Word, group: list[Word], blocks: tuple[Block, ...], marks: list[str]) -> Item:
        item = Item(kind, name.parts[-1], comment_above(self.lines, group[0].line), group[0].line, group[-1].line,
                    list(group), blocks=blocks, public="pub" in marks)
        self.items.append(item)
        return item

    def inside(self, group: list[Word], at: int) -> list[Word]:
        """The words of a block's body: those on the lines behind its head."""
        if group[at].text == "mutual":
            return group[at + 1:]
        where = next((index for index, word in enumerate(group) if word.text == "where"), None)
        if where is None:
            raise self.refuse(group[0], "a section without `where`")
        return group[where + 1:]

    def constructors(self, group: list[Word]) -> dict[str, int]:
        """The names that a `data` declares, with their lines."""
        where = next((index for index, word in enumerate(group) if word.text == "where"), None)
        if where is None:
            return {}
        found = {}
        for line in groups_of(group[where + 1:]):
            if line[0].text == "deriving":
                continue
            for word in line:
                if word.text == ":":
                    break
                found[word.parts[-1]] = word.line
        return found

    def is_signature(self, group: list[Word], at: int) -> bool:
        """A name, level variables in braces if any, and a colon."""
        if at >= len(group) or group[at].kind == "mark":
            return False
        behind = at + 1
        if behind < len(group) and group[behind].text == "{":
            close = next((index for index in range(behind, len(group)) if group[index].text == "}"), behind)
            if ":" not in [word.text for word in group[behind:close]]:
                behind = close + 1
        return behind < len(group) and group[behind].text == ":"

    def names(self, group: list[Word], name: str) -> bool:
        """Whether a clause is one of this definition."""
        if is_operator(name):
            equals = next((index for index, word in enumerate(group) if word.text == "="), len(group))
            return any(word.text in parts_of(name) or word.text == name for word in group[:equals])
        return group[0].parts[-1] == name

    def read_use(self, words: list[Word], passed_on: bool) -> None:
        path = words[0]
        if len(words) > 1 and words[1].text == "." and words[2].text == "{":
            names, module = words[3:], ".".join(path.parts)
            index = 0
            while names[index].text != "}":
                name = names[index]
                short = name.parts[-1]
                inner = ".".join([module, *name.parts[:-1]])
                if names[index + 1].text == "as":
                    short = names[index + 2].parts[-1]
                    index += 2
                self.imports[short] = Import(inner, name.parts[-1], passed_on, name.line)
                index += 1
                if names[index].text == ",":
                    index += 1
        elif len(words) >= 3 and words[1].text == "as":
            self.imports[f"{words[2].parts[-1]}."] = Import(".".join(path.parts), None, passed_on, path.line)
        elif len(words) == 1:
            self.imports[f"{path.parts[-1]}."] = Import(".".join(path.parts), None, passed_on, path.line)
        else:
            raise self.refuse(path, "a `use` line of another form")


def is_row(item: Item) -> bool:
    """Whether it is a lemma that is closed by computing."""
    return bool(item.clauses) and [word.text for word in item.clauses[-1]][-2:] == ["=", "refl"]


def signature_of(item: Item) -> tuple[int, int, int]:
    """Where the colon of a definition stands, where its type ends, and where its first clause begins."""
    words = item.words
    behind = next(index for index, word in enumerate(words) if word.text == ":")
    ends = len(words) - sum(map(len, item.clauses))
    unfolded = (index for index in range(behind, ends)
                if words[index].text == "unfolding" and words[index].line != words[index - 1].line)
    return behind, next(unfolded, ends), ends


def equals_of(clause: list[Word]) -> Word:
    return next(word for word in clause if word.text == "=")


def parameters_of(block: Block) -> list[Word]:
    """The words of a section's parameters, without `module _` and `where`."""
    return [word for word in block.head if word.text not in ("module", "_", "where", "abbrev", "mutual", "pub", "unfoldable")]
