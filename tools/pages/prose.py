"""The sentences and the cells of a page of Markdown, as a reader meets them.

Code between fences and comments of HTML are left out. A name in marks of code counts as one word, whatever is in it."""

from __future__ import annotations

import re
from typing import Iterator, NamedTuple

#: What ends a sentence: a mark, perhaps a closing bracket or mark of emphasis, and a new beginning behind it.
_END = re.compile(r"(?<=[.?!])(?<!\be\.g\.)(?<!\bi\.e\.)[)\]\"'*_]*(\s+)(?=[A-Z0-9`\"'(\[*_-])")
_CODE = re.compile(r"(`+)(?!`)(.+?)(?<!`)\1(?!`)")
_LINK = re.compile(r"!?\[([^\]]*)\]\([^)]*\)")
_ITEM = re.compile(r"\s*([-*+]|[0-9]+[.)])\s+")


class Passage(NamedTuple):
    """A sentence or a cell: the line on which it begins, its text, and whether it is a cell of a table."""

    line: int
    text: str
    is_cell: bool

    @property
    def words(self) -> int:
        """How many words it has."""
        return len(words_of(self.text))


def words_of(text: str) -> list[str]:
    """The words of a text without its marks: each has a letter or a digit, or is a name of code."""
    plain = _CODE.sub(" CODE ", _LINK.sub(r"\1", text))
    return [word for word in plain.split() if re.search(r"\w", word)]


def without_code(text: str) -> str:
    """A text without the names in it that are code, and without the targets of its links."""
    return _CODE.sub("``", _LINK.sub(r"\1", text))


def cells_of(row: str) -> list[str]:
    """The cells of a row of a table."""
    hidden = row.strip().replace("\\|", "\0").strip("|")
    return [cell.strip().replace("\0", "|") for cell in hidden.split("|")]


def sentences_of(line: int, text: str) -> Iterator[Passage]:
    """The sentences of a paragraph."""
    # a mark inside a name ends nothing
    names = [found.group() for found in _CODE.finditer(text)]
    hidden = _CODE.sub("`\0`", text)
    ends = [0, *(found.start(1) for found in _END.finditer(hidden)), len(hidden)]
    for part in (hidden[begin:end] for begin, end in zip(ends, ends[1:])):
        whole = part
        for _ in range(part.count("`\0`")):
            whole = whole.replace("`\0`", names.pop(0), 1)
        if words_of(whole):
            yield Passage(line, whole.strip(), False)


def passages(page: str) -> Iterator[Passage]:
    """Each sentence and each cell of a page, in their order."""
    page = re.sub(r"<!--.*?-->", lambda found: "\n" * found.group().count("\n"), page, flags=re.S)
    paragraph: list[str] = []
    begun, fence = 0, ""

    def ended() -> Iterator[Passage]:
        if paragraph:
            yield from sentences_of(begun, " ".join(paragraph))
            paragraph.clear()

    for number, line in enumerate(page.split("\n"), 1):
        mark = re.match(r"\s*(```+|~~~+)", line)
        if fence:
            fence = "" if mark and mark[1] == fence else fence
            continue
        if mark:
            yield from ended()
            fence = mark[1]
        elif not line.strip() or line.startswith("#"):
            yield from ended()
        elif line.lstrip().startswith("|"):
            yield from ended()
            yield from (Passage(number, cell, True) for cell in cells_of(line) if words_of(cell))
        else:
            item = _ITEM.match(line)
            if item:
                yield from ended()
            if not paragraph:
                begun = number
            paragraph.append(line[item.end():] if item else line.strip())
    yield from ended()
