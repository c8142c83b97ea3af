"""Statements and blocks as the lines of a text: short ones side by side, a bar or some bars a line.

A line that begins with a bar says behind a `#` which bars it has. Where a bar takes several lines, the first says so;
above a block of several lines that holds whole bars, the comment has a line of its own.
"""

from __future__ import annotations

from dataclasses import dataclass, field
from typing import NamedTuple, Optional, Union

WIDTH = 100
_SHORT_BLOCK = 64
_COMMENT = len("  # bars 100 to 199")
_NO_TIME = ("control ", "program ", "bend ")


class Plain(NamedTuple):
    """A statement without a block."""

    text: str


class Mark(NamedTuple):
    """Where a bar begins; no statement begins with the ones behind it, up to `last`. In a phrase or a loop bars have no
    number, and a line ends."""

    number: int
    last: int


@dataclass(frozen=True)
class Braces:
    """A block: what stands before its brace, and what it holds."""

    head: str
    inner: tuple["Node", ...]


Node = Union[Plain, Mark, Braces]


def flat(nodes: tuple[Node, ...]) -> str:
    """The nodes on one line."""
    return " ".join(node.text if isinstance(node, Plain) else f"{node.head} {{ {flat(node.inner)} }}"
                    for node in nodes if not isinstance(node, Mark))


def repeated(times: int, nodes: tuple[Node, ...]) -> Braces:
    """A loop round the nodes; a loop round a loop alone is one, where that does not count its rounds."""
    if len(nodes) == 1 and isinstance(nodes[0], Braces) and nodes[0].head.startswith("repeat ") and (
            "n0" not in flat(nodes[0].inner)):
        return Braces(f"repeat {times * int(nodes[0].head.split()[1])}", nodes[0].inner)
    return Braces(f"repeat {times}", nodes)


def _has_bar(nodes: tuple[Node, ...], is_numbered: bool = False) -> bool:
    """Whether a bar begins among the nodes, or one with a number."""
    return any(isinstance(node, Mark) and (node.number > 0 or not is_numbered)
               or isinstance(node, Braces) and _has_bar(node.inner, is_numbered) for node in nodes)


def _bars(first: int, last: int) -> str:
    return f"# bar {first}" if first == last else f"# bars {first} to {last}"


@dataclass
class Page:
    """Lines that are written one after another."""

    with_bars: bool
    lines: list[str] = field(default_factory=list)
    _open: list[str] = field(default_factory=list)
    _whole: int = 0                # how many statements of the open line stand before the last bar line
    _begun: Optional[Mark] = None  # the bar line at which the open line began
    _last: Optional[Mark] = None   # the last bar line

    def write(self, nodes: tuple[Node, ...], depth: int) -> None:
        """Writes the nodes, indented so deep."""
        for at, node in enumerate(nodes):
            if isinstance(node, Mark):
                self._mark(node, depth)
            elif isinstance(node, Plain):
                self._add(node.text, depth)
            elif not _has_bar(node.inner) and len(flat((node,))) <= _SHORT_BLOCK:
                self._add(flat((node,)), depth)
            else:
                self._block(node, nodes[at + 1] if at + 1 < len(nodes) else None, depth)

    def _mark(self, mark: Mark, depth: int) -> None:
        if not mark.number:
            self.flush(depth)
            return
        if self.with_bars and self._open and self._begun is None:
            self._whole = len(self._open)
            self.flush(depth)
        if not self._open:
            self._begun = mark
        self._whole, self._last = len(self._open), mark

    def _block(self, block: Braces, behind: Optional[Node], depth: int) -> None:
        self.flush(depth)
        if not _has_bar(block.inner, True):
            if self.with_bars and self._begun and isinstance(behind, Mark) and behind.number:
                self.lines.append("  " * depth + _bars(self._begun.number, behind.number - 1))
            self._begun = None
        heads, inner = [block.head], block.inner
        while len(inner) == 1 and isinstance(inner[0], Braces) and len(flat(inner)) > _SHORT_BLOCK:
            heads.append(inner[0].head)
            inner = inner[0].inner
        self.lines += wrapped([*" { ".join(heads).split(" "), "{"], depth)
        self.write(inner, depth + 1)
        self.flush(depth + 1)
        self.lines.append("  " * depth + " ".join("}" * len(heads)))

    def _add(self, text: str, depth: int) -> None:
        room = WIDTH - 2 * depth - (_COMMENT if self.with_bars else 0)
        if self._open and sum(map(len, self._open)) + len(self._open) + len(text) > room:
            behind = self._open[self._whole:] if self._whole else []
            del self._open[len(self._open) - len(behind):]
            self.flush(depth)
            self._open = behind
            if behind:
                self._begun = self._last
        self._open.append(text)

    def flush(self, depth: int) -> None:
        """Ends the open line."""
        if not self._open:
            return
        line, is_whole = "  " * depth + " ".join(self._open), self._whole == len(self._open)
        if self.with_bars and self._begun and self._last:
            takes_time = any(not text.startswith(_NO_TIME) for text in self._open[self._whole:])
            last = self._last.number - (not takes_time)
            if self._begun.number <= last and (not takes_time or self._last.number == self._last.last):
                line += "  " + _bars(self._begun.number, last)
        self.lines.append(line)
        self._begun = self._last if is_whole else None
        self._open, self._whole = [], 0


def wrapped(words: list[str], depth: int = 0) -> list[str]:
    """Words on as many lines as they need, the further ones indented more."""
    lines, indent = [""], "  " * depth
    for word in words:
        if lines[-1] and len(indent) + len(lines[-1]) + len(word) > WIDTH - 3:
            lines[-1], indent = indent + lines[-1], "  " * (depth + 2)
            lines.append("")
        lines[-1] = f"{lines[-1]} {word}" if lines[-1] else word
    lines[-1] = indent + lines[-1]
    return lines
