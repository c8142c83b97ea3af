"""The answers of the language server: what the functions of `editing` say, as LSP writes it."""

from __future__ import annotations

from typing import Any, Iterator, Optional, Sequence

from formula_score.checks.finding import ERROR, REMARK, WARNING
from formula_score.checks.margin import Problem
from formula_score.language.tokens import kind_of
from formula_score.reading.reader import read
from formula_score.rewriting.layout import formatted
from ..editing.completion import completed
from ..editing.names import definition, renamed, same_name, use_at
from ..editing.outline import Part, outline
from ..editing.places import Places, Position, Range
from ..editing.reference import row_at
from ..editing.short_notes import written

#: The numbers of LSP for kinds of symbols and of completions, and for how bad a diagnostic is.
_SYMBOLS = {"phrase": 12, "shape": 13, "branch": 3}
_KEYWORD, _VALUE, _REFERENCE = 14, 12, 18
_SEVERITIES = {ERROR: 1, WARNING: 2, REMARK: 4}
_REWRITE = "refactor.rewrite"

Value = dict[str, Any]


def _range(found: Range) -> Value:
    return {"start": found.start._asdict(), "end": found.end._asdict()}


class Text:
    """A text that is open in an editor."""

    def __init__(self, uri: str, version: Optional[int], words: str):
        self.uri, self.version = uri, version
        self.data = words.encode("utf-8", "replace")
        self.places = Places(self.data)

    def byte(self, position: Value) -> int:
        """The byte at a position of LSP."""
        return self.places.byte(Position(position["line"], position["character"]))

    def range(self, start: int, end: int) -> Value:
        """A range of LSP, of bytes."""
        return _range(self.places.range(start, end))

    def diagnostics(self, problems: Sequence[Problem]) -> Value:
        """What is published of a text."""
        return {"uri": self.uri, "version": self.version, "diagnostics": [self._diagnostic(each) for each in problems]}

    def _diagnostic(self, problem: Problem) -> Value:
        return {"range": self.range(problem.start, problem.end), "severity": _SEVERITIES[problem.severity],
                "code": problem.rule, "source": "formula-score", "message": f"{problem.what}\n{problem.cure}".strip()}

    def actions(self, line: int, problems: Sequence[Problem]) -> list[Value]:
        """The changes of what is found on a line, and what writes its short notes."""
        found = [self._action(problem, number) for problem in problems
                 if self._first_line(problem) <= line <= self.places.position(problem.end).line
                 for number in range(len(problem.changes))]
        return found + self.notes(line)

    def _first_line(self, problem: Problem) -> int:
        return self.places.position(problem.start).line

    def _action(self, problem: Problem, number: int) -> Value:
        change = problem.changes[number]
        return {"title": change.title, "kind": "quickfix", "isPreferred": len(problem.changes) == 1,
                "diagnostics": [self._diagnostic(problem)],
                "edit": {"changes": {self.uri: [{"range": self.range(edit.start, edit.end), "newText": edit.new}
                                                for edit in change.edits]}}}

    def notes(self, line: int) -> list[Value]:
        """What writes the notes of a comment `# notes: ..` on a line, or why it does not."""
        found = written(self.data, self.places.starts[line]) if line < len(self.places.starts) else None
        if found is None:
            return []
        action: Value = {"title": "write the notes of this comment", "kind": _REWRITE}
        if found.wrong:
            return [{**action, "disabled": {"reason": found.wrong}}]
        return [{**action, "edit": {"changes": {self.uri: [{"range": self.range(found.end, found.end),
                                                            "newText": found.new}]}}}]

    def formatting(self) -> list[Value]:
        """The change that sets the text in one layout; none where it is set, or cannot be read."""
        try:
            new = formatted(read(self.data))
        except ValueError:
            return []
        if new == self.data:
            return []
        return [{"range": self.range(0, len(self.data)), "newText": new.decode("utf-8", "replace")}]

    def hover(self, position: Value) -> Optional[Value]:
        """The row of the reference for a word."""
        row = row_at(self.data, self.byte(position))
        if row is None:
            return None
        form = f"```\n{row.form}\n```\n" if row.form else ""
        return {"contents": {"kind": "markdown", "value": form + row.says}, "range": self.range(row.start, row.end)}

    def completion(self, position: Value) -> Value:
        """What may be written at a place."""
        found = completed(self.data, self.byte(position))
        place = self.range(found.start, found.end)
        return {"isIncomplete": False, "items": [
            {"label": item.label, "detail": item.detail, "kind": _kind(item.text), "sortText": f"{number:04}",
             "filterText": item.label, "textEdit": {"range": place, "newText": item.text}}
            for number, item in enumerate(found.items)]}

    def definition(self, position: Value) -> Optional[Value]:
        """Where the name at a place is defined."""
        use = use_at(self.data, self.byte(position))
        defined = definition(self.data, use) if use else None
        return {"uri": self.uri, "range": self.range(defined.start, defined.end)} if defined else None

    def references(self, position: Value, with_definition: bool) -> list[Value]:
        """All places of the name at a place."""
        use = use_at(self.data, self.byte(position))
        return [{"uri": self.uri, "range": self.range(place.start, place.end)}
                for place in (same_name(self.data, use) if use else ()) if with_definition or not place.defines]

    def symbols(self) -> list[Value]:
        """The outline."""
        return list(self._symbols(outline(self.data)))

    def _symbols(self, parts: list[Part]) -> Iterator[Value]:
        for part in parts:
            yield {"name": part.name, "kind": _SYMBOLS[part.kind], "detail": part.kind,
                   "range": self.range(part.start, part.end),
                   "selectionRange": self.range(part.name_start, part.name_end),
                   "children": list(self._symbols(part.inner))}

    def may_rename(self, position: Value) -> Optional[Value]:
        """The name at a place, where it can be renamed."""
        use = use_at(self.data, self.byte(position))
        return self.range(use.start, use.end) if use else None

    def rename(self, position: Value, name: str) -> Value:
        """The changes that a new name needs; a `ValueError` where it may not stand there."""
        found = renamed(self.data, self.byte(position), name)
        if isinstance(found, str):
            raise ValueError(found)
        return {"changes": {self.uri: [{"range": self.range(use.start, use.end), "newText": name} for use in found]}}


def _kind(text: str) -> int:
    kind = kind_of(text)
    return _KEYWORD if kind == text else _REFERENCE if kind == "NAME" and text.isidentifier() else _VALUE
