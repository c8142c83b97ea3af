"""The tables of docs/ that have their source in python/, and the copies of files that have to be the same."""

from __future__ import annotations

import pathlib
from typing import Callable, Iterator, Mapping

from formula_score.explaining.faults import FAULTS, FILE_FAULTS, RECORD_FAULTS, Fault
from formula_score.language.index import INDEX
from formula_score.repair.rows import FACTS, ROWS

FAULTS_FROM = "python/formula_score/explaining/faults.py"
INDEX_FROM = "python/formula_score/language/index.py"
ROWS_FROM = "python/formula_score/repair/rows"


class NotWritten(Exception):
    """Why a page cannot be written."""


def cell(text: str) -> str:
    """A text as it is written in a cell."""
    return text.replace("|", "\\|")


def code(text: str) -> str:
    """A text in one line, between as many marks as it needs."""
    line = cell(" ⏎ ".join(text.replace("\r\n", "\n").replace("\r", " ␍ ").split("\n")))
    return f"`{line}`" if "`" not in line else f"`` {line} ``"


def _rows(table: Mapping[int, Fault]) -> Iterator[str]:
    yield "|---|---|---|---|"
    for fault in table.values():
        yield f"| {fault.number} | {cell(fault.means)} | {cell(fault.stands_at)} | {cell(fault.do)} |"


def faults() -> Iterator[str]:
    """The faults of texts."""
    yield "| Number | Means | Place | Do |"
    yield from _rows(FAULTS)


def file_faults() -> Iterator[str]:
    """The faults of MIDI files."""
    yield "| Number | What is wrong | Place | What to do |"
    yield from _rows(FILE_FAULTS)


def record_faults() -> Iterator[str]:
    """The faults of records."""
    yield "| Number | What is wrong | P is | What to do |"
    yield from _rows(RECORD_FAULTS)


def words() -> Iterator[str]:
    """The index of musical words."""
    yield "| Word | Write | |"
    yield "|---|---|---|"
    for word in INDEX:
        yield f"| {word.words} | {code(word.write)} | {cell(word.note)} |".replace("|  |", "| |")


def rows() -> Iterator[str]:
    """Slips, each with what is right."""
    yield "| You wrote | Write | Why |"
    yield "|---|---|---|"
    for row in ROWS:
        yield f"| {code(row.wrote)} | {'' if row.sure else 'if it is meant, '}{code(row.right)} | {cell(row.why)} |"


def facts() -> Iterator[str]:
    """Slips of which a fact is known."""
    yield "| You wrote | What is printed |"
    yield "|---|---|"
    for row in FACTS:
        found = row.look.search(row.wrote)
        yield f"| {code(row.wrote)} | {cell((row.written(found) if found else None) or '').replace(chr(10), ' ')} |"


PAGES: Mapping[str, Mapping[str, tuple[str, Callable[[], Iterator[str]]]]] = {
    "LANGUAGE.md": {"words": (INDEX_FROM, words), "faults": (FAULTS_FROM, faults)},
    "MIDI_FILE.md": {"faults": (FAULTS_FROM, file_faults)},
    "RECORDS.md": {"faults": (FAULTS_FROM, record_faults)},
    "SLIPS.md": {"rows": (ROWS_FROM, rows), "facts": (ROWS_FROM, facts)},
}

#: Files that are copies of others.
COPIES = {"python/formula_companion/studio/page/formula.tmLanguage.json": "editors/vscode/syntaxes/formula.tmLanguage.json"}


def _written(path: pathlib.Path, tables: Mapping[str, tuple[str, Callable[[], Iterator[str]]]]) -> str:
    """A page with its tables written anew, between their marks."""
    page = path.read_text(encoding="utf-8")
    for name, (source, table) in tables.items():
        head, foot = f"<!-- {name}: from {source}, by scripts/pages -->\n", f"<!-- {name} end -->\n"
        if page.count(head) != 1 or page.count(foot) != 1:
            raise NotWritten(f"{path} lacks the marks of {name}")
        before, rest = page.split(head)
        page = before + head + "\n" + "".join(line + "\n" for line in table()) + "\n" + foot + rest.split(foot)[1]
    return page


def wanted(top: pathlib.Path) -> Mapping[pathlib.Path, str]:
    """Each page with tables and each copy, as it has to be."""
    pages = {top / "docs" / name: _written(top / "docs" / name, tables) for name, tables in PAGES.items()}
    pages.update((top / copy, (top / source).read_text(encoding="utf-8")) for copy, source in COPIES.items())
    return pages
