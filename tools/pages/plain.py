"""Whether pages are in plain English: how long their sentences and the cells of their tables are, and words that mean too much.

The pages of HELD keep the limits, and so do the beginnings of those of HELD_TO. Those of NOT_YET do not yet: they are
measured, and not judged. A page that is rewritten goes from one list to the other. The README of a crate keeps them, and
limits of its own. README.md is for somebody who has two minutes, and keeps to a length."""

from __future__ import annotations

import pathlib
import re
from typing import Iterator, NamedTuple

from prose import Passage, passages, without_code

#: The most words of a sentence, the most in the mean, and the most characters of a cell.
MOST_WORDS, MOST_IN_THE_MEAN, MOST_OF_A_CELL = 30, 18, 250

#: The most lines and words of README.md.
MOST_OF_README = 120, 1100

#: The most lines of a crate's README, and the most characters of a line there.
MOST_LINES, MOST_OF_A_LINE = 60, 160

HELD = ("README.md", "docs/INSTALL.md", "CHANGELOG.md", "CONTRIBUTING.md", "docs/PROOF.md", "docs/POSITIONS.md", "docs/MIDI_FILE.md",
        "docs/SCHEDULER.md", "docs/RECORDS.md", "docs/ARCHITECTURE.md", "docs/GUARANTEES.md", "docs/CLAIMS.md",
        "docs/TUTORIAL.md", "docs/BATCH.md", "docs/STUDIO.md", "docs/SLIPS.md", "docs/GLOSSARY.md", "docs/LANGUAGE.md", "python/README.md", "python/COOKBOOK.md", "editors/README.md",
        "docs/NOTATION.md", "examples/README.md", "examples/releases/README.md")
NOT_YET: tuple[str, ...] = ()

#: Pages of which the beginning keeps the limits, each with the heading at which it ends. An entry of DECISIONS is never changed.
HELD_TO = {"docs/DECISIONS.md": "## 1. "}

#: Words that mean too many things, each with words that say one.
VAGUE = {
    r"st(?:and(?:s|ing)?|ood)": "is, are, lies, begins",
    r"(?:come(?:s)?|came|coming) out": "results, returns, is written",
    r"(?:tell(?:s|ing)?|told)": "prints, says, returns, reports",
    r"(?:go(?:es|ing)?|went|gone) over": "visits, reads, iterates",
    r"want of memory": "out of memory",
    r"takes? (?:its|their) time anew": "runs again, rebuilds",
    r"comes? to (?:its|their) end": "terminates, ends",
}


class Fault(NamedTuple):
    """What is wrong on a line of a page."""

    line: int
    problem: str


class Measure(NamedTuple):
    """What a page measures: sentences, their words in the mean and at most, long ones, long cells, vague words."""

    sentences: int
    mean: float
    most: int
    long: int
    long_cells: int
    vague: int


def _vague_in(passage: Passage) -> Iterator[Fault]:
    for pattern, better in VAGUE.items():
        for found in re.finditer(rf"\b{pattern}\b", without_code(passage.text), re.I):
            yield Fault(passage.line, f"`{found.group()}` means too much: write {better}")


def faults_of(page: str) -> list[Fault]:
    """What is wrong with a page, line by line; the mean is on line 1."""
    found: list[Fault] = []
    lengths: list[int] = []
    for passage in passages(page):
        if passage.is_cell and len(passage.text) > MOST_OF_A_CELL:
            found.append(Fault(passage.line, f"a cell of {len(passage.text)} characters: {passage.text[:50]}.."))
        if not passage.is_cell:
            lengths.append(passage.words)
            if passage.words > MOST_WORDS:
                found.append(Fault(passage.line, f"a sentence of {passage.words} words: {passage.text[:50]}.."))
        found += _vague_in(passage)
    if lengths and sum(lengths) > MOST_IN_THE_MEAN * len(lengths):
        found.insert(0, Fault(1, f"the sentences have {sum(lengths) / len(lengths):.1f} words in the mean"))
    return found


def measure(page: str) -> Measure:
    """What a page measures."""
    whole = list(passages(page))
    lengths = [sentence.words for sentence in whole if not sentence.is_cell] or [0]
    cells = [len(cell.text) for cell in whole if cell.is_cell]
    return Measure(len(lengths), sum(lengths) / len(lengths), max(lengths), sum(length > MOST_WORDS for length in lengths),
                   sum(cell > MOST_OF_A_CELL for cell in cells), sum(1 for passage in whole for _ in _vague_in(passage)))


def faults_of_readme(page: str) -> list[Fault]:
    """What is wrong with a crate's README: too many lines, long ones, and what is wrong with any page."""
    lines = page.removesuffix("\n").split("\n")
    found = [Fault(number, f"a line of {len(line)} characters: {line[:50]}..") for number, line in enumerate(lines, 1)
             if len(line) > MOST_OF_A_LINE]
    if len(lines) > MOST_LINES:
        found.insert(0, Fault(1, f"{len(lines)} lines"))
    return found + faults_of(page)


def faults_of_length(page: str) -> list[Fault]:
    """What is too long of README.md as a whole."""
    found = zip((len(page.removesuffix("\n").split("\n")), len(page.split())), MOST_OF_README, ("lines", "words"))
    return [Fault(1, f"{count} {unit} where {most} are the most") for count, most, unit in found if count > most]


def _judged_text(top: pathlib.Path, name: str) -> str:
    """A page, or the beginning of it that is held."""
    page = (top / name).read_text(encoding="utf-8")
    return page.split("\n" + HELD_TO[name])[0] if name in HELD_TO else page


def judged(top: pathlib.Path) -> list[str]:
    """What is wrong with the pages that are held, and pages that are in no list."""
    problems = [f"{name}:{fault.line}: {fault.problem}" for name in (*HELD, *HELD_TO)
                for fault in faults_of(_judged_text(top, name))]
    problems += [f"README.md:{fault.line}: {fault.problem}" for fault in faults_of_length(_judged_text(top, "README.md"))]
    problems += [f"{path.relative_to(top)}:{fault.line}: {fault.problem}" for path in sorted(top.glob("crates/*/README.md"))
                 for fault in faults_of_readme(path.read_text(encoding="utf-8"))]
    present = {path.relative_to(top).as_posix() for folder in (".", "docs", "python", "editors", "examples", "examples/releases")
             for path in (top / folder).glob("*.md")}
    listed = {*HELD, *HELD_TO, *NOT_YET}
    problems += [f"{name}: tools/pages/plain.py names it in no list" for name in sorted(present - listed)]
    problems += [f"{name}: tools/pages/plain.py names it, and it is not there" for name in sorted(listed - present)]
    return problems


def table(top: pathlib.Path) -> Iterator[str]:
    """A line for each page with what it measures."""
    yield f"{'page':<24}{'sentences':>10}{'mean':>7}{'most':>6}{'> ' + str(MOST_WORDS):>6}{'cells':>7}{'words':>7}"
    for name in (*HELD, *HELD_TO, *NOT_YET):
        found = measure(_judged_text(top, name))
        yield (f"{name:<24}{found.sentences:>10}{found.mean:>7.1f}{found.most:>6}{found.long:>6}{found.long_cells:>7}"
               f"{found.vague:>7}" + ("  not yet" if name in NOT_YET else "  its beginning" if name in HELD_TO else ""))
