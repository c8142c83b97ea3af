"""Compares the places in which an option of the command is named: its name, whether it has a number, and the number's range.

The first place is the code that reads the words, crates/fm_words. The others are the library's table of words, the man
page and the completion for bash."""

from __future__ import annotations

import importlib
import pathlib
import re
from typing import Callable, Iterator, Mapping, NamedTuple, Optional

Range = tuple[int, int]

CODE, WORDS, MANUAL = "crates/fm_words/src", "python/formula_score/explaining/words.py", "docs/formula.1"
COMPLETION = "editors/bash/formula"


class Option(NamedTuple):
    """An option at one place: whether it has a number, and the range, where the place has one."""

    has_number: bool
    range: Optional[Range] = None


Options = Mapping[str, Option]


def number_of(text: str) -> int:
    """A number as people or Rust write it."""
    return int(re.sub(r"[,_]", "", text))


def range_in(text: str) -> Optional[Range]:
    """The first range that a text names, as 0 to 16."""
    found = re.search(r"\b([0-9][0-9,]*) to ([0-9][0-9,]*[0-9]|[0-9])", text)
    return (number_of(found[1]), number_of(found[2])) if found else None


def of_code(top: pathlib.Path) -> Options:
    """What the code reads."""
    folder = top / CODE
    limits = {name: number_of(value) for name, value in
              re.findall(r"const (\w+): \w+ = ([0-9_]+);", (folder / "limits.rt").read_text(encoding="utf-8"))}

    def limit(word: str) -> int:
        name = re.sub(r"u64::from\((\w+)\)", r"\1", word)
        return limits[name] if name in limits else number_of(name)

    ranges: dict[str, Range] = {}
    chosen = (folder / "chosen.rt").read_text(encoding="utf-8")
    for name, low, high in re.findall(r'number_of\(matches, "(\w+)", (\w+), (\w+), \w+\)', chosen):
        ranges[name] = limit(low), limit(high)
    for name, high in re.findall(r'number_if_given\(matches, "(\w+)", ([\w:()]+?)\)\?', chosen):
        ranges[name] = 0, limit(high)
    named = re.findall(r'\((option|flag)\(alloc, "(\w+)"\)\)', (folder / "command.rt").read_text(encoding="utf-8"))
    return {f"--{name}": Option(kind == "option", ranges.get(name)) for kind, name in named}


def of_words(top: pathlib.Path) -> Options:
    """What the library knows."""
    words = importlib.import_module("formula_score.explaining.words")
    return {**{name: Option(True, limits) for name, limits in words.RANGES.items()},
            **{name: Option(False) for name in words.FLAGS}}


def of_usage(top: pathlib.Path) -> Options:
    """What the library says as the usage of the command."""
    usage: str = importlib.import_module("formula_score.explaining.words").USAGE
    return {name: Option(bool(value)) for name, value in re.findall(r"\[(--\w+)( \w)?\]", usage)}


def of_manual(top: pathlib.Path) -> Options:
    """The list of options of the man page."""
    text = (top / MANUAL).read_text(encoding="utf-8").replace("\\-", "-")
    section = re.search(r"^\.SH OPTIONS\n(.*?)^\.SH ", text, re.M | re.S)
    found: dict[str, Option] = {}
    for entry in re.split(r"^\.TP\n", section[1] if section else "", flags=re.M)[1:]:
        head = re.match(r"(?:\.TQ\n|\.BI? .*\n)+", entry)
        for name, value in re.findall(r'^\.BI? (--\w+)( " \w")?$', head[0] if head else "", re.M):
            found[name] = Option(bool(value), range_in(entry) if value else None)
    return found


def of_synopsis(top: pathlib.Path) -> Options:
    """The synopsis of the man page."""
    text = (top / MANUAL).read_text(encoding="utf-8").replace("\\-", "-")
    section = re.search(r"^\.SH SYNOPSIS\n(.*?)^\.SH ", text, re.M | re.S)
    named = re.findall(r"^\.RB \[ (--\w+)( \])?$", section[1] if section else "", re.M)
    return {name: Option(not closed) for name, closed in named}


def of_completion(top: pathlib.Path) -> Options:
    """What bash completes, and behind which of these it completes numbers."""
    text = (top / COMPLETION).read_text(encoding="utf-8")
    listed = re.search(r'compgen -W "(--[^"]*)"', text)
    skipped = re.search(r"^ *(--[\w| -]*)\)\n *\(\(at\+\+\)\)", text, re.M)
    values = {name for row in re.findall(r"^ *(--[\w| -]*)\) values=", text, re.M) for name in re.findall(r"--\w+", row)}
    numbered = set(re.findall(r"--\w+", skipped[1])) if skipped else set()
    return {name: Option(name in numbered and name in values) for name in (listed[1].split() if listed else ())}


PLACES: Mapping[str, Callable[[pathlib.Path], Options]] = {
    CODE: of_code, WORDS: of_words, f"{WORDS}, its usage": of_usage, MANUAL: of_manual, f"{MANUAL}, its synopsis": of_synopsis,
    COMPLETION: of_completion}


def differences(top: pathlib.Path) -> Iterator[str]:
    """What is another thing at another place than in the code."""
    wanted = of_code(top)
    if not wanted:
        yield f"{CODE}: no option is found"
    for place, read in PLACES.items():
        found = read(top)
        for name in sorted({*wanted, *found}):
            if name not in wanted or name not in found:
                yield f"{place}: {name} is {'missing' if name in wanted else 'not an option of the command'}"
            elif found[name].has_number != wanted[name].has_number:
                yield f"{place}: {name} has {'a' if found[name].has_number else 'no'} number"
            elif found[name].range not in (None, wanted[name].range):
                yield f"{place}: {name} has the range {found[name].range} in place of {wanted[name].range}"
