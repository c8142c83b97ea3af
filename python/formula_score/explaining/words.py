"""The words of the command line as `formula` reads them, and what is wrong with refused ones."""

from __future__ import annotations

import re
from typing import Mapping, NamedTuple, Optional, Sequence

USAGE = ("usage: formula IN OUT [--workers N] [--lead T] [--room K] [--generate N] [--rounds] [--list] "
         "[--locate T] [--process P] [--parts] [--from A] [--to B] [--record] [--audit]")

#: The least and the greatest number of each option that has one.
RANGES = {"--workers": (0, 16), "--lead": (0, 1_000_000), "--room": (1, 64), "--generate": (0, 999_999_999),
          "--locate": (0, 1_099_511_627_776), "--process": (0, 16_383),
          "--from": (0, 1_099_511_627_776), "--to": (0, 1_099_511_627_776)}

#: The options without a number.
FLAGS = ("--rounds", "--list", "--parts", "--record", "--audit")

#: The options that ask for something else than a file of the score, the one that counts first.
TASKS = ("--audit", "--list", "--record", "--locate", "--parts", "--from", "--to")


class Words(NamedTuple):
    """What a list of words says: the files, the options and their numbers, and the first thing that is wrong."""

    files: tuple[str, ...]
    options: tuple[str, ...]
    wrong: Optional[str]
    numbers: Mapping[str, int]

    @property
    def task(self) -> Optional[str]:
        """The option of `TASKS` that counts; None where the score is played."""
        return next((task for task in TASKS if task in self.options), None)


def _number_fault(option: str, value: str) -> Optional[str]:
    low, high = RANGES[option]
    if not re.fullmatch(r"\+?[0-9]+", value):
        return f"'{value}' is no number, and {option} takes one from {low:,} to {high:,}"
    if not low <= int(value) <= high:
        return f"{option} takes a number from {low:,} to {high:,}, and {value} is none of them"
    return None


def read(words: Sequence[str]) -> Words:
    """Reads the words behind the command's name."""
    files: list[str] = []
    options: list[str] = []
    wrong: list[str] = []
    numbers: dict[str, int] = {}
    left = list(words)
    while left:
        word = left.pop(0)
        if not _is_text(word):
            wrong.append("a word is no text in UTF-8")
        elif word == "--":
            files += left
            break
        elif word == "-" or not word.startswith("-"):
            files.append(word)
        else:
            name, equals, value = word.partition("=")
            if name not in FLAGS and name not in RANGES:
                wrong.append(f"there is no option '{name}'")
                continue
            if name in options:
                wrong.append(f"{name} is given twice")
            options.append(name)
            if name in FLAGS:
                if equals:
                    wrong.append(f"{name} takes no value")
                continue
            if not equals:
                if not left or left[0].startswith("-"):
                    wrong.append(f"{name} lacks its number")
                    continue
                value = left.pop(0)
            fault = _number_fault(name, value)
            if fault:
                wrong.append(fault)
            else:
                numbers[name] = int(value)
    if not all(map(_is_text, files)):
        wrong.append("a word is no text in UTF-8")
    if len(files) < 2:
        wrong.append(f"there is one file, '{files[0]}', and IN and OUT are two" if files
                     else "IN and OUT are missing")
    elif len(files) > 2:
        wrong.append(f"'{files[2]}' is a third file, and there are IN and OUT alone")
    return Words(tuple(files), tuple(options), wrong[0] if wrong else None, numbers)


def _is_text(word: str) -> bool:
    try:
        word.encode("utf-8")
    except UnicodeEncodeError:
        return False
    return True
