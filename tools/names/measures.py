#!/usr/bin/env python3
"""Counts what passes the limits that CONTRIBUTING.md states: lines of files, lines of bodies, clauses, parameters and so on.

    tools/names/measures.py [--list]

It prints for each limit how many pass it, and the greatest; --list prints each of them with its place. The exit status is 1
if the table of CONTRIBUTING.md has other limits, or fewer exceptions than there are."""

from __future__ import annotations

import argparse
import os
import re
import sys
from collections import defaultdict
from typing import Iterable, Iterator, NamedTuple

sys.dont_write_bytecode = True
sys.path.insert(0, os.path.dirname(os.path.abspath(__file__)))
from names import TOP, TYPES, crates_of, meanings_of  # noqa: E402

ANSWERS = "Answers.antt"
HEAD = re.compile(r"( *)(?:pub(?:\([a-z]+\))? )?(?:const )?(?:unsafe )?fn ([a-z_0-9]+)")


class Found(NamedTuple):
    """A thing that is measured: its place, its name, and how much it has."""

    place: str
    name: str
    size: int

    def __str__(self) -> str:
        return f"{self.place}: {self.name} {self.size}".replace("  ", " ")


class Limit(NamedTuple):
    """What is limited, in the words of the table, and the most that it may have."""

    what: str
    most: int


CODE, SPECS = Limit("lines of a file of code", 400), Limit("lines of a file of specs", 250)
LEMMAS, ANSWER = Limit("lines of a file of lemmas", 300), Limit("lines of a file of answers", 120)
BODY, CLAUSES = Limit("lines of a body", 40), Limit("clauses of a function", 8)
PARAMETERS = Limit("parameters of a function", 6)
CODE_COLUMNS, SPEC_COLUMNS = Limit("columns of code", 100), Limit("columns of specs", 120)
PROOF_COLUMNS = Limit("columns of proofs", 140)
NAMES = Limit("crates that define a type of the same name", 1)
MODULE = Limit("lines of a module of Python or bash", 400)
LIMITS = (CODE, SPECS, LEMMAS, ANSWER, BODY, CLAUSES, PARAMETERS, CODE_COLUMNS, SPEC_COLUMNS, PROOF_COLUMNS, NAMES, MODULE)
COLUMNS = {"src": CODE_COLUMNS, "specs": SPEC_COLUMNS, "proofs": PROOF_COLUMNS}


def lines_of(path: str) -> list[str]:
    """The lines of a file of the checkout."""
    with open(f"{TOP}/{path}", encoding="utf-8") as file:
        return file.read().splitlines()


def files_below(folder: str, endings: tuple[str, ...]) -> list[str]:
    """The files below a folder of the checkout that end so, without what a check keeps."""
    found = []
    for at, folders, names in os.walk(f"{TOP}/{folder}"):
        folders[:] = [name for name in folders if name not in ("out", "__pycache__")]
        found += [os.path.relpath(f"{at}/{name}", TOP) for name in names if name.endswith(endings)]
    return sorted(found)


# ---- functions

def closed(text: str, begin: int) -> int:
    """Where the bracket that opens at a place is closed."""
    depth = 0
    for at in range(begin, len(text)):
        # the arrow of a result closes nothing
        depth += (text[at] in "([{<") - (text[at] in ")]}" or text[at] == ">" and text[at - 1] != "-")
        if depth == 0:
            return at
    return len(text)


def parameters(head: str) -> int:
    """How many parameters a function has beside `self`; `head` is its text from its name to its body."""
    begin = re.search(r"[<(]", head)
    at = begin.start() if begin else len(head)
    if head[at:at + 1] == "<":
        at = head.find("(", closed(head, at))
    inner, names, index = head[at + 1:closed(head, at)], "", 0
    while index < len(inner):
        if inner[index] in "([{<":
            index = closed(inner, index)
        else:
            names += inner[index]
        index += 1
    return sum(1 for name in names.split(",") if ":" in name)


def functions_of(path: str) -> Iterator[tuple[Found, Found, Found]]:
    """Each function of a file with the lines of its body, its clauses and its parameters."""
    lines, at = lines_of(path), 0
    while at < len(lines):
        head = HEAD.match(lines[at])
        if head is None:
            at += 1
            continue
        start, indent, is_open = at, head[1], lines[at].endswith("{")
        is_done = is_open or lines[at].endswith((";", "}"))
        while not is_done:
            at += 1
            is_open = lines[at] == f"{indent}{{" or lines[at].startswith(f"{indent})") and lines[at].endswith("{")
            is_done = is_open or lines[at].endswith(";") or lines[at] == f"{indent}{{}}"
        opened = at
        while is_open and lines[at] != f"{indent}}}":
            at += 1
        clauses = sum(1 for line in lines[start:opened + 1] if re.match(r" *(?:requires|ensures)\b", line))
        first = " ".join(re.sub(r" *//.*", "", line) for line in lines[start:opened + 1])
        place, name = f"{path}:{start + 1}", head[2]
        yield (Found(place, name, max(0, at - opened - 1)), Found(place, name, clauses),
               Found(place, name, parameters(re.split(r" (?:requires|ensures) ", first[first.index("fn "):])[0])))
        at += 1


# ---- what there is

def measured() -> dict[Limit, list[Found]]:
    """All that is measured, by its limit."""
    found: dict[Limit, list[Found]] = {limit: [] for limit in LIMITS}
    for path in files_below("crates", (".rt", ".antt")):
        part, lines = path.split("/")[2], lines_of(path)
        if part not in COLUMNS:
            continue
        of_proofs = ANSWER if path.endswith(ANSWERS) else LEMMAS
        found[{"src": CODE, "specs": SPECS}.get(part, of_proofs)].append(Found(path, "", len(lines)))
        found[COLUMNS[part]] += [Found(f"{path}:{number}", "", len(line)) for number, line in enumerate(lines, 1)
                                 if not re.match(r" *(?:pub |ghost )*use ", line)]
        if path.endswith(".rt"):
            for body, clauses, taken in functions_of(path):
                found[BODY].append(body)
                found[CLAUSES].append(clauses)
                found[PARAMETERS].append(taken)
    found[NAMES] += names_of_types()
    found[MODULE] += [Found(path, "", len(lines_of(path))) for folder in ("tools", "python")
                      for path in files_below(folder, (".py", ".sh"))]
    found[MODULE] += [Found(path, "", len(lines_of(path))) for folder in ("bin", "scripts") for path in files_below(folder, ("",))]
    return found


def names_of_types() -> Iterator[Found]:
    """Each name of a type with the number of crates that have one of it, those of tests left out."""
    crates: dict[str, set[str]] = defaultdict(set)
    for crate in crates_of(TOP):
        if crate.endswith("_tests"):
            continue
        for meaning in meanings_of(TOP, crate):
            if meaning.kind in TYPES:
                crates[meaning.name].add(crate)
    return (Found(" ".join(sorted(owners)), name, len(owners)) for name, owners in sorted(crates.items()))


def beyond(limit: Limit, found: Iterable[Found]) -> list[Found]:
    """What passes a limit, the greatest first."""
    return sorted((measure for measure in found if measure.size > limit.most),
                  key=lambda measure: (-measure.size, measure.place))


# ---- the page

def stated() -> dict[str, tuple[int, int]]:
    """The table of CONTRIBUTING.md: for what is limited the most, and how many exceptions there are."""
    with open(f"{TOP}/CONTRIBUTING.md", encoding="utf-8") as file:
        rows = re.findall(r"^\| ([^|]+) \| ([0-9,]+) \| ([0-9]+)\b[^|]*\|$", file.read(), re.M)
    return {what: (int(most.replace(",", "")), int(exceptions)) for what, most, exceptions in rows}


def main() -> int:
    parser = argparse.ArgumentParser(description=__doc__, formatter_class=argparse.RawDescriptionHelpFormatter)
    parser.add_argument("--list", action="store_true", help="print each exception")
    is_list = parser.parse_args().list
    page, wrong = stated(), []
    for limit, found in measured().items():
        exceptions = beyond(limit, found)
        print(f"{limit.what}: at most {limit.most}, {len(exceptions)} of {len(found)} have more"
              + (f", the greatest {exceptions[0].size}" if exceptions else ""))
        if is_list:
            print("".join(f"    {exception}\n" for exception in exceptions), end="")
        most, allowed = page.get(limit.what, (0, 0))
        if most != limit.most or len(exceptions) > allowed:
            wrong.append(f"CONTRIBUTING.md: {limit.what}: at most {most}, {allowed} exceptions")
    for line in wrong:
        print(line)
    return 1 if wrong else 0


if __name__ == "__main__":
    sys.exit(main())
