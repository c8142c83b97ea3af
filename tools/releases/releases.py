"""Compares what a program gives now with what released ones gave: for scripts/examples.

examples/releases has a folder for each release, by its name. In it `inputs.tar.gz` has texts, files and records, and
`answers.tsv` a row for each run: the input, the words, the status, the line on standard output, and the length and the
SHA-256 sum of OUT, both `-` where no OUT was made. In the words IN is the input, and OUT a file that is not there before
the run. FILE is what the input's run on `IN OUT` left in OUT, NONE a file that does not exist, and FOLDER a folder.
The input `-` is none. tools/releases/keep.py makes such a folder."""

from __future__ import annotations

import hashlib
import os
import pathlib
import subprocess
import tarfile
import tempfile
from concurrent.futures import ThreadPoolExecutor
from typing import Iterator, NamedTuple, Optional, Sequence

from harness import EXAMPLES, Count, Runs

RELEASES = EXAMPLES / "releases"
INPUTS, ANSWERS = "inputs.tar.gz", "answers.tsv"
HEAD = "input", "words", "status", "line", "bytes", "sum"
NOTHING = "-"

#: After so many seconds a run counts as one that does not end.
LONGEST = 600


class Answer(NamedTuple):
    """What a run gave: its status, its line, and the length and the sum of OUT."""

    status: str
    line: str
    length: str
    sum: str


class Row(NamedTuple):
    """A run: the name of its input, its words, and what it gave."""

    input: str
    words: str
    answer: Answer


#: The words of the runs of each input, by its name.
Asked = dict[str, list[str]]


# ---- the files of a release

def read_inputs(folder: pathlib.Path) -> dict[str, bytes]:
    """The inputs of a release, by their names."""
    found: dict[str, bytes] = {}
    with tarfile.open(folder / INPUTS) as tar:
        for entry in tar:
            file = tar.extractfile(entry)
            if file is not None:
                found[entry.name] = file.read()
    return found


def read_rows(folder: pathlib.Path) -> list[Row]:
    """The runs of a release."""
    lines = (folder / ANSWERS).read_text(encoding="utf-8").split("\n")
    if lines[0] != "\t".join(HEAD) or lines[-1]:
        raise ValueError(f"{folder / ANSWERS}: it has another head, or no end")
    cells = [line.split("\t") for line in lines[1:-1]]
    return [Row(name, words, Answer(*rest)) for name, words, *rest in cells]


def written(rows: Sequence[Row]) -> str:
    """The text of a file of answers."""
    lines = ["\t".join((row.input, row.words, *row.answer)) for row in rows]
    return "".join(f"{line}\n" for line in ("\t".join(HEAD), *lines))


# ---- runs

class Player:
    """Runs of a program on an input, in a folder of their own."""

    def __init__(self, program: str, folder: str, data: Optional[bytes]):
        self.runs = Runs(program, folder)
        self.names = {name: self.runs.path(name.lower()) for name in ("IN", "FILE", "NONE", "FOLDER")}
        self.names["OUT"] = self.runs.out
        os.mkdir(self.names["FOLDER"])
        if data is not None:
            self.runs.put("in", data)

    def answer(self, words: str) -> Answer:
        """What the run on these words gives."""
        try:
            ran = self.runs.anew([self.names.get(word, word) for word in words.split()], timeout=LONGEST)
        except subprocess.TimeoutExpired:
            return Answer(f"no end after {LONGEST} seconds", "", NOTHING, NOTHING)
        if words == "IN OUT" and ran.out is not None:
            self.runs.put("file", ran.out)
        said = (ran.said + ran.complained).decode("utf-8", "backslashreplace")
        # a line without its end, or more than one, is shown as it is
        line = said[:-1] if said.endswith("\n") and "\n" not in said[:-1] else repr(said) if said else ""
        if ran.out is None:
            return Answer(str(ran.status), line, NOTHING, NOTHING)
        return Answer(str(ran.status), line, str(len(ran.out)), hashlib.sha256(ran.out).hexdigest())


def answers(program: str, data: Optional[bytes], asked: Sequence[str]) -> list[Answer]:
    """What a program gives for an input, run by run."""
    with tempfile.TemporaryDirectory() as folder:
        player = Player(program, folder, data)
        return [player.answer(words) for words in asked]


def play_all(program: str, inputs: dict[str, bytes], asked: Asked) -> Iterator[Row]:
    """Each run of each input with what the program gives for it, in their order."""
    with ThreadPoolExecutor(os.cpu_count()) as pool:
        played = [pool.submit(answers, program, inputs.get(name), words) for name, words in asked.items()]
        for (name, words), found in zip(asked.items(), played):
            yield from (Row(name, *pair) for pair in zip(words, found.result()))


# ---- the comparison

def asked_in(rows: Sequence[Row]) -> Asked:
    """The words of each input, in the order of the rows."""
    asked: Asked = {}
    for row in rows:
        asked.setdefault(row.input, []).append(row.words)
    return asked


def difference(wanted: Answer, found: Answer) -> list[str]:
    """What two answers differ in."""
    return [f"{what} {new!r} in place of {old!r}" for what, old, new in zip(HEAD[2:], wanted, found) if old != new]


def compare(program: str, folder: pathlib.Path, count: Count) -> None:
    """Compares each answer of a release with what the program gives now."""
    inputs, rows = read_inputs(folder), read_rows(folder)
    name, asked = folder.relative_to(EXAMPLES), asked_in(rows)
    count.judge(f"{name}, its inputs", [f"{entry} has no row" for entry in sorted(inputs.keys() - asked.keys())]
                + [f"{entry} is not there" for entry in sorted(asked.keys() - inputs.keys() - {NOTHING})])
    wanted = {(row.input, row.words): row.answer for row in rows}
    count.judge(f"{name}, its rows", "" if len(wanted) == len(rows) else "a run has two rows")
    for row in play_all(program, inputs, asked):
        count.judge(f"{name}, {row.input}: formula {row.words}", difference(wanted[row.input, row.words], row.answer))


def compare_all(program: str, count: Count) -> None:
    """Compares each release."""
    for folder in sorted(path for path in RELEASES.iterdir() if path.is_dir()):
        compare(program, folder, count)
