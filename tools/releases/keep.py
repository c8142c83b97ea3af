#!/usr/bin/env python3
"""Keeps what a program gives, as a release: makes the folder examples/releases/NAME.

    tools/releases/keep.py [--program FILE] NAME

The inputs are all scores, files and records of examples/, 300 texts of `scripts/stress fuzz`, and 50 runs of examples and
of such texts, recorded in sixteen ways, each once as it was recorded and once with a change. Each accepted text is played,
listed, split, cut and located; each file is listed, each record audited. Other rows are of words and of large scores.
What is expected of later programs is here what this one gives, on purpose: it keeps what was released. Whether that is
right is for the other parts of scripts/examples, whose bytes come from other programs. A folder that is there is kept."""

from __future__ import annotations

import gzip
import io
import pathlib
import random
import sys
import tarfile
import tempfile
from typing import Iterable, Iterator

sys.dont_write_bytecode = True
TOP = pathlib.Path(__file__).resolve().parent.parent.parent
sys.path[:0] = [str(TOP / name) for name in ("tools", "tools/releases", "tools/stress", "python")]
import damage  # noqa: E402
import harness  # noqa: E402
from bent import Texts  # noqa: E402
from harness import EXAMPLES, bytes_of, content  # noqa: E402
from releases import ANSWERS, INPUTS, NOTHING, RELEASES, Asked, answers, play_all, written  # noqa: E402

#: How many texts of `scripts/stress fuzz`, and how many runs on record.
TEXTS, RECORDS = 300, 50
#: The most bytes of a record that is kept.
LONGEST_RECORD = 20_000

PLAY = "IN OUT"
#: What an accepted text is asked for.
OF_A_SCORE = (PLAY, "FILE OUT --list", "IN OUT --parts", "IN OUT --from 400 --to 2000", "IN OUT --locate 1000",
              "IN OUT --locate 300 --process 1")
OF_A_FILE, OF_A_RECORD = ("IN OUT --list",), ("IN OUT --audit",)

#: Words for one score, and words for no input.
OF_WORDS = (
    PLAY, "", "IN", "OUT IN OUT", "IN OUT --help", "IN OUT --workers 17", "IN OUT --workers=2", "IN OUT --workers",
    "IN OUT --lead 1000001", "IN OUT --lead 1 --lead 2", "IN OUT --room 0", "--room 64 IN --rounds OUT", "IN OUT --rounds=1",
    "-- IN OUT", "IN OUT --generate 1000000000", "IN OUT --locate 1099511627777", "IN OUT --from 1 --parts",
    "IN OUT --process 16383", "IN OUT --list", "IN OUT --audit", "IN FOLDER", "FOLDER OUT", "IN FOLDER --parts",
)
OF_NOTHING = (
    "NONE OUT", "NONE OUT --list", "NONE OUT --audit", "NONE OUT --generate 0", "NONE OUT --generate 7",
    "NONE OUT --generate 0 --parts", "NONE OUT --generate 0 --from 60000 --to 61000",
    "NONE OUT --generate 0 --locate 100000 --process 16", "NONE OUT --generate 0 --locate 100000 --process 18",
)


# ---- the inputs

def of_examples() -> Iterator[tuple[str, bytes]]:
    """The scores, files and records of examples/, each with the name that it has among the inputs."""
    for path in sorted(EXAMPLES.glob("*/*.score"), key=str):
        yield path.relative_to(EXAMPLES).as_posix(), content(path)
    for folder, ending in (("files", ".mid"), ("records", ".record")):
        for path in sorted((EXAMPLES / folder).rglob("*.hex"), key=str):
            yield path.relative_to(EXAMPLES).with_suffix(ending).as_posix(), bytes_of(path)


def of_fuzz() -> Iterator[tuple[str, bytes]]:
    """Texts of `scripts/stress fuzz`."""
    texts = Texts(0)
    return ((f"fuzz/{number:03}.score", texts.text(number)[0]) for number in range(TEXTS))


def recorded(program: str, scores: Iterable[tuple[str, bytes]]) -> Iterator[tuple[str, bytes]]:
    """Runs of accepted scores on record, each followed by one with a change."""
    count = 0
    for name, text in scores:
        with tempfile.TemporaryDirectory() as folder:
            runs = harness.Runs(program, folder)
            ran = runs.anew([runs.put("in", text), runs.out, "--record", *damage.RUNS[count % len(damage.RUNS)]])
        if count == RECORDS or ran.status or ran.out is None or len(ran.out) > LONGEST_RECORD:
            continue
        stem = f"runs/{count:02}_{pathlib.PurePath(name).stem}"
        yield f"{stem}.record", ran.out
        yield f"{stem}_changed.record", damage.damaged(ran.out, random.Random(stem))
        count += 1


def asked_of(program: str, name: str, data: bytes) -> tuple[str, ...]:
    """The words of the runs of an input: of a text that is refused one."""
    if name.endswith(".mid"):
        return OF_A_FILE
    if name.endswith(".record"):
        return OF_A_RECORD
    is_accepted = answers(program, data, [PLAY])[0].status == "0"
    return OF_A_SCORE if is_accepted else (PLAY,)


# ---- the folder

def archive(inputs: dict[str, bytes]) -> bytes:
    """The inputs as an archive, the same bytes each time."""
    stored = io.BytesIO()
    with tarfile.open(fileobj=stored, mode="w", format=tarfile.PAX_FORMAT) as tar:
        for name, data in inputs.items():
            entry = tarfile.TarInfo(name)
            entry.size = len(data)
            tar.addfile(entry, io.BytesIO(data))
    return gzip.compress(stored.getvalue(), 9, mtime=0)


def keep(program: str, folder: pathlib.Path) -> None:
    """Makes the folder of a release."""
    scores = dict(of_examples())
    drawn = dict(of_fuzz())
    short = [(name, text) for name, text in scores.items() if name.startswith(("scores/", "tutorial/"))]
    inputs = {**scores, **drawn, **dict(recorded(program, [*short, *drawn.items()])), "words.score": scores["scores/one_note.score"]}
    asked: Asked = {name: list(asked_of(program, name, data)) for name, data in inputs.items()}
    asked["words.score"], asked[NOTHING] = list(OF_WORDS), list(OF_NOTHING)
    rows = list(play_all(program, inputs, asked))
    folder.mkdir(parents=True)
    (folder / INPUTS).write_bytes(archive(inputs))
    (folder / ANSWERS).write_text(written(rows), encoding="utf-8")
    print(f"{len(inputs)} inputs and {len(rows)} runs are kept in {folder}")


def main() -> int:
    parser = harness.parser(__doc__)
    parser.add_argument("name", metavar="NAME", help="the release, as 0.1.0")
    words = parser.parse_args()
    folder = RELEASES / words.name
    if folder.exists():
        parser.error(f"{folder} is there: what was released is never made anew")
    keep(harness.find(words.program), folder)
    return 0


if __name__ == "__main__":
    sys.exit(main())
