"""Runs the program with the options that make something else of a score or a file, and compares: for scripts/examples.

What is wanted stands in examples/, or comes from tools/file_model and tools/score_model, which are programs apart
from the command: the listings of the files of examples/files, of those of all example scores and of the large ones,
and the first fault of each refused file and of changed ones; where ticks lie; the tracks of each score, excerpts,
and what an audit makes of records, of those of each score in sixteen schedules and of changed ones too."""

from __future__ import annotations

import importlib
import os
import random
import re
import sys
from typing import Any, Iterator, Optional, Sequence

from formula_score.explaining import records as record_parts
from harness import EXAMPLES, TOP, Count, Runs, bytes_of, content, difference

sys.path[:0] = [str(TOP / "tools" / name) for name in ("file_model", "score_model", "core_model", "bench")]
#: Programs apart from the command, which are no part of the library.
core_audit: Any = importlib.import_module("audit")
model: Any = importlib.import_module("file_model")
score_model: Any = importlib.import_module("score_model")
texts: Any = importlib.import_module("texts")

WORDS_REFUSED = "formula: words refused\n"
READ_FAULT = "formula: read fault\n"
NO_PROCESS = "formula: no such process\n"
#: The large scores that are tried: 32,000, 128,000 and 992,000 events.
LARGE = (0, 3, 30)
RECORDED = [(workers, room, lead) for workers in (1, 2, 4, 16) for room in (1, 64) for lead in (0, 7680)]
SCHEDULES = ((), ("--workers", "0"), ("--workers", "16", "--room", "1", "--lead", "0"), ("--rounds",))


def within(name: str, ending: str) -> list[str]:
    """The names in a folder of the examples that end so, without their endings."""
    folder = os.path.join(EXAMPLES, name)
    return [os.path.join(folder, name[:-len(ending)]) for name in sorted(os.listdir(folder)) if name.endswith(ending)]


def scores() -> Iterator[tuple[str, bytes]]:
    """The example scores, each with the bytes of its file."""
    for score in within("scores", ".score"):
        yield score + ".score", bytes_of(os.path.join(EXAMPLES, "expected", os.path.basename(score) + ".hex"))
    for score in within("tutorial", ".score"):
        yield score + ".score", bytes_of(score + ".hex")


#: Status, what was printed on both outputs, and OUT.
Ended = tuple[int, bytes, Optional[bytes]]


class Tries:
    """Runs in a folder, and how often each file and record is changed."""

    def __init__(self, program: str, folder: str, count: Count, places: int):
        self.runs, self.folder, self.count, self.places = Runs(program, folder), folder, count, places
        self.path, self.put, self.judge = self.runs.path, self.runs.put, count.judge

    def run(self, words: Sequence[str], given: Optional[bytes] = None) -> Ended:
        """How a run on these words ends."""
        ran = self.runs.anew(words, given)
        return ran.status, ran.said + ran.complained, ran.out

    def ends(self, name: str, words: Sequence[str], status: int, said: str, wanted: Optional[bytes]) -> None:
        """A run on these words ends so, prints this, and leaves this in OUT; without OUT, none is made."""
        self.count.ends(name, self.runs.anew(words), status, said.encode(), wanted)

    def makes(self, source: str, options: Sequence[str], wanted: Optional[bytes], said: str = "") -> None:
        """A run with these options makes this of a source."""
        name = " ".join([os.path.relpath(source, EXAMPLES), *options])
        self.ends(name, [source, self.path("out"), *options], 0, said, wanted)


def pages(tries: Tries) -> None:
    """What docs/MIDI_FILE.md shows of a score with an option comes so."""
    with open(os.path.join(TOP, "docs", "MIDI_FILE.md"), encoding="utf-8") as file:
        page = file.read()
    shown = re.findall(r"`(formula [^`]*)`[^`\n]*:\n\n```\n(4D 54 68 64[^`]*)```", page)
    options = (["--parts"], ["--from", "100", "--to", "600"])
    tries.judge("docs/MIDI_FILE.md", [] if len(shown) == len(options) else [f"it shows {len(shown)} files"])
    for (text, lines), words in zip(shown, options):
        score = tries.put("page.score", text.encode())
        tries.makes(score, words, bytes.fromhex(re.sub(r"   .*", "", lines)))
    listing = content(os.path.join(EXAMPLES, "listings", "one_note.listing")).decode()
    tries.judge("the listing of docs/MIDI_FILE.md", [] if f"```\n{listing}```" in page else ["it is another one"])


def changed(chance: random.Random, data: bytes) -> tuple[int, bytes]:
    """The place of a change, and the bytes with one of them changed, left out, doubled or taken for the end."""
    place = chance.randrange(len(data))
    way = chance.randrange(4)
    if way == 0:
        return place, data[:place] + bytes([data[place] ^ 1 << chance.randrange(8)]) + data[place + 1:]
    if way == 1:
        return place, data[:place]
    # once more, or not at all
    return place, data[:place + (way == 2)] + data[place + (way == 3):]


def judged(data: bytes) -> Ended:
    """Status, line and OUT of a listing by tools/file_model."""
    try:
        return 0, b"", model.listing(model.read(data))
    except model.Fault as fault:
        return 3, f"formula: file refused: {fault}\n".encode(), None


def damaged(tries: Tries, name: str, data: bytes) -> None:
    """Changes of a file are listed, or refused with their first fault."""
    problems, chance = [], random.Random(len(data))
    for _ in range(tries.places):
        place, file = changed(chance, data)
        found = tries.run([tries.put("changed.mid", file), tries.path("out"), "--list"])
        wanted = judged(file)
        if found != wanted:
            problems.append(f"changed at byte {place}: {found[:2]} in place of {wanted[:2]}")
    tries.judge(f"{name}, changed", problems)


def listings(tries: Tries) -> None:
    """Files are listed, or refused."""
    out = tries.path("out")
    for name in within("files", ".hex"):
        file = tries.put("in.mid", bytes_of(name + ".hex"))
        tries.ends(os.path.relpath(name, EXAMPLES), [file, out, "--list"], 0, "", content(name + ".listing"))
        damaged(tries, os.path.relpath(name, EXAMPLES), bytes_of(name + ".hex"))
    for name in within("files/refused", ".hex"):
        file = tries.put("in.mid", bytes_of(name + ".hex"))
        tries.ends(os.path.relpath(name, EXAMPLES), [file, out, "--list"], 3, content(name + ".console").decode(), None)
    for score, data in scores():
        name = os.path.basename(score)[:-len(".score")]
        wanted = model.listing(model.read(data))
        expected = os.path.join(EXAMPLES, "listings", name + ".listing")
        if os.path.exists(expected) and content(expected) != wanted:
            tries.judge(os.path.relpath(expected, EXAMPLES), ["tools/file_model lists something else"])
        tries.makes(tries.put(name + ".mid", data), ["--list"], wanted)
        damaged(tries, name + ".mid", data)
    for number in LARGE:
        file = tries.path("large.mid")
        tries.run(["none", file, "--generate", str(number), "--workers", "0"])
        tries.makes(file, ["--list"], model.listing(model.read(content(file))))
    note = tries.path("one_note.mid")
    wanted = content(os.path.join(EXAMPLES, "listings", "one_note.listing"))
    for options in (["--list", "--parts"], ["--generate", "0", "--list"], ["--rounds", "--list", "--workers=16"]):
        tries.makes(note, options, wanted)
    status, said, _ = tries.run(["/dev/stdin", "/dev/stdout", "--list"], content(note))
    tries.judge("a listing from pipe to pipe", [] if (status, said) == (0, wanted) else [f"status {status}, {said!r}"])
    tries.ends("a missing file", [tries.path("none"), out, "--list", "--generate", "0"], 2, READ_FAULT, None)
    tries.ends("a folder as listing", [note, tries.folder, "--list"], 4, "formula: write fault\n", None)
    tries.ends("--list twice", [note, out, "--list", "--list"], 1, WORDS_REFUSED, None)
    tries.ends("--list=1", [note, out, "--list=1"], 1, WORDS_REFUSED, None)
    whole = content(note)
    most = tries.put("most.mid", whole + model.chunk(b"none", bytes(model.MOST_BYTES - len(whole) - 8)))
    tries.makes(most, ["--list"], wanted)
    with open(most, "ab") as longer:
        longer.write(b"\0")
    tries.ends("one byte too many", [most, out, "--list"], 3, "formula: file refused: byte 0 fault 35\n", None)


def located(tries: Tries, score: str, tick: Any, process: Any, line: Optional[str]) -> None:
    """The console is told this line, and OUT is untouched."""
    words = [score, tries.path("out"), "--locate", str(tick), "--process", str(process)]
    name = f"{os.path.relpath(score, EXAMPLES)}, tick {tick} in process {process}"
    tries.ends(name, words, 7 if line is None else 0, NO_PROCESS if line is None else f"{line}\n", None)


def positions(tries: Tries) -> None:
    """Where ticks are in each process."""
    out = tries.path("out")
    for name in within("positions", ".located"):
        for line in content(name + ".located").decode().splitlines():
            tick, process, answer = re.findall(r"^([0-9]+) ([0-9]+): (.*)$", line)[0]
            located(tries, name + ".score", tick, process, answer if answer.startswith("process") else None)
    for score, data in scores():
        text, end = content(score), model.read(data).tracks[0][-1].tick
        for number, tick in enumerate((0, 1, end // 3, end // 2 + 1, end, model.LAST_TICK)):
            located(tries, score, tick, number, score_model.located(text, tick, number))
    large = tries.put("large.score", texts.generated(0))
    for process in (0, 1, 16, 17, 18):
        line = score_model.located(texts.generated(0), 100_000, process)
        located(tries, large, 100_000, process, line)
        said = NO_PROCESS if line is None else line + "\n"
        words = ["none", out, "--generate", "0", "--locate", "100000", "--process", str(process)]
        tries.ends(f"a large score, process {process}", words, 7 if line is None else 0, said, None)
    score = os.path.join(EXAMPLES, "positions", "two_levels.score")
    line = "process 0 levels 0 start 0 positions\n"
    tries.ends("without a process", [score, out, "--locate", "1"], 0, line, None)
    tries.ends("with tracks", ["--parts", score, "--locate=1", out, "--rounds", "--lead", "0"], 0, line, None)
    tries.ends("OUT is a folder", [score, tries.folder, "--locate", "1"], 0, line, None)
    tries.ends("a listing before positions", [score, out, "--locate", "1", "--list"], 3,
               "formula: file refused: byte 0 fault 22\n", None)
    refused = os.path.join(EXAMPLES, "refused", "not_ticks")
    tries.ends("a refused score", [refused + ".score", out, "--locate", "1", "--process", "16383"], 3,
               content(refused + ".console").decode(), None)
    for words in (["--locate", str(model.LAST_TICK + 1)], ["--locate", "1", "--process", "16384"], ["--locate"],
                  ["--locate", "1", "--locate", "1"], ["--process", "16384"], ["--process=-1"]):
        tries.ends(" ".join(words), [score, out, *words], 1, WORDS_REFUSED, None)
    note = os.path.join(EXAMPLES, "scores", "one_note.score")
    tries.makes(note, ["--process", "16383"], bytes_of(os.path.join(EXAMPLES, "expected", "one_note.hex")))


def parts(tries: Tries) -> None:
    """Each score with a track for each channel."""
    out = tries.path("out")
    for number, (score, data) in enumerate(scores()):
        file = model.read(data)
        wanted = model.parts(file.division, *model.events(file))
        expected = os.path.join(EXAMPLES, "parts", os.path.basename(score)[:-len(".score")] + ".hex")
        if os.path.exists(expected) and bytes_of(expected) != wanted:
            tries.judge(os.path.relpath(expected, EXAMPLES), ["tools/file_model makes another file"])
        tries.makes(score, ["--parts", *SCHEDULES[number % len(SCHEDULES)]], wanted)
        split = tries.put("parts.mid", wanted)
        tries.makes(split, ["--list"], model.listing(model.read(wanted)))
    for number in LARGE[:2]:
        file = tries.path("large.mid")
        printed = tries.run(["none", file, "--generate", str(number), "--workers", "0"])[1].decode()
        whole = model.read(content(file))
        wanted = model.parts(whole.division, *model.events(whole))
        printed = re.sub(r"bytes [0-9]+", f"bytes {len(wanted)}", printed)
        tries.makes("none", ["--parts", "--generate", str(number)], wanted, printed)
    canon = os.path.join(EXAMPLES, "scores", "canon.score")
    wanted = bytes_of(os.path.join(EXAMPLES, "parts", "canon.hex"))
    status, said, _ = tries.run([canon, "/dev/stdout", "--parts"])
    tries.judge("tracks into a pipe", [] if (status, said) == (0, wanted) else [f"status {status}, {said!r}"])
    refused = os.path.join(EXAMPLES, "refused", "not_ticks")
    tries.ends("a refused score", [refused + ".score", out, "--parts"], 3, content(refused + ".console").decode(), None)
    tries.ends("a folder as tracks", [canon, tries.folder, "--parts"], 4, "formula: write fault\n", None)
    tries.ends("--parts=1", [canon, out, "--parts=1"], 1, WORDS_REFUSED, None)


def is_running(score: str) -> bool:
    """Whether the file of a score has running status: that of version 2 has."""
    text = re.sub(rb"#[^\n]*", b"", content(score))
    return re.match(rb"\s*formula\s+0*2\s*;", text) is not None


def cut(begin: Any, until: Any) -> list[str]:
    """The words that ask for an excerpt, where None leaves one out."""
    asked = [(name, str(tick)) for name, tick in (("--from", begin), ("--to", until)) if tick is not None]
    return [word for words in asked for word in words]


def excerpts(tries: Tries) -> None:
    """Excerpts of each score."""
    out = tries.path("out")
    for name in within("excerpts", ".cuts"):
        for line in content(name + ".cuts").decode().splitlines():
            begin, until, digits = re.findall(r"^([0-9]+|-) ([0-9]+|-): (.*)$", line)[0]
            words = cut(None if begin == "-" else begin, None if until == "-" else until)
            tries.makes(name + ".score", words, bytes.fromhex(digits))
    for number, (score, data) in enumerate(scores()):
        file = model.read(data)
        found, end = model.events(file)
        third = end // 3
        for begin, until in ((0, None), (third, None), (None, 2 * third), (third, 2 * third), (third + 1, third + 500),
                             (end, end), (end + 1, None), (2 * third, third), (0, model.LAST_TICK), (1920, 3840)):
            wanted = model.written(file.division, is_running(score), *model.excerpt(found, end, begin or 0, until))
            if (begin, until) == (0, None) and wanted != data:
                tries.judge(score, ["tools/file_model does not leave the whole as it is"])
            tries.makes(score, [*cut(begin, until), *SCHEDULES[number % len(SCHEDULES)]], wanted)
    large = tries.path("large.mid")
    said = tries.run(["none", large, "--generate", "0", "--workers", "0"])[1].decode()
    whole = model.read(content(large))
    for begin, until in ((60_000, 61_000), (100_000, None)):
        wanted = model.written(whole.division, False, *model.excerpt(*model.events(whole), begin, until))
        line = re.sub(r"bytes [0-9]+", f"bytes {len(wanted)}", said)
        tries.makes("none", ["--generate", "0", *cut(begin, until)], wanted, line)
    score = os.path.join(EXAMPLES, "excerpts", "two_notes.score")
    file = model.read(tries.run([score, out])[2])
    tracks = model.parts(file.division, *model.events(file))
    tries.makes(score, ["--from", "480", "--parts"], tracks)
    tries.ends("positions before an excerpt", [score, out, "--to", "5", "--locate", "0"], 0,
               "process 0 levels 0 start 0 positions\n", None)
    refused = os.path.join(EXAMPLES, "refused", "not_ticks")
    tries.ends("an excerpt of a refused score", [refused + ".score", out, "--from", "0"], 3,
               content(refused + ".console").decode(), None)
    tries.ends("a folder as excerpt", [score, tries.folder, "--from", "0"], 4, "formula: write fault\n", None)
    for words in (["--from", str(model.LAST_TICK + 1)], ["--to=-1"], ["--to"], ["--from", "--to", "1"],
                  ["--from", "1", "--from", "1"]):
        tries.ends(" ".join(words), [score, out, *words], 1, WORDS_REFUSED, None)


def verdict(record: Optional[bytes]) -> Ended:
    """Status, line and OUT of an audit by tools/core_model."""
    try:
        return 0, b"", core_audit.audit(record)
    except core_audit.Fault as fault:
        return 3, f"formula: record refused: {fault}\n".encode(), None


def audited(tries: Tries, name: str, record: Optional[bytes]) -> None:
    """Changes of a record have the verdict that they should; a changed score is refused, or it is what OUT has."""
    whole = record_parts.parts(record or b"")
    if record is None or whole is None:
        tries.judge(f"{name}, changed", ["it is no record"])
        return
    problems, chance = [], random.Random(len(record))
    for _ in range(tries.places):
        place, data = changed(chance, record)
        found = tries.run([tries.put("changed.record", data), tries.path("out"), "--audit"])
        parts = record_parts.parts(data)
        if parts is None or parts.text == whole.text:
            wanted = verdict(data)
        elif found[0] == 0:
            file = tries.put("changed.score", parts.text)
            wanted = tries.run([file, tries.path("out"), "--workers", "0"])
        elif found[0] == 3 and found[2] is None and re.fullmatch(rb"formula: (record|score) refused: .*\n", found[1]):
            continue
        else:
            wanted = 3, b"", None
        if found[:2] != wanted[:2]:
            problems.append(f"changed at byte {place}: {found[:2]} in place of {wanted[:2]}")
        elif found[2] != wanted[2]:
            problems.append(f"changed at byte {place}: {difference(wanted[2], found[2])}")
    tries.judge(f"{name}, changed", problems)


def recorded(tries: Tries, number: int, score: str, wanted: bytes) -> None:
    """The score is recorded in each schedule, and its records are audited."""
    for way, (workers, room, lead) in enumerate(RECORDED):
        options = ["--workers", str(workers), "--room", str(room), "--lead", str(lead)]
        name = " ".join([os.path.relpath(score, EXAMPLES), "--record", *options])
        status, said, record = tries.run([score, tries.path("out"), "--record", *options])
        parts = record_parts.parts(record or b"")
        head = (workers + 1, room, lead, content(score))
        problems = [f"status {status}, {said!r}"] if status or said else []
        if parts is None or parts[:4] != head:
            problems.append("the head is not that of this run")
        elif sum(map(record_parts.length, record_parts.steps(parts.steps))) != len(parts.steps):
            problems.append("there is something else than steps")
        tries.judge(name, problems)
        if problems:
            continue
        file = tries.put("in.record", record or b"")
        tries.ends(f"{name}, audited", [file, tries.path("out"), "--audit"], 0, "", wanted)
        if way == number % len(RECORDED):
            status, said, written = verdict(record)
            problems = [f"{said!r}"] if status else [] if written == wanted else [difference(wanted, written)]
            tries.judge(f"{name}, audited by tools/core_model", problems)
        audited(tries, name, record)


def records(tries: Tries) -> None:
    """Scores are recorded, and records are audited or refused."""
    out = tries.path("out")
    for name in within("records", ".hex"):
        record, wanted = bytes_of(name + ".hex"), bytes_of(name + ".file")
        tries.makes(tries.put("in.record", record), ["--audit"], wanted)
        audited(tries, os.path.relpath(name, EXAMPLES), record)
    for name in within("records/refused", ".hex"):
        file = tries.put("in.record", bytes_of(name + ".hex"))
        tries.ends(os.path.relpath(name, EXAMPLES), [file, out, "--audit"], 3, content(name + ".console").decode(), None)
    for number, (score, wanted) in enumerate(scores()):
        recorded(tries, number, score, wanted)
    status, said, whole = tries.run(["none", out, "--generate", "0", "--workers", "0"])
    file, found = tries.path("large.record"), tries.run(["none", out, "--generate", "0", "--record", "--rounds"])
    tries.judge("a large score, recorded", [] if found[:2] == (0, said) else [f"status {found[0]}, {found[1]!r}"])
    tries.put("large.record", found[2] or b"")
    tries.makes(file, ["--audit", "--generate", "1", "--list", "--workers", "0"], whole)
    score, wanted = next(scores())
    alone = tries.run([score, out, "--record", "--workers", "0", "--locate", "1", "--parts"])[2]
    tries.judge("with no workers there is one", [] if alone and alone[4] == 2 else ["the seats are not two"])
    status, said, _ = tries.run([score, "/dev/stdout", "--record"])
    file = tries.put("in.record", said)
    tries.ends("a record that came through a pipe", [file, out, "--audit"], 0, "", wanted)
    refused = os.path.join(EXAMPLES, "refused", "not_ticks")
    tries.ends("a record of a refused score", [refused + ".score", out, "--record"], 3,
               content(refused + ".console").decode(), None)
    tries.ends("a folder as record", [score, tries.folder, "--record"], 4, "formula: write fault\n", None)
    tries.ends("a folder as audited file", [file, tries.folder, "--audit"], 4, "formula: write fault\n", None)
    tries.ends("a missing record", [tries.path("none"), out, "--audit", "--generate", "0"], 2, READ_FAULT, None)
    for words in (["--record=1"], ["--audit", "--audit"]):
        tries.ends(" ".join(words), [score, out, *words], 1, WORDS_REFUSED, None)
    most = tries.put("most.record", bytes(core_audit.MOST_BYTES + 1))
    tries.ends("one byte too many", [most, out, "--audit"], 3, "formula: record refused: 0 fault 46\n", None)


TASKS = (pages, listings, positions, parts, excerpts, records)


def try_all(program: str, folder: str, count: Count, places: int = 2) -> None:
    """Tries all of them; each file and record is changed at so many places."""
    tries = Tries(program, folder, count, places)
    sys.setrecursionlimit(10_000)
    for task in TASKS:
        task(tries)
