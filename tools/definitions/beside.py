"""What is compared on one text, file or record: what the definitions compute, the program's answers, and those of
tools/score_model."""
from __future__ import annotations

import importlib
import os
import random
import subprocess
import sys
from collections import Counter
from collections.abc import Mapping, Sequence
from typing import Any, Optional

import plain_values
from products import TOP, Definitions, Fault, Played
from values import Made, Record, listed

sys.path += [os.path.join(TOP, "tools", "score_model"), os.path.join(TOP, "python")]
#: The reader of the command's words in Python.
command_line: Any = importlib.import_module("formula_score.explaining.words")
#: The player of texts, which is apart from the program and has no types.
score_model: Any = importlib.import_module("score_model")

MOST_TEXT, MOST_FILE = 20_000, 8_000
# The definition of an excerpt goes over all events for each controller of each channel. Where a run is recorded too, the
# score may have more of them.
FEW_EVENTS, MOST_EVENTS = 60, 200
SCHEDULES = (("--workers", "0"), ("--rounds",), (), ("--workers", "3", "--room", "1", "--lead", "0"))
# Options, and what may stand behind one.
OPTIONS = ("workers", "lead", "room", "rounds", "list", "parts", "audit", "record", "locate", "process", "from", "to",
           "generate")
OTHERS = ("--", "-", "", "-x", "---", "--rooms", "in", "--list=", "--help", "-rounds", "x-y", "--=5")
VALUES = ("0", "1", "2", "16", "17", "64", "65", "1000000", "1000001", "999999999", "1000000000", "16383", "16384",
          "1099511627776", "1099511627777", "007", "+5", "++5", "+", "5_0", "5/", "5:", " 5", "x", "", "-", "-1", "--",
          "--list")
# How a run ends whose words are refused, and one that finds no file.
NO_WORDS, NO_FILE = (1, b"formula: words refused\n"), (2, b"formula: read fault\n")
# A file begins with so many bytes, and its track is the rest.
HEAD = 22
# After so many seconds a run of the program is one that does not end.
LONGEST = 600
# The status and the line of a run, and what stands in OUT, None where there is none.
End = tuple[int, bytes, Optional[bytes]]


class Program:
    """Runs of the program in a folder of their own."""

    def __init__(self, program: str, folder: str):
        self.program, self.given, self.out = program, os.path.join(folder, "in"), os.path.join(folder, "out")
        self.empty = os.path.join(folder, "empty")
        os.mkdir(self.empty)

    def ends(self, words: Sequence[str]) -> tuple[int, bytes]:
        """The status and the line of a run with these words alone, in a folder in which nothing stands."""
        done = subprocess.run([self.program, *words], cwd=self.empty, stdin=subprocess.DEVNULL, stdout=subprocess.PIPE,
                              stderr=subprocess.STDOUT, timeout=LONGEST, check=False)
        return done.returncode, done.stdout

    def run(self, data: bytes, *words: str) -> End:
        """The status, the line on standard output, and what stands in OUT, None where there is none."""
        with open(self.given, "wb") as file:
            file.write(data)
        if os.path.exists(self.out):
            os.remove(self.out)
        done = subprocess.run([self.program, self.given, self.out, *words], stdin=subprocess.DEVNULL,
                              stdout=subprocess.PIPE, stderr=subprocess.STDOUT, timeout=LONGEST, check=False)
        written = None
        if os.path.exists(self.out):
            with open(self.out, "rb") as file:
                written = file.read()
        return done.returncode, done.stdout, written


def words_drawn(draw: random.Random) -> list[str]:
    """Two names of files, mostly, and options."""
    groups = [[name] for name in ("absent", "out", "other")[:draw.choice((2, 2, 2, 2, 2, 2, 2, 2, 1, 3))]]
    for _ in range(draw.randrange(4)):
        option, value = f"--{draw.choice(OPTIONS)}", draw.choice(VALUES)
        groups.append(draw.choice(([option], [f"{option}={value}"], [option, value], [option, value])))
    if draw.randrange(8) == 0:
        groups.append([draw.choice(OTHERS)])
    draw.shuffle(groups)
    return [word for group in groups for word in group]


def settings(read: Any) -> dict[str, Any]:
    """What words ask for, by the reader of words in Python."""
    numbers = {name: read.numbers.get(f"--{name}") for name in ("generate", "locate", "from", "to")}
    usual = {"workers": 4, "lead": 7680, "room": 32, "process": 0}
    numbers.update({name: read.numbers.get(f"--{name}", otherwise) for name, otherwise in usual.items()})
    flags = {"rounds": "rounds", "list": "list", "parts": "parts", "record": "recorded", "audit": "audited"}
    given = {field: f"--{name}" in read.options for name, field in flags.items()}
    source, target = ([*name.encode()] for name in read.files)
    return {"source": source, "target": target, **numbers, **given}


class Case:
    """What is compared on one text."""

    def __init__(self, definitions: Definitions, program: Program, name: str, text: bytes, draw: random.Random,
                 recorded: bool):
        self.definitions, self.program = definitions, program
        self.name, self.text, self.draw, self.recorded = name, text, draw, recorded
        self.counts: Counter[str] = Counter()
        self.differ: list[str] = []

    def judge(self, product: str, mine: Any, others: Mapping[str, Any]) -> None:
        self.counts[product] += 1
        for whose, other in others.items():
            if mine != other:
                gave = f"the definitions give {str(mine)[:200]}, {whose} {str(other)[:200]}"
                self.differ.append(f"{self.name}: {product}: {gave}")

    def line_of(self, tag: str, *parts: Any) -> End:
        """The line of a fault as the definitions tell it, with its status."""
        fault = Made(tag, parts)
        return self.definitions.fault_status(fault), bytes(self.definitions.fault_text(fault)), None

    def score_line(self, fault: Fault) -> End:
        return self.line_of("Score", Record(line=fault.line, column=fault.column), fault.number)

    def words(self) -> None:
        """The words of a command at random: what they ask for, or that they are refused."""
        words = words_drawn(self.draw)
        chosen = self.definitions.settings_of([word.encode() for word in words])
        mine = None if chosen is None else {name.rstrip("_"): plain_values.setting(value)
                                            for name, value in vars(chosen).items()}
        read = command_line.read(words)
        self.judge("words", mine, {"formula_score": None if read.wrong else settings(read)})
        if "generate" not in " ".join(words):
            # there is no IN, so that nothing is played
            ended = self.program.ends(words)
            self.judge("words, taken or refused", NO_WORDS if mine is None else NO_FILE, {"the program": ended})

    def compare(self) -> None:
        self.words()
        if len(self.text) > MOST_TEXT:
            self.counts["left out: a long text"] += 1
            return
        found = self.program.run(self.text, *self.draw.choice(SCHEDULES))
        if found[2] is not None and len(found[2]) > MOST_FILE:
            self.counts["left out: a long file"] += 1
            return
        verdict = self.definitions.verdict(self.text)
        if isinstance(verdict, Fault):
            self.judge("fault of a text", self.score_line(verdict), {"the program": found})
            return
        played = self.definitions.played(verdict)
        mine = self.definitions.file_of(played)
        events, end = score_model.played(self.text)
        model = score_model.file_of(events, end, *score_model.profile(self.text))
        self.judge("file", (0, b"", mine), {"the program": found, "tools/score_model": (0, b"", model)})
        tracks = {"the program": (found[2] or b"")[HEAD:], "tools/score_model": model[HEAD:]}
        self.judge("track", self.definitions.track_of(played), tracks)
        resolved = plain_values.model_score(score_model, self.text)
        self.judge("resolved score", plain_values.score(played.resolved), {"tools/score_model": resolved})
        marks = plain_values.model_marks(score_model, self.text)
        self.judge("played marks", plain_values.marks(played.performance.marks), {"tools/score_model": marks})
        self.lines(played, events)
        self.tokens()
        self.of_score(played, mine)
        if self.recorded:
            self.records(mine)

    def tokens(self) -> None:
        mine = [bytes(token.args[0].text).decode() for token in self.definitions.tokens_of(self.text)]
        self.judge("tokens", mine, {"tools/score_model": score_model.tokens(self.text)})

    def lines(self, played: Played, events: Any) -> None:
        mine = [(event.time, event.process, event.index, plain_values.message_of(event.msg)) for event in played.piece]
        self.judge("piece", mine, {"tools/score_model": [(*front, bytes(message)) for *front, message in events]})
        lines = [[[(event.time, plain_values.message_of(event.msg)) for event in line.events], list(line.predecessors),
                  line.end] for line in played.lines]
        self.judge("lines", lines, {"tools/score_model": score_model.lines(self.text)})

    def of_score(self, played: Played, file: bytes) -> None:
        program, definitions, draw = self.program, self.definitions, self.draw
        self.judge("tracks", (0, b"", definitions.parts_of_score(played)), {"the program": program.run(self.text, "--parts")})
        begin, until = sorted(draw.randrange(played.end + 2) for _ in range(2)) if draw.randrange(4) else (played.end, 0)
        stop = draw.choice((None, until, until))
        if sum(1 for _ in played.piece) <= (MOST_EVENTS if self.recorded else FEW_EVENTS):
            words = ["--from", str(begin)] + ([] if stop is None else ["--to", str(stop)])
            excerpt = definitions.excerpt_of(played, begin, stop)
            self.judge("excerpt", (0, b"", excerpt), {"the program": program.run(self.text, *words)})
        else:
            self.counts["left out: an excerpt of many events"] += 1
        process = draw.randrange(sum(1 for _ in played.lines) + (draw.randrange(8) == 0))
        tick = draw.choice((0, played.end, draw.randrange(played.end + 1), draw.randrange(2 * played.end + 2)))
        line = definitions.position_line(played.score, process, tick)
        located = score_model.located(self.text, tick, process)
        mine: End = self.line_of("NoProcess") if line is None else (0, line, None)
        model: End = self.line_of("NoProcess") if located is None else (0, located.encode() + b"\n", None)
        found = program.run(self.text, "--locate", str(tick), "--process", str(process))
        self.judge("position", mine, {"the program": found, "tools/score_model": model})
        self.listing("listing", file)
        self.listing("listing of a changed file", self.changed(file))

    def listing(self, product: str, data: bytes) -> None:
        listing = self.definitions.listing_of(data)
        mine: End = (0, b"", listing) if isinstance(listing, bytes) else self.line_of("File", *listing)
        self.judge(product, mine, {"the program": self.program.run(data, "--list")})

    def changed(self, data: bytes) -> bytes:
        """The bytes with one of them changed, left out, doubled or taken for the end."""
        place, way = self.draw.randrange(len(data)), self.draw.randrange(4)
        if way == 0:
            return data[:place] + bytes([data[place] ^ 1 << self.draw.randrange(8)]) + data[place + 1:]
        return data[:place] if way == 1 else data[:place + (way == 2)] + data[place + (way == 3):]

    def records(self, file: bytes) -> None:
        draw, text = self.draw, self.text
        workers, room = draw.choice((1, 2, 3, 8, 16)), draw.choice((1, 2, 7, 64))
        lead = draw.choice((0, 100, 7680, 1_000_000))
        words = ["--workers", str(workers), "--room", str(room), "--lead", str(lead)]
        status, said, record = self.program.run(text, "--record", *words)
        if record is None or (status, said) != (0, b""):
            self.differ.append(f"{self.name}: no record: status {status}")
            return
        head = self.definitions.head_of(workers, room, lead, text)
        self.judge("head of a record", head, {"the program": record[:len(head)]})
        before = self.definitions.steps
        self.judge("record", self.definitions.audit(record), {"the program": file})
        self.counts["steps of records"] += self.definitions.steps - before
        place = draw.randrange(14) if draw.randrange(4) == 0 else 14 + len(text)
        place = draw.randrange(place, len(record))
        data = record[:place] + self.changed(record[place:])
        mine = self.definitions.audit(data)
        if isinstance(mine, bytes):
            answer: End = 0, b"", mine
        else:
            answer = self.score_line(mine) if isinstance(mine, Fault) else self.line_of("Record", *mine)
        self.judge("changed record", answer, {"the program": self.program.run(data, "--audit")})
