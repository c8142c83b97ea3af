"""What a changed definition is tried on where no row finds the change: examples, texts of scripts/stress fuzz, texts on
both sides of the grammar's limits, words at random, and the texts and words of rows. Each text passes through stages, from
bytes to the file. Of each stage that uses the definition the outcome is compared with what it was, for what went in
before."""
from __future__ import annotations

import gc
import glob
import os
import random
import sys
import time
from collections import Counter
from collections.abc import Callable, Iterator
from dataclasses import dataclass
from types import FrameType
from typing import Any

from beside import command_line, words_drawn
from forms import form_of
from limits import TooLong, within
from products import Definitions
from repository import Repository
from rows import TOP
from values import Record, forget, listed

sys.path += [os.path.join(TOP, "tools"), os.path.join(TOP, "tools", "stress")]
from bent import Texts  # noqa: E402

# Longer texts are left out, and those of which a stage takes more than so many seconds.
MOST_TEXT, MOST_SECONDS = 3_000, 2.0
# Of the limits in a text that is about them, so that it is short: braces and tokens.
FEW_BRACES, FEW_TOKENS = 2, 7


# ---- texts at limits

# Statements with a block, and with an expression, and expressions with how many tokens they have.
BLOCKS = ("if 1 { }", "if 1 { } else { }", "if 1 { } else { skip; }", "repeat 2 { }", "repeat (1) max 2 { }", "warp w { }",
          "channel 1 { }", "volume 1 { }", "gate 1 { }", "rhythm [1/4] { }", "artic [1] { }", "loud [1] { }",
          "par { branch { } }", "par { branch { } branch { } }", "par { branch { } branch { skip; } branch { } }",
          "channel 1 { skip; channel 2 { } }", "if 1 { } else { channel 1 { } }",
          "par { branch { } branch { channel 1 { } } }", "par { branch { } branch { } branch { channel 1 { } } }")
EXPRESSIONS = ("set r0 = X;", "if X { }", "repeat (X) max 2 { }", "note key (X) 1/4;", "note c4, key (X) 1/4;",
               "note c4, d4, key (X) 1/4;", "play key (X);", "play c4, key (X);", "note c4 ticks (X) max 5;",
               "rest ticks (X) max 5;", "control 7 (X);", "program (X);", "bend (X);", "if 1 { set r0 = X; }",
               "if X { } else { }", "set r1 = 1; set r0 = X;")
FACTORS = (("1", 1), ("r0", 1), ("n0", 1), ("(1)", 3), ("pick(1)", 4), ("min(1, 1)", 6), ("1 * 1", 3), ("1 + 1", 3),
           ("1 * 1 * 1", 5), ("1 + 1 + 1", 5), ("1 + 1 * 1", 5), ("1 * 1 + 1", 5), ("(1 + 1)", 5), ("pick(1 + 1)", 6),
           ("max(1 + 1, 1)", 8), ("less(1, 1 * 1)", 8), ("same(1, 1)", 6), ("1 / 1 - 1 % 1", 7))


def texts_at(braces: int, tokens: int) -> Iterator[tuple[str, bytes]]:
    """Texts on both sides of limits: how many braces are open, and how many tokens an expression has."""
    for block in BLOCKS:
        for depth in range(max(0, braces - 3), braces + 1):
            text = f"formula 1; shape w = pause 1/8; {'channel 1 { ' * depth}{block}{' }' * depth}"
            yield f"{block} in {depth} blocks", text.encode()
        yield f"phrase p {{ {block} }}", f"formula 1; shape w = pause 1/8; phrase p {{ {block} }}".encode()
    for statement in EXPRESSIONS:
        for factor, count in FACTORS:
            for size in range(max(count, tokens), max(count, tokens) + 2):
                expression = "-" * (size - count) + factor
                text = f"formula 1; repeat 1 {{ {statement.replace('X', expression)} }}"
                yield f"{statement} with {size} tokens, {factor} at the end", text.encode()


def words_at() -> Iterator[tuple[str, list[bytes]]]:
    """The words of each option at both ends of its range, and beside them."""
    for option, (low, high) in command_line.RANGES.items():
        for number in (max(0, low - 1), low, high, high + 1):
            yield f"{option} {number}", [b"a", b"b", option.encode(), str(number).encode()]


# ---- stages

def spelt(definitions: Definitions, known: dict[str, Any]) -> Any:
    """Whether the form spells the tokens within the limits."""
    form = known["form"]
    if form is None or definitions.score_text(form) != known["tokens"]:
        return False
    return (bool(definitions.EntriesWithin(definitions.limits(), form.entries))
            and bool(definitions.DivisionStands(form.version, form.divided)))


def few(definitions: Definitions, known: dict[str, Any]) -> Any:
    """Whether the table goes on, and the form is within, where few braces and tokens are allowed."""
    most = Record(braces=FEW_BRACES, tokens=FEW_TOKENS)
    tokens, form = known["tokens"], known["form"]
    goes = definitions.trip(most, 0, definitions.whole(definitions.is_divided(tokens)), tokens).tag == "None"
    return goes, form is not None and bool(definitions.EntriesWithin(most, form.entries))


def file_of(definitions: Definitions, known: dict[str, Any]) -> Any:
    return bytes(definitions.file(definitions.profile_of(known["score"]), known["piece"], known["marks"].after.position))


STAGES: dict[str, Callable[[Definitions, dict[str, Any]], Any]] = {
    "tokens": lambda definitions, known: definitions.tokens(listed(known["text"])),
    "trips": lambda definitions, known: definitions.first_fault(known["tokens"]),
    "few": few,
    "spelt": spelt,
    "grammar": lambda definitions, known: definitions.grammar_fault(known["trips"].args[0]),
    "score": lambda definitions, known: definitions.score_tree(known["form"]),
    "faults": lambda definitions, known: definitions.first_found(definitions.score_faults(known["score"])),
    "resolved": lambda definitions, known: definitions.resolved(known["score"]),
    "marks": lambda definitions, known: definitions.score_plays(known["resolved"]),
    "lines": lambda definitions, known: definitions.played_lines(known["resolved"]),
    "piece": lambda definitions, known: definitions.piece(known["lines"]),
    "file": file_of,
    "words": lambda definitions, known: definitions.settings_of(known["words"]),
}


def stages_of(known: dict[str, Any]) -> Iterator[str]:
    """The stages of a text in turn, as long as something comes of them."""
    yield "tokens"
    known["form"] = form_of(known["tokens"])
    yield "trips"
    yield "spelt"
    if known["trips"].tag == "Some":
        yield "grammar"
        return
    yield "score"
    yield "faults"
    if known["faults"].tag == "None":
        yield from ("resolved", "marks", "lines", "piece", "file")


@dataclass
class Part:
    """A stage of a text, what goes in, what comes of it, and which definitions it uses."""

    name: str
    stage: str
    known: dict[str, Any]
    outcome: Any
    uses: set[str]
    seconds: float


class Scores:
    """The parts of all texts, on which changed definitions are tried."""

    def __init__(self, most: int, texts_of_rows: list[bytes], words_of_rows: list[list[bytes]]):
        self.definitions, self.most = Definitions(Repository(TOP)), most
        self.law: list[Part] = []
        self.parts: list[Part] = []
        for number, text in enumerate(texts_of_rows):
            stages = self.look_at(f"text {number} of a row", text, stages_of)
            self.law += [part for part in stages if part.stage == "spelt"]
        for words in words_of_rows:
            title = " ".join(word.decode("latin-1") for word in words)
            self.law.append(self.run(title, "words", {"words": words}))
        for name in sorted(glob.glob(f"{TOP}/examples/*/*.score")):
            with open(name, "rb") as file:
                self.parts += self.look_at(os.path.relpath(name, TOP), file.read(), stages_of)
        texts = Texts(1)
        for number in range(most):
            self.parts += self.look_at(f"text 1/{number}", texts.text(number)[0], stages_of)
            words = [word.encode() for word in words_drawn(random.Random(number))]
            self.parts.append(self.run(f"number {number}", "words", {"words": words}))
        for title, words in words_at():
            self.parts.append(self.run(title, "words", {"words": words}))
        for title, text in texts_at(FEW_BRACES, FEW_TOKENS):
            self.parts += self.look_at(title, text, stages_of)
            self.parts += self.look_at(f"{title}, of few", text, stages_of_few)
        # what stays is not gone through again: that takes longer than most parts may
        gc.collect()
        gc.freeze()

    def look_at(self, name: str, text: bytes, stages: Callable[[dict[str, Any]], Iterator[str]]) -> list[Part]:
        if len(text) > MOST_TEXT:
            return []
        known: dict[str, Any] = {"text": text}
        found: list[Part] = []
        try:
            for stage in stages(known):
                part = self.run(name, stage, known)
                known[stage] = part.outcome
                found.append(part)
        except (TooLong, RecursionError):
            pass
        return found

    def run(self, name: str, stage: str, known: dict[str, Any]) -> Part:
        forget()
        uses: set[str] = set()

        def called(frame: FrameType, event: str, argument: Any) -> None:
            if event == "call" and frame.f_code.co_filename == "<definitions>":
                uses.add(frame.f_code.co_name)
        begin = time.process_time()
        within(MOST_SECONDS)
        sys.setprofile(called)
        try:
            outcome = STAGES[stage](self.definitions, known)
        finally:
            sys.setprofile(None)
            within(0)
        return Part(f"{stage} of {name}", stage, known, outcome, uses, time.process_time() - begin)

    def differs(self, part: Part) -> bool:
        forget()
        within(3 + 20 * part.seconds)
        try:
            return not STAGES[part.stage](self.definitions, part.known) == part.outcome
        except Exception:  # noqa: BLE001, what does not compute is another outcome
            return True
        finally:
            within(0)

    def found_by(self, name: str, parts: list[Part]) -> str | None:
        """The first of these parts of which something else comes, where the definition of this name was changed."""
        tried: Counter[str] = Counter()
        using = (candidate for candidate in parts if name in candidate.uses)
        for part in sorted(using, key=lambda candidate: candidate.seconds):
            tried[part.stage] += 1
            # texts with few braces and tokens are all tried: each is about one limit
            if (part.stage == "few" or tried[part.stage] <= self.most) and self.differs(part):
                return part.name
        return None


def stages_of_few(known: dict[str, Any]) -> Iterator[str]:
    yield "tokens"
    known["form"] = form_of(known["tokens"])
    yield "few"
