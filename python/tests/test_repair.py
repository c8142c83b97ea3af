"""Explanations of refused texts: each row's example, the judged texts, the words, far places, time and odd texts."""

from __future__ import annotations

import importlib
import json
import pathlib
import re
import sys
import time
import unittest
from typing import Iterator, NamedTuple, Optional

from formula_score.explaining.explain import place_of, position
from formula_score.language.grammar import KEYWORDS
from formula_score.language.judging import first_fault
from formula_score.language.tokens import tokens
from formula_score.repair import Told, told
from formula_score.repair.row import Row
from formula_score.repair.rows import FACTS, ROWS
from formula_score.repair.sentences import LINE
from formula_score.repair.spot import Spot
from formula_score.repair.telling import PERHAPS
from formula_score.repair.ways import ways_of

from .program import TOP, needs_program, run

sys.path.append(str(TOP / "tools" / "pages"))
VAGUE: dict[str, str] = importlib.import_module("plain").VAGUE
JUDGED = pathlib.Path(__file__).parent / "judged.jsonl"
#: How many faults of a text are followed, and how many ways of each.
FAULTS, WAYS = 6, 3


def words(data: bytes) -> tuple[str, ...]:
    """The tokens of a text; the name of a shape that was made up counts as any."""
    return tuple(re.sub(r"^tempo_[0-9]+$", "tempo", token.text) for token in tokens(data.decode("latin-1")))


def explained(data: bytes) -> Optional[Told]:
    """What is told of the first fault of a text; None where it has none of the first eight."""
    fault = first_fault(data.decode("latin-1"))
    return told(data, *position(data, fault.place), fault.number) if fault else None


def leads_to(data: bytes, rights: set[tuple[str, ...]]) -> bool:
    """Whether one who follows what is told, fault by fault, comes to one of these texts."""
    texts = [data]
    for _ in range(FAULTS):
        found = [explained(text) for text in texts]
        texts = [text for each in found if each for text in each.texts][:WAYS]
        if any(words(text) in rights for text in texts):
            return True
    return False


class Judged(NamedTuple):
    """A text with what is right in place of one of its lines, perhaps nothing; and how the answer was judged.

    `change` leads to a right text. Else the verdict is how sure the cure is: `write`, `if`, `fact`, `form`, or `none`.
    No row was written for what is not `tuned`.
    """

    name: str
    kind: str
    tuned: bool
    text: str
    line: int
    right: list[str]
    verdict: str

    def rights(self) -> set[tuple[str, ...]]:
        """The tokens of the texts that are right."""
        lines = self.text.split("\n")
        whole = ("\n".join([*lines[:self.line - 1], right, *lines[self.line:]]) for right in self.right)
        return {words(text.encode()) for text in whole}


def judged() -> Iterator[Judged]:
    """The judged texts."""
    for line in JUDGED.read_text(encoding="utf-8").splitlines():
        yield Judged(**json.loads(line))


def verdict_of(case: Judged) -> str:
    """How the engine answers a judged text."""
    data = case.text.encode()
    if leads_to(data, case.rights()):
        return "change"
    found = explained(data)
    return found.strength if found else "none"


def example(row: Row, text: str) -> bytes:
    """An example of a row as a whole text."""
    return (text if "formula" in (row.right or row.wrote) else f"formula 1; {text}").encode()


class Rows(unittest.TestCase):
    def test_there_are_not_too_many(self) -> None:
        self.assertLessEqual(len(ROWS) + len(FACTS), 350)
        for table in (ROWS, FACTS):
            self.assertEqual(len({row.name for row in table}), len(table))

    def test_each_example_is_mended_by_its_row(self) -> None:
        for row in ROWS:
            data, right = example(row, row.wrote), words(example(row, row.right))
            found = explained(data)
            assert found is not None, row.name
            self.assertIn(right, [words(text) for text in found.texts], row.name)
            fault = first_fault(data.decode("latin-1"))
            assert fault is not None
            ways = [way for way in ways_of(Spot(data, fault.place), ROWS, PERHAPS) if words(way.data) == right]
            self.assertIn(row.name, [edit.row.name for edit in ways[0].repair.edits], row.name)

    @needs_program
    def test_the_program_accepts_each_mended_example(self) -> None:
        for row in ROWS:
            status, said, _ = run(example(row, row.right).decode())
            place = place_of(said)
            self.assertTrue(status == 0 or place and place.number > 8, f"{row.name}: {said}")

    def test_each_fact_is_told_of_its_example(self) -> None:
        for row in FACTS:
            found = explained(example(row, row.wrote))
            match = row.look.search(row.wrote)
            assert found is not None and match is not None, row.name
            self.assertEqual((found.strength, found.cure), ("fact", row.written(match)), row.name)


class Texts(unittest.TestCase):
    def test_a_third_was_never_used_for_rows(self) -> None:
        tuned = [case.tuned for case in judged()]
        self.assertLessEqual(len(tuned), 600)
        self.assertGreaterEqual(3 * tuned.count(False), len(tuned))

    def test_each_verdict_is_as_it_was_judged(self) -> None:
        for case in judged():
            self.assertEqual(verdict_of(case), case.verdict, f"{case.name}: {case.text[:200]}")

    def test_each_sentence_has_its_form(self) -> None:
        for case in judged():
            found = explained(case.text.encode())
            for text in (found.heading, found.cure) if found else ():
                plain = re.sub(r"`[^`]*`", "``", text)
                for pattern in (*VAGUE, "behind", "told to"):
                    self.assertIsNone(re.search(rf"\b{pattern}\b", plain), text)
                for line in text.split("\n"):
                    self.assertLessEqual(len(line), LINE, text)
            if found and found.strength == "write":
                self.assertEqual(len(re.findall(r"\b(?:write|take|did you mean)\b", plain)), 1, found.cure)

    @needs_program
    def test_the_program_refuses_them_at_the_same_place(self) -> None:
        for case in judged():
            place, fault = place_of(run(case.text)[1]), first_fault(case.text.encode().decode("latin-1"))
            if place and place.number < 9 and fault:
                self.assertEqual((*position(case.text.encode(), fault.place), fault.number), place, case.name)


class Guards(unittest.TestCase):
    def test_a_stretch_is_never_written_from_beats_without_both_readings(self) -> None:
        for part in ("flat 16/1 96", "flat 16/1 at 96", "flat 16/1, 96", "flat 16/1 = 96", "flat 16/1 by 96bpm",
                     "flat 16/1 by .96", "flat 16/1 (96)", "slope 4/1 96 to 120", "slope 4/1 by 96 120"):
            found = explained(f"formula 1; shape slow = {part}; warp slow {{ note c4 1/1; }}".encode())
            assert found is not None
            self.assertNotEqual(found.strength, "write", found.cure)
            if re.search(r"\bby 96\b", found.cure):
                self.assertIn("1250", found.cure)

    def test_what_moves_a_length_or_an_octave_far_has_a_condition(self) -> None:
        for text in ("note c4 4;", "note c4 8/1/4;", "note c' 1/4;", "note G, 1/4;", "note c 1/4;", "rest 16;", "note bisis3 1/4;"):
            found = explained(f"formula 1; {text}".encode())
            assert found is not None
            self.assertNotEqual(found.strength, "write", found.cure)


class FarPlaces(unittest.TestCase):
    def test_a_play_in_a_phrase_is_named_by_its_line(self) -> None:
        text = b"formula 1;\nphrase a {\n  note c4 1/4;\n  play c4;\n}\nphrase b { do a; }\ndo b;\n"
        found = told(text, 7, 1, 10)
        assert found is not None
        self.assertIn("`play` on line 4", found.cure)

    def test_a_line_that_is_not_set_in_ends_a_block(self) -> None:
        text = b"formula 1;\nrepeat 2 {\n  note c4 1/4;\nnote d4 1/4;\nrepeat 3 {\n  note e4 1/4;\n}\n"
        found = explained(text)
        assert found is not None
        self.assertEqual(found.cure, "the `{` of `repeat 2` (line 2, column 10) has no `}`: write it before line 4")
        self.assertIsNone(first_fault(found.texts[0].decode()))

    def test_a_missing_brace_is_that_of_its_block(self) -> None:
        count = {(kind, own): 0 for kind in (True, False) for own in (True, False)}
        for path in sorted(TOP.glob("examples/*/*.score")):
            data = path.read_bytes()
            if len(data) < 20_000 and first_fault(data.decode("latin-1")) is None:
                for kind, own in self.tried(data):
                    count[kind, own] += 1
        self.assertGreaterEqual(count[True, True], 0.95 * (count[True, True] + count[True, False]), count)
        self.assertGreaterEqual(count[False, True], 0.60 * (count[False, True] + count[False, False]), count)

    def tried(self, data: bytes) -> Iterator[tuple[bool, bool]]:
        """Each `}` taken away in turn: whether it is on a line of its own, and whether its own `{` is named."""
        begun: list[int] = []
        for mark in re.finditer(rb"#[^\n]*|[{}]", data):
            if mark[0] == b"{":
                begun.append(mark.start())
            elif mark[0] == b"}":
                brace, at = begun.pop(), mark.start()
                found = explained(data[:at] + b" " + data[at + 1:])
                if found:
                    line, column = position(data, brace)
                    is_alone = not data[data.rfind(b"\n", 0, at) + 1:at].strip()
                    yield is_alone, f"(line {line}, column {column})" in found.cure


class Time(unittest.TestCase):
    """Three times what scripts/bench wants of an idle machine."""

    NOTE = b"note c4, e4 1/4; "

    def within(self, data: bytes, place: int, number: int, seconds: float) -> None:
        line, column = position(data, place)
        begun = time.process_time()
        found = told(data, line, column, number)
        self.assertLess(time.process_time() - begun, 3 * seconds)
        self.assertTrue(found and found.cure)

    def test_large_texts_are_explained_in_time(self) -> None:
        explained(b"formula 1; not c4 1/4;")
        whole = b"formula 1; " + self.NOTE * ((1 << 20) // len(self.NOTE) - 3)
        self.within(whole + b"note fis4 1/4;", len(whole) + 5, 3, 0.2)
        lines = whole.replace(b"; ", b";\n")
        self.within(lines + b"repeat 2 { note c4 1/4;", len(lines) + 23, 3, 0.2)
        small = b"formula 1; " + self.NOTE * 58
        self.within(small + b"note fis4 1/4;", len(small) + 5, 3, 0.02)
        long = b"formula 1; note " + b"c4, " * 8000
        self.within(long + b"fis4 1/4;", len(long), 3, 1)

    def test_odd_texts_end_in_a_sentence(self) -> None:
        odd = (b"", b"\xff\xfe\x00", b"formula 1; note \xff 1/4;", b"x" * (1 << 20), b"formula 1; {{{{", b"formula",
               b"formula 1; " + b"if r0 { " * 63 + b"oops", b"formula 1; " + b"note h4 1/4; " * 20_000,
               b"formula 1; note c4 1/4;\x00")
        for data in odd:
            found = explained(data)
            self.assertTrue(found and found.cure, data[:40])


class Editors(unittest.TestCase):
    def test_their_words_are_those_of_the_grammar(self) -> None:
        pages = (TOP / "editors" / "vim" / "syntax" / "formula.vim", TOP / "editors" / "vscode" / "syntaxes" /
                 "formula.tmLanguage.json")
        for page in pages:
            text = page.read_text(encoding="utf-8")
            for word in KEYWORDS:
                self.assertRegex(text.replace("\\b", " "), rf"\b{word}\b", page.name)


if __name__ == "__main__":
    unittest.main()
