"""Notation out: what is printed against what the program plays, and what other programs play of it; signs by hand.

A part of what scripts/stress notation compares is tried here, with MuseScore 3, abc2midi and abcm2ps where they are here.
"""

from __future__ import annotations

import importlib
import pathlib
import re
import shutil
import sys
import tempfile
import time
import unittest
from fractions import Fraction
from typing import Any, Optional
from unittest import mock

from formula_score import CommandError, Score, ScoreError, note, repeat
from formula_score.notation import paper
from formula_score.notation.abc_text import abc_of
from formula_score.notation.musicxml import musicxml_of
from formula_score.notation.piece import Piece, piece_of
from formula_score.reading.branches import Titles
from formula_score.reading.meter import Meter, groups_of
from formula_score.reading.playing import Failed
from formula_score.reading.reader import read
from formula_score.reading.walk import Played

from .companion import Answer, score
from .program import TOP, needs_program

sys.path[:0] = [str(TOP / "tools"), str(TOP / "tools" / "stress")]
stress: Any = importlib.import_module("sheets")
harness: Any = importlib.import_module("harness")

#: What is tried by the others, and how many random texts are.
TRIED = "breath_and_pause", "controls", "legato_line", "melody", "8_end"
RANDOM, ROUND, IMPORTS = 4, 6, 2
#: Repeats with endings for two rounds and one, without any, one behind another, and with an ending for each round.
LOOPS = """formula 1;
repeat 3 { note c4 1/1; note d4 1/1; if less(n0, 2) { note e4 1/1; } else { note f4 1/1; } }
repeat 4 { note g4 1/2; note a4 1/2; } repeat 2 { note b4 1/1; } repeat 2 { note a4 1/1; }
repeat 3 { note c5 2/1; if less(n0, 1) { note d5 1/1; } else { if less(n0, 2) { note e5 1/1; } else { note f5 1/1; } } }
note c4 1/1;
"""


def piece(text: str, meter: str = "4/4") -> Piece:
    """The piece of a text."""
    walk = Played(read(f"formula 1; {text}".encode()))
    walk.run()
    return piece_of(walk, Meter(groups_of(meter), Fraction(0), walk.reading.whole), Titles("x"))


def abc(text: str, meter: str = "4/4") -> str:
    """The voices of a text as ABC, without the lines before them."""
    lines = abc_of(piece(text, meter)).partition("\nK:")[2].splitlines()[1:]
    return "\n".join(line for line in lines if not line.startswith(("V:", "%%")))


def exported(text: str, suffix: str, *words: object, verb: str = "export") -> tuple[Answer, Optional[str]]:
    """What a verb answers, and the file that it wrote."""
    with tempfile.TemporaryDirectory() as folder:
        source, target = pathlib.Path(folder, "in.score"), pathlib.Path(folder, f"out{suffix}")
        source.write_text(text)
        answer = score(verb, source, target, *words)
        return answer, target.read_text() if target.exists() else None


@needs_program
class Others(unittest.TestCase):
    """MuseScore and abc2midi play each note where it is printed, which is where the program plays it without shapes."""

    def tried(self, texts: list[Any]) -> None:
        """Tries texts as scripts/stress does."""
        lacking = [name for name in ("musescore3", "abc2midi", "abcm2ps") if not shutil.which(name)]
        count = harness.Count()
        for text in texts:
            stress.tried(text, count, stress.Counter())
        self.assertEqual(count.failed, 0)
        if lacking:
            self.skipTest(f"NOT TRIED: apt-get install {' '.join(lacking)}")

    def test_examples_are_played_as_printed(self) -> None:
        self.tried([text for text in stress.own_texts() if text.name in TRIED])

    def test_random_texts_with_tuplets_are_played_as_printed(self) -> None:
        self.tried([stress.random_text(seed) for seed in range(1, RANDOM + 1)])

    def test_scores_of_midi_files_are_played_as_printed(self) -> None:
        texts = list(stress.imports(IMPORTS))
        if len(texts) < IMPORTS:
            packages = " ".join(importlib.import_module("foreign").BEFORE)
            self.skipTest(f"NOT TRIED: there are no foreign files here (apt-get install {packages})")
        self.tried(texts)

    def test_repeats_with_endings_are_played_as_printed(self) -> None:
        self.tried([stress.Text("loops", LOOPS.encode(), is_plain=True)])

    def test_what_is_written_as_musicxml_comes_back(self) -> None:
        count = harness.Count()
        loops = stress.Text("loops", LOOPS.encode())
        for text in [loops, *stress.own_texts(), *(stress.random_text(seed) for seed in range(1, ROUND + 1))]:
            stress.came_back(text, count, stress.Counter())
        self.assertEqual(count.failed, 0)


class Signs(unittest.TestCase):
    """Each line was written by hand."""

    def test_notes_are_tied_at_bar_lines_and_beats(self) -> None:
        self.assertEqual(abc("note c4 3/4; note d4 1/2; note e4 1/8; note f4 1/2; note g4 1/8; note c5 1/1;"),
                         "C6 D2- | D2 EF- F3 G | c8 |]")

    def test_tuplets_have_brackets(self) -> None:
        text = "note c4 1/12; note d4 1/12; note e4 1/12; note f4 1/4; note g4 1/20; note a4 1/5; note b4 1/4;"
        self.assertEqual(abc(text), "(3:2:3CDE F2 (5:4:2G/A2 B2 |]")

    def test_voices_have_rests_where_they_sound_and_none_where_they_are_silent(self) -> None:
        text = ("par { branch { note c5 2/1; } branch { rest 1/2; note e4 1/4; } }")
        self.assertEqual(abc(text), "c8- | c8 |]\nz4 E2 z2 | x8 |]")
        self.assertEqual(musicxml_of(piece(text)).count("<rest/>"), 2)

    def test_loops_of_whole_bars_are_repeats(self) -> None:
        self.assertEqual(abc("repeat 2 { note c4 1/1; } note d4 1/1;"), "|:C8 :| D8 |]")
        self.assertEqual(abc("note d4 1/1; repeat 2 { note c4 1/1; }"), "D8 |: C8 :|")
        # a loop that is no whole bars, one over which a note sounds, one of which one staff alone has the same
        for text in ("repeat 2 { note c4 3/4; }", "note d4 1/2; repeat 2 { note c4 1/1; }",
                     "par { branch { repeat 2 { note c4 1/1; } } branch { channel 1 { note c5 1/1; note d5 1/1; } } }"):
            self.assertNotIn(":|", abc(text), text)

    def test_rounds_that_end_otherwise_are_endings(self) -> None:
        self.assertEqual(abc("repeat 2 { note c4 1/1; if less(n0, 1) { note d4 1/1; } else { note e4 1/1; } }"),
                         "|:C8 | [1 D8 :| [2 E8 |]")
        found = musicxml_of(piece("repeat 3 { note c4 1/1; if less(n0, 2) { note d4 1/1; } else { note e4 1/1; } }"))
        self.assertEqual(re.findall(r'<ending number="[^"]*" type="[a-z]*"/>', found),
                         ['<ending number="1,2" type="start"/>', '<ending number="1,2" type="stop"/>',
                          '<ending number="3" type="start"/>', '<ending number="3" type="discontinue"/>'])

    def test_a_gate_of_100_and_more_is_a_slur_and_50_is_staccato(self) -> None:
        self.assertEqual(abc("gate 100 { note c4 1/4; note d4 1/4; } note e4 1/4; gate 50 { note f4 1/4; }"),
                         "(C2 D2) E2 .F2 |]")
        self.assertEqual(abc("gate 120 { note c4 1/4; rest 1/4; note d4 1/4; note e4 1/4; }"), "C2 z2 (D2 E2) |]")

    def test_a_slope_is_a_word_with_its_end_and_a_pause_a_fermata(self) -> None:
        text = ("shape end = flat 1/1 by 1000, slope 1/2 by 1000 to 2000, flat 1/4 by 2000, pause 1/1, "
                "flat 1/4 by 2000; warp end { note c4 1/1; note d4 1/2; note e4 1/2; }")
        self.assertEqual(abc(text), 'C8 | "^rit."D4 [Q:1/4=60]!fermata!E4 |]')

    def test_loudness_is_dynamics_hairpins_and_accents(self) -> None:
        self.assertEqual(abc("loud [50, 60, 70, 80] { note c4 1/4; note d4 1/4; note e4 1/4; note f4 1/4; }"),
                         "!p!!crescendo(!C2 D2 E2 !crescendo)!!mf!F2 |]")
        self.assertEqual(abc("volume 64 { note c4 1/4; volume 100 { note d4 1/4; } note e4 1/4; note f4 1/4; }"),
                         "!mp!C2 !accent!D2 E2 F2 |]")

    def test_what_no_value_says_is_moved_and_counted(self) -> None:
        text = "note c4 ticks 479; note d4 ticks 481; control 7 100; gate 200 { note e4 1/4; note f4 1/4; }"
        self.assertEqual({what: number for what, number in piece(text).sheet.unsaid.items() if number},
                         {"notes moved, by at most 1 tick": 2, "control changes": 1,
                          "gates above 100, as long as written": 2})


class Files(unittest.TestCase):
    @needs_program
    def test_each_file_says_who_made_it_and_what_it_is_called(self) -> None:
        text = "# title: Night & Day\n# composer: A. B.\nformula 1; program 73; note bb4 1/1;\n"
        for suffix, wanted in ((".abc", ("T:Night & Day", "C:A. B.", 'name="flute"', "K:F\n", "B8 |]")),
                               (".musicxml", ("Night &amp; Day", '<creator type="composer">A. B.', "<part-name>flute<",
                                              "<step>B</step><alter>-1</alter>"))):
            answer, found = exported(text, suffix)
            self.assertEqual(answer.status, 0)
            for words in (*wanted, "made by formula-score, outside the proof of formula"):
                self.assertIn(words, found or "")

    @needs_program
    def test_what_is_no_piece_for_paper_is_refused_and_nothing_is_written(self) -> None:
        for text in ("formula 1; rest 1/1;", "formula 1; repeat 10001 { note c4 1/1; }"):
            answer, found = exported(text, ".abc")
            self.assertEqual((answer.status, answer.said, found), (1, "", None))
        with mock.patch("formula_score.reading.walk.Played.events", lambda _: []):
            answer, found = exported("formula 1; note c4 1/1;", ".musicxml")
        self.assertEqual((answer.status, found), (1, None))
        self.assertIn("otherwise than the program plays it", answer.complaint)

    @needs_program
    def test_25000_notes_take_five_seconds_of_a_processor_at_most(self) -> None:
        notes = ("note c4 1/8; note d4 1/16; note e4 1/16; note key (60 + n0 % 12) 1/4; note f4 1/12; note g4 1/12; "
                 "note a4 1/12; note b4 1/4; note c5 1/16; note c4 3/16;")
        text = f"formula 1; par {{ {' '.join(f'branch {{ channel {at} {{ repeat 625 {{ {notes} }} }} }}' for at in range(4))} }}"
        begun = time.process_time()
        answer, _ = exported(text, ".musicxml")
        self.assertEqual(answer.status, 0)
        self.assertLess(time.process_time() - begun, 5)

    @needs_program
    def test_a_score_of_the_library_writes_itself(self) -> None:
        with tempfile.TemporaryDirectory() as folder:
            path = pathlib.Path(folder, "x.abc")
            said = Score(repeat(2, note("c4", "3/4"))).notation(path, meter="3/4", title="A")
            self.assertIn("|:C6 :|", path.read_text())
            self.assertIn("2 bars, 1 staff", said)
            self.assertRaises(ScoreError, Score(note("c4", "1/4")).notation, path, meter="three")
            self.assertRaises(CommandError, Score(note("c4", "1/4")).notation, pathlib.Path(folder, "x.png"))


class Print(unittest.TestCase):
    @needs_program
    def test_a_drawing_has_the_name_that_was_asked_for(self) -> None:
        programs = [name for name, needed in (("musescore3", ["musescore3"]), ("abcm2ps", ["abcm2ps", "ps2pdf"]))
                    if all(map(shutil.which, needed))]
        which = shutil.which
        for program in programs:
            hidden = "musescore3" if program == "abcm2ps" else ""
            for suffix, begins in ((".pdf", b"%PDF"), (".svg", b"<")):
                with tempfile.TemporaryDirectory() as folder, \
                        mock.patch("shutil.which", lambda name, *rest: None if name == hidden else which(name, *rest)):
                    source, target = pathlib.Path(folder, "in.score"), pathlib.Path(folder, f"out{suffix}")
                    source.write_text("formula 1; repeat 400 { note key (60 + n0 % 13) 1/1; }")
                    answer = score("print", source, target)
                    self.assertEqual(answer.status, 0, answer.complaint)
                    self.assertIn(f"drawn by {program}", answer.said)
                    self.assertTrue(target.read_bytes().lstrip().startswith(begins))
                    self.assertEqual(pathlib.Path(folder, "out-2.svg").exists(), suffix == ".svg")
        if len(programs) < 2:
            self.skipTest("NOT TRIED: apt-get install musescore3 abcm2ps ghostscript")

    def test_where_nothing_draws_the_package_is_named(self) -> None:
        with mock.patch("shutil.which", lambda _: None), self.assertRaises(Failed) as caught:
            paper.printed(piece("note c4 1/1;"), "x.pdf")
        self.assertIn("apt-get install musescore3", caught.exception.why)


if __name__ == "__main__":
    unittest.main()
