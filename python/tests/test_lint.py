"""The verb `lint`: silent on every example, and a finding for each thing that is hardly meant."""

from __future__ import annotations

import pathlib
import tempfile
import unittest

from formula_score.checks.lint import findings
from formula_score.checks.rules import RULES
from formula_score.reading.reader import read

from .companion import score
from .program import needs_program, run
from .test_reading import examples


@needs_program
class Rules(unittest.TestCase):
    def test_each_finds_its_example_and_its_change_mends_it(self) -> None:
        for rule in RULES:
            with self.subTest(rule.name):
                text = rule.text
                found = findings(read(text))
                self.assertEqual([(each.rule,
                                   f"{each.line}:{each.column}") for each in found], [(rule.name, rule.place)])
                self.assertEqual((bool(found[0].edits), run(text.decode())[0]), (rule.changes, 0))
                if rule.changes:
                    changed = found[0].changed(text)
                    self.assertEqual(run(changed.decode())[0], 0, changed)
                    self.assertNotIn(rule.name, [each.rule for each in findings(read(changed))], changed)

    def test_each_is_ignored_where_a_comment_says_so(self) -> None:
        for rule in RULES:
            if rule.name == "ignore-unknown":
                continue
            lines = rule.text.decode().split("\n")
            for at, comment in ((0, ""), (int(rule.place.split(":")[0]) - 1, "")):
                above = [*lines[:at], f"# lint: ignore {rule.name}{comment}", *lines[at:]]
                self.assertNotIn(rule.name, [each.rule for each in findings(read("\n".join(above).encode()))],
                                 rule.name)

    def test_names_are_none_twice(self) -> None:
        self.assertEqual(len({rule.name for rule in RULES}), len(RULES))


@needs_program
class Lint(unittest.TestCase):
    def found(self, text: str) -> list[str]:
        """What is found in a text: places and words."""
        with tempfile.TemporaryDirectory() as folder:
            path = pathlib.Path(folder, "tune.score")
            path.write_text("formula 1;\n" + text)
            answer = score("lint", path)
            self.assertEqual(answer.complaint, "")
            *lines, last = answer.said.replace(f"{path}:", "").splitlines()
            warnings = sum(": warning: " in line for line in lines)
            self.assertEqual(answer.status, 1 if warnings else 0)
            self.assertTrue(last.startswith(f"1 score: {warnings} warning"), last)
            return lines

    def finds(self, text: str, place: str, *words: str) -> None:
        lines = self.found(text)
        self.assertEqual([line.split(": ")[0] for line in lines], [place], lines)
        for word in words:
            self.assertIn(word, lines[0])

    def test_it_is_silent_on_every_example(self) -> None:
        for path in examples():
            answer = score("lint", path)
            self.assertEqual((answer.status, answer.said), (0, "1 score: 0 warnings, 0 remarks\n"), path)

    def test_branches_that_strike_one_key_while_it_sounds(self) -> None:
        voice = "note c4 1/4;"
        self.finds(f"par {{\n  branch {{ {voice} }}\n  branch {{ {voice} }}\n}}", "2:1",
                   "branches 1 and 2 (lines 3 and 4) strike key 60 of channel 0")
        self.finds(f"par {{ branch {{ channel 2 {{ {voice} }} }} branch {{ rest 1/4; }}"
                   f"branch {{ par {{ branch {{ channel 2 {{ {voice} }} }} }} }} }}", "2:1", "branches 1 and 3")
        late = "gate 100 { note c4 1/4; }"
        # the first branch's note-on comes before the second one's note-off of its tick, and not the other way round
        self.finds(f"par {{ branch {{ rest 1/4; {late} }} branch {{ {late} }} }}", "2:1", "branches 1 and 2")
        self.assertEqual(self.found(f"par {{ branch {{ {late} }} branch {{ rest 1/4; {late} }} }}"), [])
        self.assertEqual(self.found(f"par {{ branch {{ {voice} }} branch {{ program 5; rest 1/4; {voice} note d4 1/4; "
                                    f"}}branch {{ channel 1 {{ {voice} }} }} }} {voice}"), [])

    def test_lists_of_velocities_that_do_not_fit(self) -> None:
        notes = "note c4 1/4; " * 4
        self.finds(f"loud [60, 70, 80, 90, 100] {{ {notes} }}", "2:1", "5 entries, and its passage 4 notes",
                   "never reached")
        self.finds(f"loud [60, 70, 80] {{ {notes} }}", "2:1", "the last one starts the list again")
        self.finds(f"loud [50, 60, 70, 80, 90] {{ repeat 10 {{ note c4, e4 1/4; }} }}", "2:1",
                   "starts again with note 6")
        self.finds("loud [90, 60, 60, 60] { repeat 4 { note c4 1/8; rest 1/8; note d4 1/8; note e4 1/8; } }", "2:1",
                   "each round of its loop 3 notes")
        self.finds(f"loud [60, 70] {{ par {{ branch {{ {notes} }} branch {{ channel 1 {{ note c4 1/4; }} }} }} }}",
                   "2:1", "its passage 1 note,")
        self.assertEqual(self.found(f"loud [100, 60] {{ {notes} volume 50 {{ note c4 1/4; }} }}"
                                    f"artic [50, 60, 70] {{ {notes} }} "
                                    f"loud [100, 60, 60, 60] {{ repeat 3 {{ {notes} }} }}"), [])

    def test_a_shape_that_is_shorter_than_its_block(self) -> None:
        self.finds("shape s = flat 1/1 by 1250;\nwarp s { note c4 5/4; }", "3:1", "ends 1/4 before its block",
                   "its last stretch is 1250")
        self.finds("shape s = flat 1/1 by 1250;\nwarp s { note c4 4/1; }", "3:1", "ends 3/1 before its block")
        self.finds("shape s = slope 1/1 by 1000 to 2000, pause 1/4;\nwarp s { note c4 5/4; }", "3:1", "ends 1/4 before")
        self.assertEqual(self.found("shape s = slope 1/1 by 1000 to 900; warp s { note c4 2/1; }"
                                    "shape back = slope 1/1 by 2000 to 1000; warp back { note c4 5/4; }"
                                    "shape air = breath 1/4; warp air { note c4 2/1; }"
                                    "shape twice = flat 1/1 by 500;"
                                    "warp twice { warp twice { note c4 1/1; } rest 1/2; }"), [])

    def test_names_of_flats_in_other_languages(self) -> None:
        self.finds("note es4 1/4;", "2:6", "`es4` is E sharp", "E flat is `eb4`")
        self.finds("note c4, as3 1/4;", "2:10", "`as3` is A sharp", "A flat is `ab3`")
        self.assertEqual(self.found("note fs4, cs4, es4, as4 1/4;"), [])

    def test_stretches_that_read_like_beats_a_minute(self) -> None:
        self.finds("shape rit = slope 2/1 by 120 to 90; warp rit { note c4 2/1; }", "2:7", "`slope .. by 120 to 90`",
                   "8.3 times as fast as written", "write by 1000")
        self.finds("shape slow = flat 1/1 by 96; warp slow { note c4 1/1; }", "2:7", "write by 1250")
        self.assertEqual(self.found("shape rush = flat 1/1 by 1, slope 1/1 by 250 to 1000;"
                                    "warp rush { note c4 2/1; }"), [])

    def test_notes_that_are_cut(self) -> None:
        # two quarter notes of 400 percent: the first is cut 960 ticks early, the second 1,440
        self.assertEqual([line.split(", and is ")[1].split(";")[0] for line in
                          self.found("gate 400 {\nnote c4 1/4;\nnote e4 1/4; }")],
                         ["cut 960 ticks too early where its voice ends",
                          "cut 1440 ticks too early where its voice ends"])
        chord = ", ".join(f"key {key}" for key in range(40, 56))
        self.finds(f"gate 400 {{ note {chord} ticks 10;\nnote e5 ticks 10; }} rest 1/1;", "2:12",
                   "cut 30 ticks too early", "by the note on line 3")
        self.finds("gate 200 { note c4 1/4; }\npar { branch { rest 1/1; } }", "2:12", "cut 480 ticks")
        self.assertEqual(self.found("gate 400 { note c4 1/4; } rest 3/4; gate 100 { note c4 1/4; }"), [])

    def test_a_refused_score(self) -> None:
        with tempfile.NamedTemporaryFile("w", suffix=".score") as file:
            file.write("formula 1; note c4;")
            file.flush()
            answer = score("lint", file.name)
        self.assertEqual((answer.status, answer.said), (1, "formula: score refused: 1:19 fault 3\n"))


if __name__ == "__main__":
    unittest.main()
