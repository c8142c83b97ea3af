"""The verb `bars`, by scores that were counted by hand: lengths, comments, and the tick of a bar and back."""

from __future__ import annotations

import pathlib
import tempfile
import unittest

from .companion import score
from .program import TOP, needs_program

from formula_score.reading.meter import Meter, groups_of
from fractions import Fraction

TUTORIAL = TOP / "examples" / "tutorial"


def bars(text: str, *words: object) -> tuple[int, list[str]]:
    """The lines that the verb tells of a text, but for the sum; those of findings without the file's name."""
    with tempfile.TemporaryDirectory() as folder:
        path = pathlib.Path(folder, "tune.score")
        path.write_text(text)
        answer = score("bars", path, *words)
        lines = answer.said.replace(f"{path}:", "").splitlines()
        return answer.status, [line for line in lines if not line.startswith("1 score: ")]


class Meters(unittest.TestCase):
    def test_bars_that_take_turns_and_change(self) -> None:
        meter = Meter(groups_of("3/4,2/4,6:4/4"), Fraction(1, 4), 1920)
        self.assertEqual([meter.start(bar) for bar in range(8)], [0, 480, 1920, 2880, 4320, 5280, 6720, 8640])
        self.assertEqual([tuple(meter.at(tick)) for tick in (0, 479, 480, 1919, 1920, 2879, 6719, 6720, 8645)],
                         [(0, 1, 0), (0, 1, 479), (1, 1, 0), (1, 3, 479), (2, 1, 0), (2, 2, 479), (5, 3, 479),
                          (6, 1, 0), (7, 1, 5)])
        self.assertEqual([str(meter.signature(bar)) for bar in (0, 1, 2, 3, 6, 9)],
                         ["3/4", "3/4", "2/4", "3/4", "4/4", "4/4"])
        self.assertEqual(str(meter), "3/4,2/4,6:4/4")

    def test_words_that_are_no_meter(self) -> None:
        for words in ("3", "3/0", "4/4,1:3/4", "2:4/4", "4/4,9:3/4,5:2/4", ""):
            self.assertEqual(score("bars", "none", "--meter", words).status, 2, words)

    @needs_program
    def test_a_bar_of_no_whole_ticks(self) -> None:
        self.assertEqual(score("bars", TUTORIAL / "1_line.score", "--meter", "3/7").status, 2)


@needs_program
class Lengths(unittest.TestCase):
    def test_the_tutorial_is_in_order(self) -> None:
        for path in sorted(TUTORIAL.glob("*.score")):
            self.assertEqual(score("bars", path).status, 0, path)
        said = score("bars", TUTORIAL / "8_end.score").said.splitlines()
        self.assertEqual(said[0], "meter 4/4")
        self.assertEqual([" ".join(line.split()) for line in said[1:4] + said[-3:-1]],
                         ["line 4 phrase opening 3 bars 7,200 to 7,680 ticks 7.50 to 8.00 s 3 times: bar 1, bar 5, "
                          "bar 13",
                          "line 9 phrase half_close 1 bar 2,400 ticks 2.50 s bar 4",
                          "line 10 phrase close 1 bar 2,400 ticks 2.50 s bar 8",
                          "line 35 branch 2 16 bars 42,120 ticks 43.88 s bars 1 to 16",
                          "the piece 16 bars 42,120 ticks 43.88 s bars 1 to 16"])

    def test_a_phrase_and_branches_that_do_not_fit(self) -> None:
        status, said = bars("formula 1;\nphrase p { note c4 7/8; }\ndo p;\npar {\n  branch { rest 1/1; }\n"
                            "  branch { rest 1/2; }\n}\n")
        self.assertEqual((status, said[-3:]), (1, [
            "        the piece  1 bar and 7/8  3,600 ticks  3.75 s  bar 1 to bar 2, beat 4 and 1/8",
            "2:8: warning: phrase p is no whole number of bars, and what follows leaves the bar lines: it has 7/8, "
            "1/8 too short [off-the-grid]",
            "4:1: remark: branches are not equally long as written, by up to 1/2: branch 1 (line 5) 1 bar, branch 2 "
            "(line 6) 1/2 [branches-uneven]"]))

    def test_a_motif_is_no_fault_where_what_follows_is_on_the_grid(self) -> None:
        status, said = bars("formula 1;\nphrase p { note c4 1/4; }\ndo p; do p; note c4 1/2;\n")
        self.assertEqual((status, len(said)), (0, 3))

    def test_voices_that_drift_are_remarked_bar_by_bar(self) -> None:
        # an eighth of 240 ticks is 319 by 1,333 and 160 by 667: 479 of 480, four times a bar
        status, said = bars("formula 1;\nshape swing = flat 1/8 by 1333, flat 1/8 by 667;\npar {\n  branch { repeat "
                            "16 { warp swing { note c5 1/8; note d5 1/8; } } }\n  branch { repeat 4 { note c3 1/1; } "
                            "}\n}\n")
        self.assertEqual((status, said[-1]), (0,
                                              "5:3: remark: branches 2 and 1 are equally long as written, and end 16 "
                                              "ticks (0.02 s) apart as played: 4 at bar 2, 8 at bar 3, 12 at bar 4 "
                                              "[branches-apart]"))

    def test_a_length_that_is_computed_is_counted(self) -> None:
        status, said = bars("formula 1;\nphrase p { repeat (3 + n0) max 9 { note c4 ticks (480) max 480; } }\n"
                            "repeat 2 { do p; }\n", "--meter", "3/4")
        self.assertEqual((status, " ".join(said[1].split())),
                         (0,
                          "line 2 phrase p 1 bar or 1 bar and 1/4 1,440 to 1,920 ticks 1.50 to 2.00 s 2 times: bar 1, "
                          "bar 2"))

    def test_with_an_upbeat_the_piece_may_end_in_a_short_bar(self) -> None:
        text = "formula 1;\nphrase p { note g4 1/4; note c4 7/4; }\ndo p;\n"
        self.assertEqual(bars(text)[0], 0)
        self.assertEqual(bars(text.replace("7/4", "4/4"))[0], 1)
        self.assertEqual(bars(text.replace("7/4", "4/4"), "--upbeat", "1/4")[0], 0)

    def test_sections_are_named_by_comments(self) -> None:
        _, said = bars("# A piece.\nformula 1;\n# Verse\nnote c4 2/1;\n# Chorus\n# loud\nnote c4 1/1; rest 1/1;\n")
        self.assertEqual([" ".join(line.split()) for line in said[1:]],
                         ["line 3 section Verse 2 bars 3,840 ticks 4.00 s bars 1 to 2",
                          "line 5 section Chorus 2 bars 3,840 ticks 4.00 s bars 3 to 4",
                          "the piece 4 bars 7,680 ticks 8.00 s bars 1 to 4"])


@needs_program
class Comments(unittest.TestCase):
    BAR = "note c4 1/4; note c4 1/4; note c4 1/4; note c4 1/4;"

    def findings(self, text: str, *words: object) -> list[str]:
        status, said = bars(text, *words)
        found = [line.replace(" warning:", "").replace(" [bar-comment]", "") for line in said if line[:1].isdigit()]
        self.assertEqual(status, 1 if found else 0, said)
        return found

    def lines(self, *lines: str) -> list[str]:
        return self.findings("formula 1;\n" + "\n".join(lines) + "\n")

    def test_right_ones(self) -> None:
        self.assertEqual(self.lines(f"{self.BAR}  # bar 1", f"{self.BAR}  # bar 2, softly", "# bars 3 to 4",
                                    "note c4 1/2;", "note c4 3/2;", "# bar 5", "note c4 1/2; note d4 1/2; # not bar 7",
                                    f"{self.BAR} {self.BAR} # Bars 6-7: loud", f"{self.BAR} {self.BAR} # bars 8 and 9",
                                    f"{self.BAR} # bars 3, 10 and 12", "note c4 1/1; # as in bar 4"), [])

    def test_a_bar_on_two_lines(self) -> None:
        self.assertEqual(self.lines("note c4 1/2;  # bar 1", "note c4 1/2;", "note c4 1/2;", "note c4 1/2;  # bar 2",
                                    f"{self.BAR}  # bar 3"), [])

    def test_a_bar_that_is_too_short_is_told_once(self) -> None:
        self.assertEqual(self.lines(f"{self.BAR}  # bar 1", "note c4 3/4;  # bar 2", f"{self.BAR}  # bar 3",
                                    f"{self.BAR}  # bar 4"), ["3:15: `bar 2` is 1/4 too short"])

    def test_numbers_that_are_wrong(self) -> None:
        self.assertEqual(self.lines(f"{self.BAR}  # bar 1", f"{self.BAR}  # bar 3", f"{self.BAR}  # bar 3"),
                         ["3:54: `bar 3` begins 1/1 too early: it is in bar 2"])
        self.assertEqual(self.lines(f"{self.BAR} {self.BAR} {self.BAR}  # bars 1 to 2"),
                         ["2:158: `bars 1 to 2` are 1/1 too long"])
        self.assertEqual(self.lines("# bars 1 to 2", self.BAR, "# bar 3", self.BAR),
                         ["2:1: `bars 1 to 2` are 1/1 too short"])

    def test_phrases_loops_and_branches_count_from_their_beginning_or_as_the_piece(self) -> None:
        phrase = "phrase p {{\n" + self.BAR + "  # bar {}\n" + self.BAR + "  # bar {}\n}}"
        for first, second, wrong in ((1, 2, 0), (3, 4, 0), (1, 4, 1), (2, 3, 2)):
            found = self.lines(phrase.format(first, second), "rest 2/1;  # bars 1 to 2", "do p;  # bars 3 to 4")
            self.assertEqual(len(found), min(wrong, 1), (first, second, found))
        self.assertEqual(self.lines("rest 1/1;  # bar 1", "repeat 2 {", f"{self.BAR}  # bar 1",
                                    f"{self.BAR}  # bar 2", "}  # bars 2 to 5", "par {", "branch {  # bars 6 to 7",
                                    f"{self.BAR}", f"{self.BAR}  # bar 2", "}", "branch { rest 2/1; }", "}"), [])

    def test_bars_of_a_changing_meter(self) -> None:
        text = "formula 1;\n" + "".join(f"note c4 {quarters}/4; # bar {bar}\n"
                                        for bar, quarters in ((1, 3), (2, 2), (3, 3), (4, 2)))
        self.assertEqual(self.findings(text, "--meter", "3/4,2/4"), [])
        self.assertEqual(self.findings(text, "--meter", "3/4,2:2/4,3:3/4,4:2/4"), [])
        self.assertEqual(len(self.findings(text, "--meter", "3/4")), 1)


@needs_program
class Ticks(unittest.TestCase):
    def test_through_all_deformations(self) -> None:
        # 14 bars at 2,400 ticks; of a slope over 2,880 from 1,250 to 2,000 the first 1,920 ticks take 2,880; then come
        # 1,800 for the rest of it, 1,920 for a half note at 2,000, and the pause of 1,920 in its middle
        path = TUTORIAL / "8_end.score"
        for bar, tick in ((1, 0), (12, 26400), (15, 33600), (16, 36480), (17, 42120)):
            said = score("bars", path, "--tick", bar).said
            self.assertEqual(said.split(" in ")[0].strip(), f"bar {bar}: tick {tick}")
        self.assertIn("tick 40000: written in bar 16, beat 4; played in bar 21, beat 4 and 1/12 of the file",
                      score("bars", path, "--bar", "40000").said)
        self.assertIn("line 11, column 75; bar 1, beat 4 of phrase last_close",
                      score("bars", path, "--bar", "40000").said)

    def test_branches_with_warps_of_their_own(self) -> None:
        text = ("formula 1;\nshape half = flat 2/1 by 2000;\npar {\n  branch { rest 1/1; note c4 1/1; }\n"
                "  branch { warp half { rest 1/1; note c4 1/1; } }\n}\n")
        status, said = bars(text, "--tick", "2")
        self.assertEqual((status, said), (0, ["bar 2: tick 1920 in process 1 (branch 1, line 4)",
                                              "bar 2: tick 3840 in process 2 (branch 2, line 5)"]))
        self.assertEqual(bars(text, "--tick", "2", "--process", "2")[1], said[1:])
        self.assertEqual(bars(text, "--tick", "2", "--process", "3")[0], 1)
        _, said = bars(text, "--bar", "2880")
        self.assertEqual([line.split(";")[0] for line in said],
                         ["tick 2880: written in bar 2, beat 3",
                          "  line 4, column 22, in process 1 (branch 1, line 4)",
                          "tick 2880: written in bar 1, beat 4",
                          "  line 5, column 24, in process 2 (branch 2, line 5)"])

    def test_inside_the_levels_that_a_process_opens_itself(self) -> None:
        text = ("formula 2; division 96;\nshape twice = flat ticks 1000 by 500;\n"
                "shape hold = pause ticks 7, flat 1/1 by 1000;\n"
                "rest 1/1;\nwarp twice { rest ticks 100; warp hold { note c4 1/1; } }\n")
        # bar 2 is at the brace of the outer one; bar 3 lies 284 ticks inside the inner, (100 + 7 + 284) / 2 behind 384
        self.assertEqual(bars(text, "--tick", "2")[1], ["bar 2: tick 384"])
        self.assertEqual(bars(text, "--tick", "3")[1], ["bar 3: tick 579"])

    def test_a_bar_or_a_tick_that_is_not_there(self) -> None:
        path = TUTORIAL / "1_line.score"
        self.assertEqual(score("bars", path, "--tick", "6").status, 1)
        self.assertEqual(score("bars", path, "--tick", "0").status, 1)
        self.assertEqual(score("bars", path, "--tick", "5").said, "bar 5: tick 7680\n")
        self.assertEqual(score("bars", path, "--bar", "7680").status, 1)

    def test_a_score_that_is_refused_or_not_there(self) -> None:
        status, said = bars("formula 1;\nnote c4;\n")
        self.assertEqual((status, said), (1, ["formula: score refused: 2:8 fault 3"]))
        self.assertEqual(score("bars", "/none.score").status, 2)


if __name__ == "__main__":
    unittest.main()
