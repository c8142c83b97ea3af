"""Notes in a short line: the library's `notes` and the verb `notes`. What each line means was written by hand."""

from __future__ import annotations

import unittest

from .companion import score

from formula_score import ScoreError, melody, notes, rest, seq


class Lines(unittest.TestCase):
    def test_each_sign(self) -> None:
        for line, wanted in (
            ("c4 d e r | f4~ f", ["note c4 1/4; note d4 1/4; note e4 1/4; rest 1/4;", "note f4 1/2;"]),
            ("bb3/8 c fs5/8. g/16", ["note bb3 1/8; note c3 1/8; note fs5 3/16; note g5 1/16;"]),
            ("c4+e+g/2. r/4 | c5+e4/1", ["note c4, e4, g4 3/4; rest 1/4;", "note c5, e4 1/1;"]),
            # a note tied over the bar line is in its first bar, and a bar of 3/8 ends a triplet of eighths behind it
            ("c4/2. d/4~ | d/1~|d/8 e/12 f g", ["note c4 3/4; note d4 11/8;",
                                                "note e4 1/12; note f4 1/12; note g4 1/12;"]),
            ("c0/4.. cb4/16", ["note c0 7/16; note cb4 1/16;"]),
        ):
            answer = score("notes", line)
            self.assertEqual((answer.status, answer.said.splitlines()), (0, wanted), line)

    def test_words_may_come_apart_and_make_a_phrase(self) -> None:
        self.assertEqual(score("notes", "g4", "c5", "d|", "e/2.", "--meter", "3/4", "--phrase", "tune").said,
                         "phrase tune {\n  note g4 1/4; note c5 1/4; note d5 1/4;\n  note e5 3/4;\n}\n")
        self.assertEqual(score("notes", "g4 | c5/2. |", "--meter", "3/4", "--upbeat", "1/4").said,
                         "note g4 1/4;\nnote c5 3/4;\n")

    def test_what_is_wrong_has_one_line_with_its_place(self) -> None:
        for line, said in (("c4 d | e", "`|` at 6: the bar is 1/2 too short"), ("c d",
                                                                                "`c` at 1: the first pitch needs"),
                           ("c4 h", "`h` at 4: this is no note"), ("c4/7",
                                                                   "`c4/7` at 1: this length is no whole number"),
                           ("c4~ d", "`d` at 5: the note before is tied"), ("r~", "`r~` at 1: a rest has no tie"),
                           ("c4 d~", "`d~` at 4: no note follows"), ("gs9", "`gs9` at 1: a key goes from 0 to 127"),
                           ("c4/0", "`c4/0` at 1"), ("+".join(["c4"] * 17), "a chord has at most 16")):
            answer = score("notes", line)
            self.assertEqual((answer.status, answer.said, answer.complaint.count("\n")), (1, "", 1), line)
            self.assertIn(said, answer.complaint, line)
        for words in (["--phrase", "note"], ["--phrase", "c4"], ["--meter", "3/4,2/4"], ["--division", "7"]):
            self.assertEqual(score("notes", "c4", *words).status, 2, words)
        self.assertEqual(score("notes", "c4/128.", "--division", "960").said, "note c4 ticks 45;\n")

    def test_the_library_has_the_same_line(self) -> None:
        self.assertEqual(notes("c4 d/8. e/16 r/2"), seq(melody("c4 d4 e4", "1/4 3/16 1/16"), rest("1/2")))
        self.assertEqual(notes("r/4 c4+e g/2~ | g/4", "4/4"), seq(rest("1/4"), melody("c4+e4 g4", "1/4 3/4")))
        self.assertRaises(ScoreError, notes, "c4 | d")
        self.assertRaises(ScoreError, notes, "c4", "4")


if __name__ == "__main__":
    unittest.main()
