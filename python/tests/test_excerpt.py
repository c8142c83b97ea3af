"""The verb `excerpt`: its ticks were counted by hand, its files are those of the program, or what it makes of parts."""

from __future__ import annotations

import pathlib
import tempfile
import unittest

from .companion import score
from .program import TOP, needs_program

from formula_score.reading.midi_file import MADE_BY
from formula_score.reading.playing import listing_of_file, run

SCORE = TOP / "examples" / "tutorial" / "8_end.score"


@needs_program
class Excerpts(unittest.TestCase):
    def setUp(self) -> None:
        folder = tempfile.TemporaryDirectory()
        self.addCleanup(folder.cleanup)
        self.folder = pathlib.Path(folder.name)
        self.out, self.other = self.folder / "out.mid", self.folder / "other.mid"

    def excerpt(self, *words: object) -> str:
        answer = score("excerpt", words[0], self.out, *words[1:])
        self.assertEqual((answer.status, answer.complaint), (0, ""), words)
        return answer.said

    def of_the_program(self, source: object, *options: str) -> pathlib.Path:
        self.assertEqual(run(str(source), str(self.other), *options).status, 0)
        return self.other

    def test_bars_are_cut_by_the_program(self) -> None:
        rows = (("9-12", "bars 9 to 12: ticks 19200 to 28800", ["--from", "19200", "--to", "28800"]),
                ("16", "bar 16: ticks 36480 to 42120", ["--from", "36480"]),
                ("15-", "bars 15 to 16: ticks 33600 to 42120", ["--from", "33600"]))
        for bars, said, options in rows:
            self.assertEqual(self.excerpt(SCORE, "--bars", bars), said + "\n")
            self.assertEqual(self.out.read_bytes(), self.of_the_program(SCORE, *options).read_bytes(), bars)

    def test_without_bars_it_is_the_whole_and_parts_are_the_programs(self) -> None:
        options: tuple[list[str], ...] = [], ["--parts"]
        for option in options:
            self.assertEqual(self.excerpt(SCORE, *option), "")
            self.assertEqual(self.out.read_bytes(), self.of_the_program(SCORE, *option).read_bytes())

    def test_parts_of_all_bars_have_what_the_programs_parts_have(self) -> None:
        self.assertIn("outside the proof", self.excerpt(SCORE, "--bars", "1-16", "--parts"))
        own, theirs = listing_of_file(str(self.out)), listing_of_file(str(self.of_the_program(SCORE, "--parts")))
        self.assertEqual(own.events[0].message[3:], MADE_BY)
        self.assertEqual((own.format, own.tracks, own.division, own.events[1:]),
                         (1, 3, theirs.division, theirs.events))

    def test_one_channel_alone(self) -> None:
        self.assertIn("outside the proof", self.excerpt(SCORE, "--bars", "16", "--channel", "1"))
        events = [(event.tick, event.message.hex(" ")) for event in listing_of_file(str(self.out)).events[2:]]
        # the cello, the two half notes of the last bar, the second of which is held
        self.assertEqual(events, [(0, "c1 2a"), (0, "91 2b 52"), (1800, "81 2b 40"), (1800, "91 30 52"),
                                  (5640, "81 30 40"), (5640, "ff 2f 00")])
        answer = score("excerpt", SCORE, self.out, "--channel", "7")
        self.assertEqual((answer.status, "there is nothing on channel 7" in answer.said), (1, True))

    def test_where_branches_have_warps_of_their_own_all_ticks_are_told(self) -> None:
        source = self.folder / "two.score"
        source.write_text("formula 1;\nshape half = flat 2/1 by 2000;\npar {\n  branch { note c4 1/1; note d4 1/1; }\n"
                          "  branch { warp half { note c5 1/1; note d5 1/1; } }\n}\n")
        self.assertEqual(self.excerpt(source, "--bars", "2"), "bar 2 begins at tick 1920 in process 1 (branch 1, line 4)\n"
                         "bar 2 begins at tick 3840 in process 2 (branch 2, line 5)\nbar 2: ticks 1920 to 7680\n")
        self.assertEqual(self.out.read_bytes(), self.of_the_program(source, "--from", "1920").read_bytes())
        self.assertEqual(self.excerpt(source, "--bars", "1", "--process", "2"), "bar 1: ticks 0 to 3840\n")
        self.assertEqual(self.out.read_bytes(), self.of_the_program(source, "--to", "3840").read_bytes())

    def test_what_cannot_be_cut(self) -> None:
        for words, status in ((["--bars", "17"], 1), (["--bars", "0"], 1), (["--bars", "9-20"], 1),
                              (["--bars", "9-3"], 2), (["--bars", "x"], 2), (["--channel", "16"], 2),
                              (["--meter", "3/7", "--bars", "1"], 2)):
            self.assertEqual(score("excerpt", SCORE, self.out, *words).status, status, words)
        self.assertFalse(self.out.exists())
        self.out.write_bytes(SCORE.read_bytes())
        self.assertEqual(score("excerpt", self.out, self.out, "--bars", "1").status, 2)
        self.assertEqual(self.out.read_bytes(), SCORE.read_bytes())
        refused = score("excerpt", TOP / "examples" / "refused" / "bad_byte.score", self.out, "--bars", "1")
        self.assertEqual((refused.status, refused.said), (3, "formula: score refused: 3:1 fault 1\n"))
        self.assertEqual(score("excerpt", SCORE, self.folder / "none" / "out.mid", "--bars", "1").status, 4)
        self.assertEqual(score("excerpt", SCORE, self.folder / "none" / "out.mid", "--channel", "1").status, 4)


if __name__ == "__main__":
    unittest.main()
