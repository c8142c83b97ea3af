"""The verb `transpose`: texts that were retyped by hand, and what tools/score_model plays of both texts."""

from __future__ import annotations

import pathlib
import re
import tempfile
import unittest

from .companion import Answer, score
from .program import TOP, needs_program, score_model
from .random_texts import Texts


@needs_program
class Transposes(unittest.TestCase):
    def setUp(self) -> None:
        folder = tempfile.TemporaryDirectory()
        self.addCleanup(folder.cleanup)
        self.path = pathlib.Path(folder.name, "tune.score")

    def transposed(self, text: str, *words: object) -> Answer:
        self.path.write_bytes(text.encode())
        return score("transpose", self.path, *words)

    def test_names_and_keys_are_retyped_and_all_else_stays_byte_by_byte(self) -> None:
        text = ("formula 1;\r\n# c4 is\tno note here\nphrase e_1 {  note fs4 ,a4 1/4 ;note key 61 1/4; }\n"
                "volume 60 { do e_1; play_it; }\n").replace("play_it; ", "rhythm [1/8] { play cs5; skip; } ")
        answer = self.transposed(text, 2)
        self.assertEqual((answer.status, answer.said), (0, f"{self.path}: 4 pitches moved by 2\n"))
        self.assertEqual(self.path.read_bytes().decode(), text.replace("fs4", "gs4").replace("a4 1", "b4 1").replace(
            "61", "63").replace("cs5", "ds5"))

    def test_names_go_by_the_new_key(self) -> None:
        for names, by, wanted in (
            ("d4 e4 fs4 g4 a4 b4 cs5", 2, "e4 fs4 gs4 a4 b4 cs5 ds5"),         # D major, E major
            ("d4 e4 fs4 g4 a4 b4 cs5", 1, "eb4 f4 g4 ab4 bb4 c5 d5"),          # E flat major
            ("c4 d4 eb4 f4 g4 ab4 bb4 b4", -1, "b3 cs4 d4 e4 fs4 g4 a4 as4"),  # C minor, B minor with its leading note
            ("c4 e4 g4 b4", -1, "b3 ds4 fs4 as4"), ("c4 e4 g4 b4", 6, "gb4 bb4 db5 f5"),
            ("f4 g4 a4 as4 c5 d5 e5", 2, "g4 a4 b4 c5 d5 e5 fs5"),             # B flat, that was written as A sharp
            ("c4 cs4 d4 f4 g4 a4 b4", 7, "g4 gs4 a4 c5 d5 e5 fs5"), ("a4 e4 c4 gs4", -12, "a3 e3 c3 gs3"),
            ("c0 d0 e0", -12, "key 0 key 2 key 4"), ("cb4 gb4 db4 bb3", 0, "cb4 gb4 db4 bb3"),
        ):
            answer = self.transposed(f"formula 1; {' '.join(f'note {name} 1/4;' for name in names.split())}", by)
            found = re.findall(r"note (.*?) 1/4;", self.path.read_text())
            self.assertEqual((answer.status, " ".join(found)), (0, wanted), (names, by))

    def test_drums_stay_also_those_of_a_phrase(self) -> None:
        text = ("formula 1;\nphrase beat { note c2 1/4; }\n"
                "channel 9 { do beat; note d2 1/4; channel 1 { note e4 1/4; } }\n")
        self.assertEqual(self.transposed(text, -2).status, 0)
        self.assertEqual(self.path.read_text(), text.replace("e4", "d4"))
        answer = self.transposed(text + "do beat;\n", -2)
        self.assertEqual((answer.status, answer.said), (1, ""))
        self.assertIn("tune.score:2:15: this note is played on the channel of drums and on others", answer.complaint)

    def test_one_phrase_alone(self) -> None:
        text = "formula 1;\nphrase low { note c4 1/4; }\nphrase high { note c5 1/4; do low; }\ndo high; note c4 1/4;\n"
        answer = self.transposed(text, 4, "--phrase", "high")
        self.assertEqual((answer.status, self.path.read_text()), (0, text.replace("c5", "e5")))
        self.assertIn("phrase high plays phrase low, which stays", answer.said)
        answer = self.transposed(text, 4, "--phrase", "hihg")
        self.assertEqual((answer.status, answer.complaint), (1, "there is no phrase 'hihg'; there are low, high\n"))

    def test_what_is_computed_or_drawn_stays_and_is_told_with_its_place(self) -> None:
        text = "formula 1;\nrepeat 2 { note c4, key (60 + n0), key (48 + (pick(3))) 1/4; }\n"
        answer = self.transposed(text, 12)
        self.assertEqual((answer.status, self.path.read_text()), (1, text.replace("c4", "c5")))
        self.assertEqual([line.partition(".score:")[2] for line in answer.said.splitlines()[1:]],
                         ["2:21: this pitch is computed, and stays", "2:36: this pitch is computed, and stays"])

    def test_a_pitch_out_of_range_and_other_faults_keep_the_file(self) -> None:
        text = "formula 1; note c4 1/4; note f9 1/4;"
        for words, status, said in ((["4"], 1, "tune.score:1:30: `f9` moved by 4 is key 129"), (["200"], 2,
                                                                                                "-127 to 127"),
                                    (["2", "--to", str(self.path.parent)], 4, "cannot be written")):
            answer = self.transposed(text, *words)
            self.assertEqual((answer.status, self.path.read_text()), (status, text), words)
            self.assertIn(said, answer.complaint)
        answer = self.transposed("formula 1; note c4;", 2)
        self.assertEqual((answer.status, answer.said), (1, "formula: score refused: 1:19 fault 3\n"))
        out = self.path.parent / "other.score"
        self.assertEqual(self.transposed(text, 2, "--to", out).status, 0)
        self.assertEqual((self.path.read_text(), out.read_text()), (text, text.replace("c4", "d4").replace("f9", "g9")))
        self.assertEqual(self.transposed("formula 1; note c4 1/4;", -12, "--to", "-").said, "formula 1; note c3 1/4;")

    def test_each_note_is_played_moved_by_just_that(self) -> None:
        texts = [path.read_text() for path in sorted((TOP / "examples" / "tutorial").glob("*.score"))[-2:]]
        texts += [re.sub(r"key \(.*?\)(?=,| [0-9t]|;)", "c4", Texts(seed).score()) for seed in range(8)]
        count = 0
        for text in texts:
            answer = self.transposed(text, 1)
            if answer.status:
                continue  # a key above 126, or a text that is refused
            played = [score_model.played(each)[0] for each in (text.encode(), self.path.read_bytes())]
            self.assertEqual(len(played[0]), len(played[1]))
            for (tick, *_, old), (other, *_, new) in zip(*played):
                moves = old[0] >> 4 in (8, 9) and old[0] & 15 != 9
                self.assertEqual((other, bytes(new)), (tick, bytes([old[0], old[1] + moves, *old[2:]])))
                count += moves
        self.assertGreater(count, 300)


if __name__ == "__main__":
    unittest.main()
