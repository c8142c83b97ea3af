"""Files for notation programs: their real times against those that tools/score_model plays, their grid and their words.

SCORES names another number of random scores. Where it is named all examples are exported, too.
"""

from __future__ import annotations

import importlib
import os
import pathlib
import sys
import tempfile
import unittest
from collections import defaultdict
from fractions import Fraction
from typing import Any, Callable

from .companion import Answer, score
from .program import TOP, needs_program, score_model
from .random_texts import Texts

sys.path.insert(0, str(TOP / "tools" / "file_model"))

file_model: Any = importlib.import_module("file_model")

SCORES = int(os.environ.get("SCORES", "15"))
#: Of each kind of message, channel and key the times.
Times = dict[tuple[int, int, int], list[Fraction]]


def exported(text: str, *words: object) -> tuple[Answer, Any]:
    """What the verb answers, and the file that it wrote, read by the model."""
    with tempfile.TemporaryDirectory() as folder:
        source, target = pathlib.Path(folder, "in.score"), pathlib.Path(folder, "out.mid")
        source.write_text(text)
        answer = score("export", source, target, *words)
        return answer, file_model.read(target.read_bytes()) if target.exists() else None


def seconds(file: Any) -> Callable[[int], Fraction]:
    """A function from a tick of a file to its time."""
    changes = [(entry.tick, int.from_bytes(entry.bytes[3:], "big")) for track in file.tracks for entry in track
               if entry.bytes[:2] == b"\xff\x51"]

    def at(tick: int) -> Fraction:
        time, last, tempo = Fraction(0), 0, 500_000
        for begin, new in sorted(changes):
            if begin < tick:
                time, last, tempo = time + Fraction((begin - last) * tempo, file.division), begin, new
        return (time + Fraction((tick - last) * tempo, file.division)) / 1_000_000
    return at


def heard(file: Any) -> Times:
    """Of each channel and key the times of its note-ons and note-offs."""
    at = seconds(file)
    found: Times = defaultdict(list)
    for track in file.tracks:
        for entry in track:
            if entry.bytes[0] >> 4 in (8, 9):
                found[entry.bytes[0] >> 4, entry.bytes[0] & 15, entry.bytes[1]].append(at(entry.tick))
    return {key: sorted(times) for key, times in found.items()}


def played(text: str) -> Times:
    """The same of what the model plays: a tick is 1/960 of a second, or as the score's division says."""
    found: Times = defaultdict(list)
    division = score_model.profile(text.encode())[1]
    for tick, _, _, message in score_model.played(text.encode())[0]:
        if message[0] >> 4 in (8, 9):
            found[message[0] >> 4, message[0] & 15, message[1]].append(Fraction(tick, 2 * division))
    return {key: sorted(times) for key, times in found.items()}


def metas(file: Any, kind: int) -> list[list[tuple[int, bytes]]]:
    """Of each track the meta events of a kind, as (tick, data)."""
    return [[(entry.tick, entry.bytes[3:]) for entry in track if entry.bytes[:2] == bytes([0xFF, kind])]
            for track in file.tracks]


@needs_program
class Exports(unittest.TestCase):
    def is_in_time(self, text: str, file: Any) -> None:
        wanted, got = played(text), heard(file)
        bound = max(Fraction(1, 1000), Fraction(1, 2 * score_model.profile(text.encode())[1]))  # a tick, at 120 a minute
        self.assertEqual({key: len(times) for key, times in wanted.items()},
                         {key: len(times) for key, times in got.items()})
        for key, times in wanted.items():
            for time, other in zip(times, got[key]):
                self.assertLessEqual(abs(time - other), bound, (key, float(time), float(other)))

    def test_the_tutorial_has_sixteen_bars_and_its_tempos(self) -> None:
        text = pathlib.Path(TOP, "examples", "tutorial", "8_end.score").read_text()
        answer, file = exported(text, "--meter", "4/4")
        self.assertEqual((answer.status, answer.complaint), (0, ""))
        self.is_in_time(text, file)
        self.assertEqual({track[-1].tick for track in file.tracks}, {16 * 1920})
        self.assertLess(abs(seconds(file)(16 * 1920) - Fraction(42_120, 960)), Fraction(1, 1000))
        first, *others = metas(file, 0x51)
        self.assertEqual((first[0], others), ((0, (625_000).to_bytes(3, "big")), [[], []]))  # 96 quarter notes a minute
        self.assertGreaterEqual(first[1][0], 14 * 1920)
        self.assertEqual(metas(file, 0x58), [[(0, bytes([4, 2, 24, 8]))], [], []])
        self.assertIn(b"made by formula-score", metas(file, 1)[0][0][1])
        begins = {entry.tick for track in file.tracks for entry in track if entry.bytes[0] >> 4 == 9}
        self.assertTrue(all(tick % 60 == 0 for tick in begins))  # its shortest notes are 32nds

    def test_names_are_those_of_branches_and_phrases(self) -> None:
        text = """formula 1; phrase low { note c3 3/4; }
par {
  # Flute and friends
  branch { program 73; note c5 3/4; }
  branch { channel 1 { do low; } }
  branch { channel 2 { note c2 3/4; } }
}
"""
        answer, file = exported(text, "--meter", "3/4")
        self.assertEqual(answer.status, 0)
        self.assertEqual([[data for _, data in track] for track in metas(file, 3)],
                         [[], [b"Flute and friends"], [b"low"], [b"branch 3"]])
        self.assertEqual(metas(file, 4)[1], [(0, b"flute")])
        self.assertEqual(metas(file, 0x58)[0], [(0, bytes([3, 2, 24, 8]))])

    def test_a_phrase_names_its_branch_without_its_number_and_comments_name_the_piece(self) -> None:
        text = """# title: Greensleeves
# composer: nobody knows
formula 2; phrase soprano_1 { note c5 3/4; }
par { branch { do soprano_1; } branch { channel 1 { note c3 3/4; } } }
"""
        answer, file = exported(text)
        self.assertEqual(answer.status, 0)
        self.assertEqual([[data for _, data in track] for track in metas(file, 3)],
                         [[b"Greensleeves"], [b"soprano"], [b"branch 2"]])
        self.assertEqual([data for _, data in metas(file, 1)[0]][1:], [b"composer: nobody knows"])
        answer, file = exported(text, "--title", "Green", "--composer", "")
        self.assertEqual(([data for _, data in metas(file, 3)[0]], len(metas(file, 1)[0])), ([b"Green"], 1))

    def test_a_tempo_that_is_held_is_one_mark(self) -> None:
        rhythm = "rhythm [1/8, 1/12, 1/12, 1/12, 1/20, 3/32, 1/32] { repeat 2 { play c4; play d4; play e4; skip; play a4; } }"
        text = f"formula 2; shape t = flat 100/1 by 1333; warp t {{ repeat 9 {{ {rhythm} note c4 1/48; }} }}"
        answer, file = exported(text)
        self.assertEqual(answer.status, 0, answer)
        self.assertEqual(metas(file, 0x51)[0], [(0, (666_500).to_bytes(3, "big"))])
        self.is_in_time(text, file)
        slow = text.replace("flat 100/1 by 1333", "flat 2/1 by 1277, slope 2/1 by 1277 to 1800, flat 100/1 by 1411")
        answer, file = exported(slow)
        self.assertEqual(answer.status, 0, answer)
        first, *_, last = metas(file, 0x51)[0]
        self.assertEqual((first, last), ((0, (638_500).to_bytes(3, "big")), (4 * 1920, (705_500).to_bytes(3, "big"))))
        self.is_in_time(slow, file)

    def test_a_suffix_that_is_not_written_is_refused(self) -> None:
        with tempfile.TemporaryDirectory() as folder:
            source, target = pathlib.Path(folder, "in.score"), pathlib.Path(folder, "out.png")
            source.write_text("formula 1; note c4 1/4;")
            target.write_text("kept")
            answer = score("export", source, target)
            self.assertEqual((answer.status, target.read_text()), (2, "kept"))
            self.assertIn("ends in '.png': what is written is .mid, .midi, .musicxml or .abc", answer.complaint)
            self.assertEqual(score("export", source, pathlib.Path(folder, "out.MID")).status, 0)

    def test_meters_take_turns_behind_an_upbeat(self) -> None:
        answer, file = exported("formula 1; note c4 1/4; repeat 3 { note c4 3/4; note d4 2/4; }",
                                "--meter", "3/4,2/4", "--upbeat", "1/4")
        self.assertEqual(answer.status, 0)
        self.assertEqual([(tick, *data[:2]) for tick, data in metas(file, 0x58)[0]],
                         [(0, 1, 2), *((480 + 2400 * at + behind, beats, 2) for at in range(3)
                                       for behind, beats in ((0, 3), (1440, 2)))])

    def test_a_breath_and_shapes_of_other_voices_are_in_time(self) -> None:
        for text in ("""formula 1; shape air = flat 1/2 by 1000, breath 1/16, slope 1/2 by 1000 to 1700;
warp air { note c4 1/4; gate 100 { note d4 1/4; } note e4 1/4; note f4 1/4; } note g4 1/4;""",
                     """formula 1; shape held = pause 1/8, flat 1/4 by 1333; warp held { note c4 1/4; note d4 1/4; }""",
                     """formula 1; shape slow = flat 4/1 by 1300; shape fast = slope 4/1 by 900 to 300;
par { branch { warp slow { repeat 9 { note c4 1/8; } } } branch { channel 1 { warp fast { note c4 1/3; note d4 2/1; }
} } } note e4 1/4;"""):
            answer, file = exported(text)
            self.assertEqual(answer.status, 0, answer)
            self.is_in_time(text, file)

    def test_the_drift_of_thousandths_is_told(self) -> None:
        answer, _ = exported("formula 1; shape t = flat 16/1 by 1333; warp t { repeat 64 { note c4 1/4; } }")
        # 120,000 / 90 is 1333.33: 0.33 thousandths of 30,720 ticks are 10.24 ticks, 10.67 ms
        self.assertIn("over its 16/1 it comes 11 ms early against 90", answer.said)

    def test_what_no_tempo_is_slow_enough_for_stays_in_the_notes(self) -> None:
        text = "formula 1; shape t = flat 1/4 by 1000000; warp t { note c4 1/4; } note d4 1/4;"
        answer, file = exported(text)
        self.assertEqual(answer.status, 0, answer)
        self.assertIn("2 events off the written grid", answer.said)
        self.is_in_time(text, file)

    @unittest.skipUnless("SCORES" in os.environ, "SCORES names no number")
    def test_all_examples_are_in_time(self) -> None:
        for path in pathlib.Path(TOP, "examples").glob("*/*.score"):
            if path.parent.name not in ("refused", "long"):
                text = path.read_text()
                answer, file = exported(text)
                self.assertEqual(answer.status, 0, (path, answer))
                self.is_in_time(text, file)

    def test_random_scores_are_in_time(self) -> None:
        for seed in range(SCORES):
            text = Texts(seed).score()
            answer, file = exported(text)
            if file is not None:
                self.assertEqual(answer.status, 0, f"{seed}: {answer} {text}")
                self.is_in_time(text, file)


if __name__ == "__main__":
    unittest.main()
