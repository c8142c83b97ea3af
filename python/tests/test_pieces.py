"""Python files that make a score, given to the companion's verbs: what is run, where it comes from, and its limits."""

from __future__ import annotations

import contextlib
import json
import os
import pathlib
import subprocess
import sys
import tempfile
import time
import unittest

from formula_score import Score, crescendo, melody, note, par, tempo
from formula_score.making import origins
from formula_score.reading.made import calls_at
from formula_score.running.pieces import Limits, Piece, Runner, Unmade, jailed, named

from .companion import Answer, score
from .program import TOP, needs_program

PIECE = '''"""Two bars."""
from formula_score import Meter, Score, melody, note, phrase, seq, warp, flat

tune = Meter("4/4").bars(
    melody("c4 d4 e4 f4", "1/4"),
    note("g4", "1/1"),
)


def last():
    return note("c5", "1/2", tied=True), note("c5", "1/2")


print("this is for the terminal")
score = Score(seq(
    phrase("tune", tune),
    warp([flat("1/1", 1500)], tune.transpose(5)),
    *last(),
))
'''
#: So little is enough for what is hostile.
SHORT = Limits(time=2, cpu=2, memory=1024, output=1)


class Pieces(unittest.TestCase):
    def setUp(self) -> None:
        home = tempfile.TemporaryDirectory()
        self.addCleanup(home.cleanup)
        self.path = pathlib.Path(home.name, "piece.py")
        self.said = b""

    def made(self, text: str, name: str = "", limits: Limits = SHORT._replace(time=60)) -> Piece:
        data = text.encode("utf-8", "surrogateescape")
        self.path.write_bytes(data)
        return Runner().run(str(self.path), data, limits, ["5"], name, self._say)

    def _say(self, printed: bytes) -> None:
        self.said += printed

    def refused(self, text: str, name: str = "", limits: Limits = SHORT._replace(time=60)) -> tuple[str, list[int]]:
        """Why a text is no piece, and the lines that led there."""
        with self.assertRaises(Unmade) as caught:
            self.made(text, name, limits)
        self.assertNotIn("\n", caught.exception.why)
        return caught.exception.why, [call.line for call in caught.exception.calls]

    def verb(self, *words: object) -> Answer:
        return score(words[0], self.path, *words[1:])

    # ---- what is run

    def test_the_score_of_a_module(self) -> None:
        one = "from formula_score import *\nimport sys\na = Score(note(int(sys.argv[1]), '1/4'))\nassert __name__ == 'piece'\n"
        self.assertIn(b"note key 5 1/4;", self.made(one).text)
        two = one + "def b(): return Score(note('d4', '1/4'))\nc = Score(rest('1/4'))\n"
        self.assertIn(b"note d4", self.made(two, "b").text)
        self.assertIn(b"note d4", self.made(two + "score = b\n").text)
        self.assertEqual(self.refused(two), ("a, c are scores: name one behind the file, as `FILE:a`", [6]))
        self.assertEqual(named("x/canon.py:b"), ("x/canon.py", "b"))
        self.assertIsNone(named("canon.score"))

    def test_bad_files_end_with_a_sentence_and_the_line(self) -> None:
        for text, why, lines in (
                ("x = 1\n", "no score is there: write `score = Score(..)` at its left edge", [1]),
                ("score = 3\n", "score is no score: it is of the type int", [1]),
                ("import nothing_of_this_name\n", "ModuleNotFoundError: No module named 'nothing_of_this_name'", [1]),
                ("def f():\n    1 / 0\n\nf()\n", "ZeroDivisionError: division by zero", [2, 4]),
                ("x = (", "SyntaxError: '(' was never closed", [1]),
                ("import sys\nsys.exit(3)\n", "SystemExit: 3", [2]),
                ("\n\n\n# \udcff\n", "UnicodeDecodeError: 'utf-8' codec can't decode byte 0xff in position 5: invalid start "
                 "byte", [4]),
                (PIECE.replace('"1/1"),\n)', '"3/4"),\n)'),
                 "BarError: bar 2 is 1/4 too short: it has 3/4 in place of 4/4", [6]),
                (PIECE.replace('note("g4"', 'note("h4"'),
                 "ScoreError: 'h4' is no pitch: pitches are written as c4, fs4 (F sharp) or bb3 (B flat)", [6])):
            with self.subTest(text=text[:40]):
                self.assertEqual(self.refused(text), (why, lines))

    @unittest.skipIf(sys.version_info < (3, 11), "NOT TRIED: this Python knows no columns")
    def test_a_refusal_has_the_picture(self) -> None:
        with self.assertRaises(Unmade) as caught:
            self.made("from formula_score import *\ndef f():\n    return note('c4', '1/7')\nscore = Score(f())\n")
        self.assertEqual(caught.exception.told().split("\n")[1:], [
            "4 | score = Score(f())", "  |         ^"] if "whole number" in caught.exception.why else [
            "3 |     return note('c4', '1/7')", "  |            ^", "called from line 4: score = Score(f())"])

    # ---- where it comes from

    def test_each_statement_has_the_lines_that_made_it(self) -> None:
        piece = self.made(PIECE)
        self.assertEqual(self.said, b"this is for the terminal\n")
        # the phrase's five notes, `do`, `warp`, its five notes, the tied note
        lines = [[call.line for call in piece.places[number]] for number in piece.made_by]
        self.assertEqual(lines, [[5], [5], [5], [5], [6], [16], [17], [5], [5], [5], [5], [6], [11, 18]])
        at = piece.text.split(b"\n").index(b"warp shape_1 {") + 1
        self.assertEqual(calls_at(piece, at, 1)[0].line, 17)

    def test_origins_change_no_value_and_cost_little(self) -> None:
        def values() -> list[object]:
            tune = melody("c4 d4 e4~ e4", "1/8")
            return [tune, tune + tune, 3 * tune, tempo(90, tune), par(tune, tune), crescendo("p", "f", tune)]

        before = values()
        origins.wanted = __file__
        try:
            after = values()
        finally:
            origins.wanted = None
        self.assertEqual(before, after)
        self.assertEqual(list(map(hash, before)), list(map(hash, after)))
        self.assertEqual(list(map(repr, before)), list(map(repr, after)))
        self.assertEqual(len(origins.of(after[3])), 2)

    # ---- the verbs

    @needs_program
    def test_verbs_take_it(self) -> None:
        self.path.write_text(PIECE)
        out, beside = self.path.with_suffix(".mid"), self.path.with_name("beside.mid")
        self.assertEqual(self.verb("play", out)[:2], (0, ""))
        Score(note("c4", "1/4")).play(beside)
        for verb, *words in (("bars",), ("roll", self.path.with_suffix(".svg")), ("excerpt", beside, "--bars", "2"),
                             ("export", self.path.with_suffix(".abc")), ("diff", self.path)):
            answer = self.verb(verb, *words)
            self.assertEqual(answer.status, 0, answer)
        self.assertEqual(score("batch", "--python", self.path.parent, self.path.parent / "out").status, 0)
        self.assertEqual((self.path.parent / "out" / "piece.mid").read_bytes(), out.read_bytes())
        self.assertEqual(score("batch", self.path.parent, self.path.parent / "other").status, 70)

    @needs_program
    def test_findings_and_events_have_lines_of_python(self) -> None:
        self.path.write_text(PIECE.replace("c4 d4 e4 f4", "c4 d4 e4 as4").replace("tune.transpose(5)", "tune"))
        found = json.loads(self.verb("lint", "--json").said)["findings"]
        self.assertEqual({each["line"] for each in found if each["rule"] == "sharp-for-flat"}, {5})
        self.assertIn("of the text", self.verb("lint", "--text-places").said)
        places = json.loads(self.verb("bars", "--json", "--bar", "8700").said)["places"]
        self.assertEqual([call["line"] for call in places[0]["calls"]], [11, 18])

    @needs_program
    def test_a_refused_piece_keeps_the_old_file(self) -> None:
        out = self.path.with_suffix(".mid")
        out.write_bytes(b"old")
        self.path.write_text("x = 1\n")
        for verb, status in (("play", 3), ("roll", 3), ("excerpt", 3), ("bars", 1), ("lint", 1)):
            answer = self.verb(verb, *([out] if status == 3 else []))
            self.assertEqual(answer.status, status, verb)
            if verb == "play":  # it writes to the descriptors
                continue
            self.assertEqual(answer.said, "formula-score: no score: 1:1\n")
            self.assertTrue(answer.complaint.startswith(f"{self.path}:1:1: no score is there"), answer)
        self.assertEqual(score("play", self.path.parent / "folder.py", out).status, 2)
        self.assertEqual(out.read_bytes(), b"old")

    def test_words_for_the_piece(self) -> None:
        self.path.write_text("import sys\nraise ValueError(sys.argv[1:])\n")
        self.assertIn("ValueError: ['-x', '7']", self.verb("bars", "--", "-x", "7").complaint)
        self.assertEqual(self.verb("bars", "--limits", "time=0").status, 2)
        self.path.write_text("while True: pass\n")
        self.assertIn("longer than 1 seconds", self.verb("bars", "--limits", "time=1").complaint)

    # ---- what is hostile, and what is not

    def ends(self, text: str, why: str, limits: Limits = SHORT) -> None:
        """A piece ends within its limits with one sentence, and nothing that it started is left in its folder."""
        found = self.refused(f"import os, sys, time\n{text}\n", limits=limits)[0]
        self.assertRegex(found, why)
        until = time.monotonic() + 10  # one that is killed takes its memory apart
        while self.is_left() and time.monotonic() < until:
            time.sleep(0.1)
        self.assertFalse(self.is_left())

    def is_left(self) -> bool:
        for pid in filter(str.isdigit, os.listdir("/proc")):
            with contextlib.suppress(OSError):
                if os.readlink(f"/proc/{pid}/cwd") == str(self.path.parent.resolve()):
                    return True
        return False

    def test_what_is_hostile_ends(self) -> None:
        for text, why in (
                ("while True: pass", "longer than 2 seconds|more than 2 seconds of a processor"),
                ("import signal\nsignal.signal(signal.SIGTERM, signal.SIG_IGN)\ntime.sleep(99)", "longer than 2 seconds"),
                ("x = []\nwhile True: x.append(bytearray(1 << 24))", "longer than 2 seconds|MemoryError: it takes more than 1024 MB of memory"),
                ("while True: print('x' * 1000000)", "printed more than 1 MB|longer than 2"),
                ("input()", "EOFError"),
                ("os._exit(3)", "its process ended with status 3"),
                ("os.kill(os.getpid(), 9)", "SIGKILL ended its process|status 137"),
                ("os.write(3, b'{}' * 9)\nfor at in range(3, 20):\n    try: os.write(at, b'[]')\n    except OSError: pass\n"
                 "os._exit(0)", "status 0")):
            with self.subTest(text=text):
                self.ends(text, why)

    def test_forks_without_end(self) -> None:
        self.ends("while True:\n    if os.fork():\n        time.sleep(60)\n    os.setsid()",
                  "longer than 2 seconds|BlockingIOError")

    @unittest.skipUnless(jailed(), "NOT TRIED: there is no bubblewrap, or the host does not let it")
    def test_it_writes_nothing_and_reaches_nobody(self) -> None:
        for text, why in (
                ("open('beside', 'w')", "Read-only file system"), ("os.unlink(__file__)", "Read-only file system"),
                ("open('/dev/shm/beside', 'w')", "Read-only file system"), ("open('/tmp/beside', 'w')", "Read-only"),
                ("import socket\nsocket.create_connection(('127.0.0.1', 22), 1)", "Connection refused|unreachable"),
                ("import socket\nsocket.create_connection(('192.0.2.1', 80), 1)", "unreachable")):
            with self.subTest(text=text):
                self.ends(text, why)
        self.assertEqual(os.listdir(self.path.parent), ["piece.py"])

    def test_what_pieces_need_works(self) -> None:
        self.path.with_name("helper.py").write_text("LENGTH = '1/8'\n")
        self.path.with_name("data").write_text("c4 e4")
        piece = self.made("import random\nfrom formula_score import *\nfrom helper import LENGTH\n"
                          "random.seed(1)\nscore = Score(melody(open('data').read(), LENGTH))\n")
        self.assertIn(b"note c4 1/8; note e4 1/8;", piece.text)

    def test_examples_make_scores(self) -> None:
        for path in sorted((TOP / "examples" / "python").glob("*.py")):
            data = path.read_bytes()
            self.assertLessEqual(data.count(b"\n"), 40)
            self.assertGreater(Runner().run(str(path), data, Limits()).text.count(b"note "), 8, path)

    def test_numpy_works(self) -> None:
        found = subprocess.run([sys.executable, "-c", "import numpy"], stderr=subprocess.DEVNULL, check=False)
        if found.returncode:
            self.skipTest("NOT TRIED: numpy is missing")
        piece = self.made("import numpy\nfrom formula_score import *\n"
                          "score = Score(*(note(int(60 + n), '1/4') for n in numpy.arange(3)))\n",
                          limits=Limits())
        self.assertIn(b"note d4 1/4;", piece.text)


if __name__ == "__main__":
    unittest.main()
