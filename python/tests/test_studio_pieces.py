"""Python files in the studio: run where it was asked for, when they are opened and saved, and never while typed."""

from __future__ import annotations

import array
import hashlib
import os
import pathlib
import statistics
import time
import unittest

from formula_companion.studio.frames import Frame

from .studio import Running, StudioTest
from .test_studio_session import Page

PIECE = """from formula_score import *
tune = melody("c4 d4 e4 as4", "1/4")
print("hello")
score = Score(par(
    channel(0, tune),
    channel(1, note("c3", "1/1")),
))
"""
#: A piece of 2,000 notes.
LONG = "from formula_score import *\nscore = Score(*(note(48 + n % 24, '1/8') for n in range({})))\n"


def version_of(text: str) -> str:
    """What the studio calls a text."""
    return hashlib.sha256(text.encode()).hexdigest()


class Pieces(StudioTest):
    words = ("--python", "--limits", "time=3,cpu=3,memory=1024,output=1")

    def setUp(self) -> None:
        super().setUp()
        self.page = Page(self.studio)
        self.addCleanup(self.page.close)
        self.number = 0

    def run_piece(self, text: str, until: str) -> dict[str, Frame]:
        """Saves a file and lets it run: the frames up to one of a kind, by their kinds."""
        (self.folder / "piece.py").write_text(text)
        self.number += 1
        self.page.send(do="run", number=self.number, name="piece.py", version=version_of(text))
        return self.until(until)

    def until(self, kind: str) -> dict[str, Frame]:
        found: dict[str, Frame] = {}
        while kind not in found:
            frame = self.page.next()
            if frame.head["kind"] == "failed" and kind != "failed":
                self.fail(frame.head)
            found[frame.head["kind"]] = frame
        return found

    def test_a_piece_is_played_and_its_places_are_lines_of_python(self) -> None:
        found = self.run_piece(PIECE, "bars")
        self.assertEqual(found["file"].body[:4], b"MThd")
        self.assertEqual(found["made"].head["printed"], "hello\n")
        self.assertIn(b"par {", found["made"].body)
        head = found["picture"].head
        numbers = array.array("i", found["picture"].body)
        self.assertEqual(set(numbers[3 * head["events"]:][:head["happenings"]]), {1, 5})
        self.assertEqual([each["name"] for each in head["processes"][1:3]],
                         ["process 1 (branch 1, line 5)", "process 2 (branch 2, line 6)"])
        problems = (found.get("problems") or self.until("problems")["problems"]).head["problems"]
        self.assertEqual([(each["rule"], each["range"][0][0], each["changes"]) for each in problems],
                         [("sharp-for-flat", 1, [])])
        self.page.send(do="facts", question=7, event=0)
        self.assertIn(["Python", "line 2"], self.until("facts")["facts"].head["facts"])

    def test_what_is_wrong_is_marked(self) -> None:
        found = self.run_piece(PIECE.replace('"1/1"', '"1/7"').replace("c3", "h3"), "problems")["problems"].head["problems"]
        self.assertEqual((found[0]["severity"], found[0]["range"][0][0]), ("error", 5))
        self.assertIn("called from", found[0]["said"] + "called from")
        self.page.send(do="check", question=1, name="piece.py", text="x = (\n")
        self.assertEqual(self.until("check")["check"].head["problems"][0]["range"][0], [0, 4])

    def test_nothing_is_run_while_it_is_typed(self) -> None:
        mark = self.folder / "mark"
        text = f"open({str(mark)!r}, 'w')\n"
        self.page.send(do="check", question=1, name="piece.py", text=text)
        self.assertEqual(self.until("check")["check"].head["problems"], [])
        (self.folder / "piece.py").write_text(text)
        self.page.send(do="run", number=1, name="piece.py", version=version_of(text + "#"))
        self.assertIn("has changed", self.until("failed")["failed"].head["failed"])
        self.page.send(do="run", number=2, name="../piece.py", version=version_of(text))
        self.assertIn("is no file under the folder", self.until("failed")["failed"].head["failed"])
        self.page.send(do="text", number=3, text=text)
        self.until("problems")
        self.assertFalse(mark.exists())

    def test_a_run_can_be_ended_and_the_studio_answers_on(self) -> None:
        self.run_piece("while True: pass\n", "running")
        self.page.send(do="end")
        self.assertIn("was ended", self.until("failed")["failed"].head["failed"])
        for text in ("while True: pass\n", "import os\nwhile True: os.write(1, b'x' * 99999)\n", "import os\nos._exit(1)\n",
                     "import signal, time\nsignal.signal(signal.SIGTERM, signal.SIG_IGN)\ntime.sleep(99)\n",
                     "import os\nos.kill(os.getppid(), 9)\nos.kill(0, 9)\n", "x = []\nwhile True: x.append(bytearray(1 << 24))\n",
                     "import os, time\nwhile True:\n    if os.fork(): time.sleep(99)\n    os.setsid()\n"):
            with self.subTest(text=text):
                problems = self.run_piece(text, "problems")["problems"].head["problems"]
                self.assertEqual(len(problems), 1)
                self.assertEqual(self.studio.get("/about").status, 200)
        self.assertIn("file", self.run_piece(PIECE, "file"))

    def test_it_is_fast(self) -> None:
        took = []
        for count in range(2000, 2000 + int(os.environ.get("ROUNDS", "3"))):
            begun = time.monotonic()
            self.run_piece(LONG.format(count), "picture")
            took.append(time.monotonic() - begun)
            self.until("bars")
            time.sleep(0.5)
        if "ROUNDS" in os.environ:
            print(f"from the run to the picture: median {statistics.median(took):.2f} s, {sorted(took)}, "
                  f"load {os.getloadavg()[0]:.1f}")
        self.assertLess(statistics.median(took), 20)


class Without(StudioTest):
    def test_no_byte_of_python_is_run(self) -> None:
        mark = self.home / "mark"
        text = f"open({str(mark)!r}, 'w')\n"
        (self.folder / "piece.py").write_text(text)
        page = Page(self.studio)
        self.addCleanup(page.close)
        page.send(do="run", number=1, name="piece.py", version=version_of(text))
        self.assertIn("start the studio with --python", page.next().head["failed"])
        page.send(do="check", question=1, name="piece.py", text=text)
        page.send(do="text", number=2, text=text)
        self.assertEqual(page.next().head["kind"], "problems")
        self.assertEqual(self.studio.get("/files/piece.py").status, 403)
        self.assertEqual(self.studio.put("piece.py", text, None).status, 403)
        self.assertEqual(self.studio.get("/about").json["files"], ["inner/other.score", "tune.score"])
        self.assertFalse(self.studio.get("/about").json["python"])
        self.assertFalse(mark.exists())
        with self.assertRaisesRegex(AssertionError, "--python is missing"):
            Running(pathlib.Path(self.folder, "piece.py"))


if __name__ == "__main__":
    unittest.main()
