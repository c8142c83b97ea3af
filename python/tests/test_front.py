"""What README.md shows: its pages are there, and its scores, its Python and its calls do what it says."""

from __future__ import annotations

import os
import pathlib
import re
import shlex
import subprocess
import tempfile
import unittest
from unittest import mock

from .program import PROGRAM, TOP, needs_program, run

PAGE = (TOP / "README.md").read_text(encoding="utf-8")
SCORES = re.findall(r"^```score\n(.*?)^```", PAGE, re.M | re.S)


class Front(unittest.TestCase):
    def test_each_page_that_it_names_is_there(self) -> None:
        names = re.findall(r"[`(]([\w./]+\.(?:md|1|svg)|COPYING)[`)]", PAGE)
        self.assertGreater(len(names), 20)
        self.assertEqual([name for name in names if not (TOP / name).is_file()], [])

    @needs_program
    def test_its_first_score_has_its_bytes(self) -> None:
        shown = "".join(re.findall(r"^((?:[0-9A-F]{2} )+)  ", PAGE, re.M))
        self.assertEqual(run(SCORES[0]), (0, "", bytes.fromhex(shown)))

    @needs_program
    def test_its_python_plays(self) -> None:
        home, text = os.getcwd(), re.findall(r"^```python\n(.*?)^```", PAGE, re.M | re.S)[0]
        with tempfile.TemporaryDirectory() as folder, mock.patch.dict(os.environ, FORMULA=str(PROGRAM)):
            os.chdir(folder)
            try:
                exec(text, {})
                self.assertEqual(pathlib.Path("duet.mid").read_bytes()[:4], b"MThd")
            finally:
                os.chdir(home)

    @needs_program
    def test_its_calls_do_what_they_say(self) -> None:
        calls = [shlex.split(line, comments=True) for line in re.findall(r"^formula \w+\..*", PAGE, re.M)]
        files, printed = [], []
        with tempfile.TemporaryDirectory() as folder:
            pathlib.Path(folder, "tune.score").write_text(SCORES[1], encoding="utf-8")
            for _, *words in calls:
                done = subprocess.run([str(PROGRAM), *words], cwd=folder, stdout=subprocess.PIPE, check=True)
                printed.append(done.stdout.decode())
                path = pathlib.Path(folder, words[1])
                files.append(path.read_bytes() if path.is_file() else b"")
        played, alone, parts, excerpt, _, located, record, audited = files
        self.assertEqual((alone, audited, located), (played, played, b""))
        self.assertEqual((parts[8:12].hex(), record[:4]), ("00010003", b"FMR1"))
        self.assertEqual(excerpt[29:37].hex(), "00904440" "00913040")
        self.assertEqual((printed[4].splitlines()[0], "".join(printed[:4] + printed[6:])), ("format 0 tracks 1 division 480", ""))
        # 431 ticks into the second bar 431 + 431 * 431 / 3840 have passed, which is below 480, and after 432 it is above
        self.assertEqual(printed[5], "process 1 levels 1 start 0 positions 2352\n")


if __name__ == "__main__":
    unittest.main()
