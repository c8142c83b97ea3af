"""A Python file in the page: opened, coloured, run when it is saved, refused, and a note that leads to its line."""

from __future__ import annotations

import pathlib
import tempfile

from tests.studio import Running

from .page import PageTest

PIECE = """from formula_score import *
tune = melody("d4 a4", "1/4")
score = Score(tune)
"""


class Pieces(PageTest):
    def test_a_piece_is_written_and_heard(self) -> None:
        home = self.enterContext(tempfile.TemporaryDirectory())
        path = pathlib.Path(home, "piece.py")
        path.write_text(PIECE)
        studio = Running("--python", path)
        self.addCleanup(studio.close)
        self.browser.get(studio.address)
        self.waited(lambda: self.value("window.studio && studio.roll.piece && studio.places !== null"), "the picture")
        self.shown([62, 69])
        self.assertIn("cm-keyword", self.value(
            "[...document.querySelectorAll('.CodeMirror-line span[class^=cm-]')].map((each) => each.className)"))
        self.assertEqual(self.value("[...studio.places.lines]"), [1, 1])
        self.write(PIECE.replace("a4", "b4") + "x = (")
        self.waited(lambda: "never closed" in self.text("refusal"), "the syntax error")
        self.shown([62, 69])
        self.write(PIECE.replace("a4", "b4"))
        self.browser.execute_script("studio.files.save()")
        self.shown([62, 71])
        self.assertIn("b4", path.read_text())
        self.write("while True: pass\n")
        self.browser.execute_script("studio.files.save()")
        self.waited(lambda: self.value("!document.getElementById('end').hidden"), "the button")
        self.browser.execute_script("document.getElementById('end').click()")
        self.waited(lambda: "was ended" in self.text("told"), "its end")
