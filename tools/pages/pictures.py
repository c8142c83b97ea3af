"""The pictures of the pages: piano rolls of the steps of docs/TUTORIAL.md, of two generators of python/COOKBOOK.md, and of
two examples without their deformations and with them, side by side. Each is drawn by the companion from a listing. The last
step of the tutorial is also drawn as notes, by MuseScore 3 where it is installed."""

from __future__ import annotations

import os
import pathlib
import re
import shutil
import subprocess
import sys
import tempfile

#: Generators of the cookbook, by their numbers there, and the names of their pictures.
GENERATORS = {1: "canon", 3: "phases"}
BESIDE = "breath_and_pause", "nested_deformations"
#: The part of a page of MuseScore that is shown.
PAPER = "0 100 2976 1880"


class Drawing:
    """Draws scores, in a folder for what comes between."""

    def __init__(self, top: pathlib.Path, program: str, folder: pathlib.Path):
        self.top, self.program, self.folder = top, program, folder
        self.pictures = top / "docs" / "pictures"

    def draw(self, score: pathlib.Path, picture: pathlib.Path) -> None:
        """Draws a score."""
        file, listing = self.folder / "piece.mid", self.folder / "piece.listing"
        subprocess.run([self.program, score, file], check=True)
        subprocess.run([self.program, file, listing, "--list"], check=True)
        subprocess.run([self.top / "bin" / "formula-score", "roll", listing, picture], check=True)

    def generator(self, number: int) -> pathlib.Path:
        """The score that a generator of the cookbook makes."""
        texts = re.findall(r"^```python\n(.*?)^```", (self.top / "python" / "COOKBOOK.md").read_text(encoding="utf-8"), re.M | re.S)
        score, script = self.folder / "generator.score", self.folder / "generator.py"
        script.write_text(f"{texts[number - 1]}score.save({str(score)!r})\n", encoding="utf-8")
        subprocess.run([sys.executable, "-B", script], check=True, env={**os.environ, "PYTHONPATH": str(self.top / "python")})
        return score

    def on_paper(self, score: pathlib.Path) -> None:
        """Draws a score as notes, and keeps the upper part of the page, on a white ground."""
        picture = self.pictures / "paper.svg"
        subprocess.run([self.top / "bin" / "formula-score", "print", score, picture, "--title", "Ode to Joy",
                        "--composer", "Ludwig van Beethoven"], check=True)
        drawn = re.sub(r'<svg [^>]*?\n', f'<svg width="893" height="564" viewBox="{PAPER}"\n', picture.read_text(encoding="utf-8"),
                       count=1)
        ground = '</desc>\n<rect width="100%" height="100%" fill="#ffffff"/>'
        picture.write_text(drawn.replace("</desc>", ground, 1), encoding="utf-8")

    def with_and_without(self, name: str) -> None:
        """Draws an example without its deformations and with them, side by side."""
        score, plain = self.top / "examples" / "scores" / f"{name}.score", self.folder / "plain.score"
        plain.write_text(re.sub(r"warp [a-z_]* \{", "repeat 1 {", score.read_text(encoding="utf-8")), encoding="utf-8")
        drawn = []
        for text in (plain, score):
            self.draw(text, self.folder / "side.svg")
            drawn.append((self.folder / "side.svg").read_text(encoding="utf-8"))
        (self.pictures / f"{name}.svg").write_text(side_by_side(*drawn), encoding="utf-8")


def size(picture: str, word: str) -> int:
    """The width or the height of a picture."""
    found = re.match(rf'.* {word}="([0-9]+)"', picture)
    assert found, word
    return int(found[1])


def side_by_side(left: str, right: str) -> str:
    """Both pictures in one."""
    width, height = size(left, "width") + size(right, "width"), max(size(left, "height"), size(right, "height"))
    moved = right.replace("<svg ", f'<svg x="{size(left, "width")}" ', 1)
    return (f'<svg xmlns="http://www.w3.org/2000/svg" width="{width}" height="{height}" viewBox="0 0 {width} {height}">\n'
            f'<rect class="ground" width="{width}" height="{height}" fill="#ffffff"/>\n{left}{moved}</svg>\n')


def draw_all(top: pathlib.Path, program: str) -> None:
    """Draws all pictures anew."""
    shown = (top / "docs" / "TUTORIAL.md").read_text(encoding="utf-8")
    with tempfile.TemporaryDirectory() as folder:
        drawing = Drawing(top, program, pathlib.Path(folder))
        for score in sorted((top / "examples" / "tutorial").glob("*.score")):
            if f"pictures/{score.stem}.svg" in shown:
                drawing.draw(score, drawing.pictures / f"{score.stem}.svg")
        if shutil.which("musescore3"):
            drawing.on_paper(top / "examples" / "tutorial" / "8_end.score")
        for number, name in GENERATORS.items():
            drawing.draw(drawing.generator(number), drawing.pictures / f"cookbook_{name}.svg")
        for name in BESIDE:
            drawing.with_and_without(name)
