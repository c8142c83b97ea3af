"""The verb `format`: texts that were set by hand; and of examples, the cookbook and imports that they stay what they
are."""

from __future__ import annotations

import os
import pathlib
import re
import tempfile
import unittest

from .companion import Answer, score
from .program import TOP, needs_program, run
from .random_texts import Texts
from .test_cookbook import GENERATORS, score_of

from formula_score.reading.reader import read
from formula_score.rewriting.layout import formatted

LOOSE = """\
# A piece.\r
formula   2 ;division 96; seed 7;


shape s=flat 1/4 by 1000,slope 1/1 by 1000   to 2000;  # tempo
phrase a{note c4 ,e4 1/4;# two
note key(60+n0*2-(-r1)/2)   ticks 7; }
warp s{ par{branch{do a;}
branch { channel 1{ rest 1/4;
# inside

volume 9 { note key -0 1/4; control 7 -0; bend -5; } } } } } do a; set r1=-r2 /2;
if r1%2{ rest 1/8; } else { rest ticks(pick (3)) max 5;
} # last
"""
SET = """\
# A piece.
formula 2; division 96; seed 7;

shape s = flat 1/4 by 1000, slope 1/1 by 1000 to 2000;  # tempo
phrase a {
  note c4, e4 1/4;  # two
  note key (60 + n0 * 2 - (-r1) / 2) ticks 7;
}
warp s { par {
  branch { do a; }
  branch { channel 1 {
    rest 1/4;
    # inside

    volume 9 { note key -0 1/4; control 7 -0; bend -5; }
  } }
} }
do a; set r1 = -r2 / 2;
if r1 % 2 {
  rest 1/8;
} else {
  rest ticks (pick(3)) max 5;
}  # last
"""
#: What is set already: comments in a column, closing braces together, lists that are broken behind commas.
ALREADY = (SET, """\
formula 1;
note c4 1/4; note d4 1/4;   # bar 1
note e4 1/2;                # bar 2
volume 60 { gate 50 {
  note e4 1/1;  # bar 3
} }
rhythm [1/4, 1/8,
    1/8] { play c4; }
# the end
""", "formula 1;\n")


class Layouts(unittest.TestCase):
    def test_a_text_is_set(self) -> None:
        self.assertEqual(formatted(read(LOOSE.encode())).decode().splitlines(), SET.splitlines())

    def test_what_is_set_stays(self) -> None:
        for text in (*ALREADY[:1], *ALREADY[2:], ALREADY[1].replace("1/8,\n    1/8] { play c4; }",
                                                                    "1/8] { play c4; }")):
            self.assertEqual(formatted(read(text.encode())).decode(), text)

    def test_long_lines_are_broken(self) -> None:
        notes, bars = " ".join(["note c4 1/16;"] * 20), ", ".join(["1/4"] * 60)
        text = f"formula 1; phrase p {{ {notes} }} rhythm [{bars}] {{ play c4; }}"
        lines = formatted(read(text.encode())).decode().splitlines()
        self.assertEqual(lines[1:5], ["phrase p {", "  " + " ".join(["note c4 1/16;"] * 8),
                                      "  " + " ".join(["note c4 1/16;"] * 8), "  " + " ".join(["note c4 1/16;"] * 4)])
        shape = f"shape s = {', '.join(['flat 1/4 by 1000'] * 20)};"
        lines = formatted(read(f"formula 1; {shape}".encode())).decode().splitlines()
        self.assertEqual([line[:8] for line in lines], ["formula ", "shape s ", *["    flat"] * 3])
        self.assertLessEqual(max(map(len, lines)), 120)
        # heads of blocks that open on one line break within their lists, and once more in the same places
        entries = ", ".join(["100"] * 21)
        heads = f"loud [{entries}] {{ artic [{entries}] {{\n note c4 1/4;\n }} }}"
        new = formatted(read(f"formula 1;\n{heads}".encode()))
        self.assertEqual([line[:9] for line in new.decode().splitlines()[1:]],
                         ["loud [100", "    100, ", "  note c4", "} }"])
        self.assertEqual(formatted(read(new)), new)


@needs_program
class Formats(unittest.TestCase):
    def setUp(self) -> None:
        folder = tempfile.TemporaryDirectory()
        self.addCleanup(folder.cleanup)
        self.path = pathlib.Path(folder.name, "t.score")

    def formatted(self, text: str, *words: object) -> Answer:
        self.path.write_bytes(text.encode())
        return score("format", self.path, *words)

    def test_the_verb_writes_what_differs_alone(self) -> None:
        loose, neat = "formula 1;note c4 1/4 ;", "formula 1; note c4 1/4;\n"
        self.assertEqual(self.formatted(loose, "--check"),
                         Answer(1, f"{self.path}: this is not in the layout of `format`\n", ""))
        self.assertEqual((self.formatted(loose, "--to", "-").said, self.path.read_text()), (neat, loose))
        self.assertEqual((self.formatted(loose), self.path.read_text()), (Answer(0, "", ""), neat))
        before = self.path.stat().st_ino, self.path.stat().st_mtime_ns
        self.assertEqual((score("format", self.path).status, score("format", self.path, "--check").status), (0, 0))
        self.assertEqual((self.path.stat().st_ino, self.path.stat().st_mtime_ns), before)
        answer = self.formatted("formula 1; note c4;")
        self.assertEqual((answer.status, self.path.read_text()), (1, "formula 1; note c4;"))

    def test_the_same_file_and_the_same_text_once_more(self) -> None:
        paths = sorted((TOP / "examples").glob("*/*.score"))
        paths = [path for path in paths if path.parent.name not in ("refused", "long")]
        home = os.getcwd()
        os.chdir(self.path.parent)  # some generators write files
        try:
            texts = [score_of(generator).text for generator in GENERATORS]
        finally:
            os.chdir(home)
        texts += [path.read_text() for path in paths]
        # one has comments wherever they may be, and all other examples are set already
        self.assertEqual([path.name for path in paths if formatted(read(path.read_bytes())) != path.read_bytes()],
                         ["comments.score"])
        texts += [text for text in (Texts(seed).score() for seed in range(12)) if run(text)[0] == 0]
        set_already = 0
        for text in texts:
            new = formatted(read(text.encode()))
            self.assertEqual(formatted(read(new)), new, text)
            self.assertEqual([re.sub(rb"\s+", b" ", comment.text.encode()) for comment in read(new).comments],
                             [re.sub(rb"\s+", b" ", comment.text.encode()) for comment in read(text.encode()).comments])
            self.assertEqual(run(new.decode())[2], run(text)[2], text)
            set_already += new == text.encode()
        self.assertGreater(set_already, 30)

    def test_an_import_is_set_already(self) -> None:
        middle = self.path.with_suffix(".mid")
        score("export", TOP / "examples" / "tutorial" / "8_end.score", middle)
        score("import", middle, self.path)
        self.assertEqual(score("format", self.path, "--check").status, 0, self.path.read_text())


if __name__ == "__main__":
    unittest.main()
