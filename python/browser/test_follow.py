"""The page of `roll --follow` in a browser: it goes with the score, and shows the refusals beside it."""

from __future__ import annotations

import pathlib
import subprocess
import sys
import tempfile
import time
import unittest
from typing import Callable

from selenium.common.exceptions import WebDriverException

from tests.program import TOP

from .page import LONGEST, started

TUNE = "formula 1;\nnote c4 1/4; note e4 1/4;\nnote g4 1/2;\n"
REFUSED = TUNE.replace("1/2;", "1/2")
LONGER = TUNE + "note c5 1/1;\n"


class Follow(unittest.TestCase):
    def setUp(self) -> None:
        home = tempfile.TemporaryDirectory()
        self.addCleanup(home.cleanup)
        self.score, self.page = pathlib.Path(home.name, "tune.score"), pathlib.Path(home.name, "roll.html")
        self.score.write_text(TUNE)
        words = ["roll", str(self.score), str(self.page), "--meter", "4/4", "--follow"]
        follower = subprocess.Popen([sys.executable, str(TOP / "bin" / "formula-score"), *words], stdout=subprocess.DEVNULL)
        self.addCleanup(follower.wait)
        self.addCleanup(follower.terminate)
        self.wait(self.page.exists, "the page")
        self.browser = started(home.name)
        self.addCleanup(self.browser.quit)
        self.browser.get(self.page.as_uri())

    def wait(self, holds: Callable[[], bool], what: str) -> None:
        """Until something holds."""
        end = time.monotonic() + 4 * LONGEST
        while time.monotonic() < end:
            try:
                if holds():
                    return
            except WebDriverException:
                pass    # the page is loaded anew meanwhile
            time.sleep(0.2)
        self.fail(f"not seen: {what}")

    def value(self, script: str) -> object:
        return self.browser.execute_script(f"return {script}")

    def test_it_goes_with_the_score(self) -> None:
        self.wait(lambda: self.value("document.querySelector('figure').className") != "stale", "the first picture")
        before = self.value("document.querySelector('svg').outerHTML")
        self.score.write_text(REFUSED)
        self.wait(lambda: "each statement ends with" in str(self.value("document.querySelector('aside').innerText")),
                  "the refusal")
        self.assertEqual(self.value("document.querySelector('figure').className"), "stale")
        self.assertEqual(self.value("document.querySelector('svg').outerHTML"), before)
        self.score.write_text(LONGER)
        self.wait(lambda: self.value("document.querySelector('svg').outerHTML") != before, "the second picture")
        self.wait(lambda: "fault" not in str(self.value("document.querySelector('aside').innerText")), "no refusal")


if __name__ == "__main__":
    unittest.main()
