"""The companion's words: its verbs, their help, the statuses of a bad use, and what the pages show of it."""

from __future__ import annotations

import os
import re
import subprocess
import unittest
from unittest import mock

from .companion import score
from .program import TOP, needs_program

from formula_companion.verbs.program import VERBS


class Words(unittest.TestCase):
    def test_help_and_version_are_no_faults(self) -> None:
        for words in (["--help"], ["-h"], ["--version"], *([verb, "--help"] for verb in VERBS),
                      *([verb, "--version"] for verb in VERBS)):
            answer = score(*words)
            self.assertEqual((answer.status, answer.complaint), (0, ""), words)
            self.assertTrue(answer.said, words)

    def test_the_help_names_each_verb_and_says_that_nothing_is_proved(self) -> None:
        said = score("--help").said
        for verb in VERBS:
            self.assertIn(f"  {verb} ", said)
        self.assertIn("outside the proof", said)

    def test_a_bad_use_has_status_2_and_says_where_help_is(self) -> None:
        verbs = [verb for verb in VERBS if not VERBS[verb].takes_words]
        uses: list[list[str]] = [[], ["sing"], ["--loud"], *([verb, "--no-such-option"] for verb in verbs)]
        for words in uses:
            answer = score(*words)
            self.assertEqual((answer.status, answer.said), (2, ""), words)
            self.assertIn("--help", answer.complaint, words)

    def test_each_verb_has_one_screen_with_an_example_its_options_and_a_place_on_the_man_page(self) -> None:
        manual = (TOP / "docs" / "formula-score.1").read_text().replace("\\", "")
        self.assertEqual(score("--words").said.split(), [*VERBS, "--help", "--version"])
        for verb, of in VERBS.items():
            with mock.patch.dict(os.environ, {"COLUMNS": "100"}):
                said = score(verb, "--help").said
            self.assertLessEqual(said.count("\n"), 50, verb)
            self.assertIn(f"example: score {verb} {of.example}".strip() if not of.takes_words else "example: ", said,
                          verb)
            options = score("--words", verb).said.split()
            self.assertEqual([word for word in options if word not in said and not of.takes_words], [], verb)
            self.assertIn("--help", options)
            self.assertRegex(manual, rf"(?m)^(\.B[IR]? |\.B formula-score ){verb}\b", verb)

    def test_the_nearest_verb_and_option_are_named(self) -> None:
        for words, near, status in ((["lisen"], "listen", 2), (["exprot", "a"], "export", 2),
                                    (["bars", "a", "--metre", "3/4"], "--meter", 2), (["lint", "a", "--halp"], "--help", 2),
                                    (["batch", "a", "b", "--sedes", "1"], "--seeds", 70)):
            answer = score(*words)
            self.assertEqual(answer.status, status, words)
            self.assertIn(f"is `{near}` meant?", answer.complaint, words)
        self.assertNotIn("meant?", score("qqq").complaint)
        done = subprocess.run([TOP / "bin" / "formula-score", "play", "a", "b", "--worker=2"], stdout=subprocess.PIPE,
                              stderr=subprocess.PIPE, text=True, check=False)
        self.assertEqual((done.returncode, done.stderr.splitlines()[0]),
                         (1, "there is no option '--worker'; is `--workers` meant?"))

    def test_bash_completes_verbs_and_options(self) -> None:
        script = ('source "$1"; COMP_WORDS=("$2" "${@:3}"); COMP_CWORD=$(( $# - 2 )); _formula_score 2>/dev/null; '
                  'printf "%s\\n" "${COMPREPLY[@]}"')
        for words, wanted in ((["li"], {"listen", "lint"}), (["excerpt", "--ch"], {"--channel"})):
            done = subprocess.run(["bash", "-c", script, "bash", TOP / "editors/bash/formula-score",
                                   TOP / "bin/formula-score", *words], stdout=subprocess.PIPE, text=True, check=True)
            self.assertEqual({*done.stdout.split()}, wanted, words)

    @needs_program
    def test_the_pages_show_what_it_says(self) -> None:
        home, count = os.getcwd(), 0
        os.chdir(TOP)
        try:
            for page in ("TUTORIAL", "POSITIONS"):
                for block in re.findall(r"^```\n(\$ bin/formula-score .*?)^```", (TOP / "docs" / f"{page}.md").read_text(),
                                        re.M | re.S):
                    for command, said in re.findall(r"^\$ bin/formula-score (.*)\n((?:[^$].*\n)*)", block, re.M):
                        self.assertEqual(score(*command.split()).said, said, command)
                        count += 1
        finally:
            os.chdir(home)
        self.assertEqual(count, 3)


if __name__ == "__main__":
    unittest.main()
