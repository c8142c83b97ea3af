"""The grammar for editors that read TextMate's, on every example that plays."""
import json
import os
import re
import shutil
import subprocess
import tempfile
import unittest
from typing import Iterator

from .companion import score
from .program import needs_program

TOP = os.path.dirname(os.path.dirname(os.path.dirname(os.path.abspath(__file__))))
VIM, VS_CODE = os.path.join(TOP, "editors", "vim"), os.path.join(TOP, "editors", "vscode")
REFUSED = "formula: score refused: 2:12 fault 3"
GRAMMAR = os.path.join(VS_CODE, "syntaxes", "formula.tmLanguage.json")
FOLDERS = [os.path.join(TOP, "examples", name) for name in ("scores", "tutorial", "long")]


def scopes(patterns: list[tuple[str, "re.Pattern[str]"]], line: str) -> Iterator[tuple[str, str]]:
    """Each token of a line with its scope: the leftmost match, of several there the first pattern's."""
    at = 0
    while at < len(line):
        found = [(match.start(), number, match) for number, (_, pattern) in enumerate(patterns)
                 for match in [pattern.search(line, at)] if match and match.group()]
        if not found:
            return
        _, number, match = min(found)
        yield patterns[number][0].split(".formula-score")[0], match.group()
        at = match.end()


def refuses(path: str, body: str) -> None:
    """Makes a command that refuses each score."""
    with open(path, "w", encoding="utf-8") as file:
        file.write(f"#!/bin/sh\n{body}\n")
    os.chmod(path, 0o755)


class Editors(unittest.TestCase):
    def setUp(self) -> None:
        with open(GRAMMAR, encoding="utf-8") as file:
            self.patterns = [(pattern["name"], re.compile(pattern["match"])) for pattern in json.load(file)["patterns"]]

    def test_each_example_has_scopes_for_all_it_holds(self) -> None:
        tried = 0
        for folder in FOLDERS:
            for name in sorted(os.listdir(folder)) if os.path.isdir(folder) else []:
                if not name.endswith(".score"):
                    continue
                tried += 1
                with open(os.path.join(folder, name), encoding="utf-8") as file:
                    for number, line in enumerate(file, 1):
                        for scope, token in scopes(self.patterns, line.rstrip("\n")):
                            self.assertFalse(scope.startswith("invalid"), f"{name}:{number}: {token}")
        self.assertGreater(tried, 20)

    def test_words_have_the_scopes_of_their_kind(self) -> None:
        line = "formula 2; division 96; phrase division { note cs4, bb3 1/4; } # division 96"
        self.assertEqual(
            [scope for scope, _ in scopes(self.patterns, line)],
            ["keyword.other", "constant.numeric", "punctuation", "keyword.other", "constant.numeric", "punctuation",
             "storage.type", "entity.name", "punctuation", "support.function", "constant.other.pitch", "punctuation",
             "constant.other.pitch", "constant.numeric", "keyword.operator", "constant.numeric", "punctuation",
             "punctuation", "comment.line.number-sign"])

    def test_vs_code_finds_the_place_of_a_refusal(self) -> None:
        with open(os.path.join(VS_CODE, "package.json"), encoding="utf-8") as file:
            pattern = json.load(file)["contributes"]["problemMatchers"][0]["pattern"]
        with open(os.path.join(VS_CODE, "tasks.json"), encoding="utf-8") as file:
            task, _ = json.load(file)["tasks"]
        self.assertEqual(task["type"], "process")
        for name in "tune", "it's rock & roll|100% \\1":
            with tempfile.TemporaryDirectory() as folder:
                score = os.path.join(folder, f"{name}.score")
                refuses(os.path.join(folder, "formula"), f'[ "$1 $2" = "$WANTED" ] || exit 9\necho "{REFUSED}"\nexit 3')
                words = [word.replace("${file}", score).replace("${fileDirname}", folder)
                         .replace("${fileBasenameNoExtension}", name) for word in (task["command"], *task["args"])]
                done = subprocess.run(words, stdout=subprocess.PIPE, text=True, check=False, env={
                    "PATH": f"{folder}:{os.environ['PATH']}", "WANTED": f"{score} {folder}/{name}.mid"})
                match = re.match(pattern["regexp"], done.stdout)
                assert match is not None
                self.assertEqual([done.returncode, *(match[pattern[group]] for group in ("file", "line", "column", "message"))],
                                 [3, score, "2", "12", "fault 3"])

    @needs_program
    def test_vs_code_finds_what_an_editor_shows(self) -> None:
        with open(os.path.join(VS_CODE, "package.json"), encoding="utf-8") as file:
            pattern = json.load(file)["contributes"]["problemMatchers"][1]["pattern"]
        with tempfile.TemporaryDirectory() as folder:
            for name, text in (("a", "formula 1;\nnote c4 1/4\n"), ("b", "formula 1;\nnote es4 1/1; repeat 2 { }\n")):
                with open(os.path.join(folder, f"{name}.score"), "w", encoding="utf-8") as file:
                    file.write(text)
            *lines, last = score("lint", "--all", folder).said.splitlines()
            found = [match.group(*(pattern[group] for group in ("file", "line", "column", "severity", "code")))
                     for match in (re.match(pattern["regexp"], line) for line in lines) if match]
            self.assertEqual(last, "2 scores: 1 warning, 1 remark, 1 refused")
            self.assertEqual(found, [(f"{folder}/a.score", "2", "11", "error", "fault 3"),
                                     (f"{folder}/b.score", "2", "6", "warning", "sharp-for-flat"),
                                     (f"{folder}/b.score", "2", "15", "remark", "empty-block")])

    @unittest.skipUnless(shutil.which("vim"), "NOT TRIED: vim is not installed")
    def test_vim_jumps_to_the_place_of_a_refusal(self) -> None:
        with tempfile.TemporaryDirectory() as folder:
            score, place = os.path.join(folder, "a tune.score"), os.path.join(folder, "place")
            command = os.path.join(folder, "refuses")
            with open(score, "w", encoding="utf-8") as file:
                file.write("formula 1;\nnote c4 1/4 oops\n")
            refuses(command, f'[ "$1" = "{score}" ] || exit 9\necho "{REFUSED}"\necho "and a caret under it" >&2\nexit 3')
            subprocess.run(
                ["vim", "-N", "-u", "NONE", "-es", f"+set runtimepath^={VIM}", f"+let g:formula_command = '{command}'",
                 "+filetype plugin on", "+set filetype=formula", "+silent make",
                 f"+call writefile([line('.') . ':' . col('.') . ' ' . len(getqflist())], '{place}')", "+qa!", score],
                timeout=20, check=False, stdin=subprocess.DEVNULL, stdout=subprocess.DEVNULL, stderr=subprocess.DEVNULL)
            with open(place, encoding="utf-8") as file:
                self.assertEqual(file.read(), "2:12 1\n")


if __name__ == "__main__":
    unittest.main()
