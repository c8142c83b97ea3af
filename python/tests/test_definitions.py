"""What stands beside the definitions that run: lists, the model's scores as plain values, words, and runs by two programs."""

from __future__ import annotations

import importlib
import pathlib
import sys
import tempfile
import unittest
import unittest.mock
from typing import Any

from .program import TOP, score_model

sys.path[:0] = [str(TOP / "tools" / name) for name in ("definitions", "jobs", "stress", "")]

running: Any = importlib.import_module("running")
plain_values: Any = importlib.import_module("plain_values")
beside: Any = importlib.import_module("beside")
library: Any = importlib.import_module("library")
page: Any = importlib.import_module("page")
repository: Any = importlib.import_module("repository")
statement: Any = importlib.import_module("statement")


class Libraries(unittest.TestCase):
    def test_each_name_has_its_meaning_and_none_is_spare(self) -> None:
        used: set[str] = set()
        for function in ("formula", "formula_over"):
            used |= page.library_names(statement.statement_of(repository.Repository(str(TOP)), function, None))
        self.assertEqual({name for _, name, _ in library.table()}, used)


class Lists(unittest.TestCase):
    def test_a_list_knows_its_length_however_it_was_made(self) -> None:
        front, back = running.listed([1, 2, 3]), running.listed([4, 5])
        both = running.joined(front, back)
        self.assertEqual([running.length(items) for items in (running.NIL, back, both, both.tail, both.tail.tail.tail)],
                         [0, 2, 5, 4, 2])
        more = running.Pair(0, running.joined(running.joined(both, running.NIL), both))
        self.assertEqual((running.length(more), running.length(more)), (11, 11))
        self.assertEqual(list(more), [0, 1, 2, 3, 4, 5, 1, 2, 3, 4, 5])

    def test_lists_are_equal_by_their_elements(self) -> None:
        front, back = running.listed([1, 2]), running.listed([3])
        both = running.joined(front, back)
        self.assertEqual(both, running.listed([1, 2, 3]))
        self.assertEqual(running.Pair(0, both), running.Pair(0, both))
        for other in (front, back, running.NIL, running.listed([1, 2, 4]), running.listed([1, 2, 3, 4]), [1, 2, 3]):
            self.assertNotEqual(both, other)
            self.assertNotEqual(other, both)

    def test_functions_of_the_library(self) -> None:
        library = {name: function for name, (_, function) in running.LIBRARY.items()}
        numbers = running.listed(range(5))
        self.assertEqual(list(library["map"](lambda number: number + 1, numbers)), [1, 2, 3, 4, 5])
        self.assertEqual(list(library["flat_map"](lambda number: running.listed([number] * (number % 3)), numbers)),
                         [1, 2, 2, 4])
        self.assertEqual(library["count_by"](lambda number: number > 1, numbers), 3)
        self.assertEqual(library["find"](lambda number: number > 1, numbers), running.some(2))
        self.assertEqual(library["find"](lambda number: number > 9, numbers), running.NONE)
        self.assertEqual(running.curried(lambda first, second, third: (first, second, third), 3, 1, 2)(3), (1, 2, 3))
        self.assertEqual(running.curried(lambda first, second, third: (first, second, third), 3, 1)(2)(3), (1, 2, 3))
        self.assertEqual(running.curried(lambda first, second, third: (first, second, third), 3)(1)(2)(3), (1, 2, 3))


class Plain(unittest.TestCase):
    def test_the_score_of_the_model(self) -> None:
        text = (b"formula 1; seed 7; shape s = flat 1/4 by 900, breath ticks 5; phrase p { rhythm [1/2, 1/8] { play c4; } } "
                b"phrase unused { rhythm [ticks 7000] { skip; } } do p; warp s { set r1 = -(2 + n0) * 3; } gate 80 { } "
                b"if less(r1, 1) { control 7 (r1); } else { note key -1 ticks (pick(3)) max 9; }")
        postfix = [("Literal", 2), ("Index", 0), ("Add",), ("Negate",), ("Literal", 3), ("Multiply",)]
        rhythm = ("under", ("duration",), [960, 240], [("note", [("given", 60)], ("beat",))])
        note = ("note", [("given", -1)], ("counted", [("Literal", 3), ("Pick",)], 9))
        test = [("Register", 1), ("Literal", 1), ("Less",)]
        self.assertEqual(plain_values.model_score(score_model, text), (7, 7000, [
            ("phrase", [rhythm]),
            ("warp", [("Flat", 480, 900), ("Breath", 5)], [("assign", 1, postfix)]),
            ("steady", ("articulation",), 80, []),
            ("choice", test, [("send", ("control", 7), ("drawn", [("Register", 1)]))], [note]),
        ]))

    def test_the_marks_of_the_model(self) -> None:
        text = b"formula 1; rest ticks 10; note c4 ticks 100; bend -8192;"
        self.assertEqual(plain_values.model_marks(score_model, text), [
            (0, 0, bytes((144, 60, 64)), 10, None), (0, 1, bytes((128, 60, 64)), 10, 100), (0, 2, bytes((224, 0, 0)), 110, None),
            (0, 3, None, 110, None)])


class Words(unittest.TestCase):
    def test_what_words_ask_for(self) -> None:
        read = beside.command_line.read(["a", "--lead=5", "b", "--parts", "--to", "+7"])
        self.assertEqual(beside.settings(read), {
            "source": [97], "target": [98], "workers": 4, "lead": 5, "room": 32, "generate": None, "rounds": False, "list": False,
            "parts": True, "locate": None, "process": 0, "from": None, "to": 7, "recorded": False, "audited": False})


class Compilers(unittest.TestCase):
    def test_runs_of_two_programs(self) -> None:
        compilers: Any = importlib.import_module("compilers")
        with tempfile.TemporaryDirectory() as folder, unittest.mock.patch.object(compilers, "LONGEST", 1):
            programs = []
            for name, line in (("one", "cat >/dev/null; echo $3"), ("other", "[ $3 != slow ] || sleep 30; echo ${3#un}")):
                path = pathlib.Path(folder, name)
                path.write_text(f"#!/bin/sh\n{line}\n")
                path.chmod(0o755)
                programs.append(str(path))
            both = compilers.Both(programs, folder)
            for word in ("same", "unlike", "slow"):
                both.compare("words", word, ["in", both.out, word], b"")
            self.assertEqual(both.counts["words"], 3)
            self.assertEqual(len(both.differ), 3)
            self.assertRegex(both.differ[0], r"^words: unlike unlike: status 0, b'unlike\\n'.* in place of status 0, b'like\\n'")
            self.assertRegex(both.differ[1], r"^no end after 1 seconds: .*/other in .*/out slow$")
            self.assertRegex(both.differ[2], r"^words: slow slow: status 0, .* in place of status -1000, ")


if __name__ == "__main__":
    unittest.main()
