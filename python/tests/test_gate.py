"""What tools/gate/watch.py makes of the processes and of the lines of a run of the gate; the order of the crates."""

from __future__ import annotations

import pathlib
import re
import sys
import unittest

TOP = pathlib.Path(__file__).resolve().parents[2]
sys.path.insert(0, str(TOP / "tools" / "gate"))
import report  # noqa: E402
from left import read_seconds  # noqa: E402
from sampling import Sampler, Task, task_of  # noqa: E402


class Tasks(unittest.TestCase):
    def test_a_process_works_at_code_tests_ground_or_an_edit(self) -> None:
        words = ["rattle", "build", "--crate-name", "fm_msg"]
        kept = [*words, "--incremental"]
        self.assertEqual(task_of(words, "/tmp/fm_msg"), Task("fm_msg", "code"))
        self.assertEqual(task_of([*words, "--test"], "/tmp/fm_msg"), Task("fm_msg", "tests"))
        self.assertEqual(task_of([*kept, "/tmp/rt-edits-1/seed"], "/tmp/rt-edit-2"), Task("fm_msg", "ground"))
        self.assertEqual(task_of([*kept, "/tmp/rt-edits-1/3"], "/tmp/rt-edit-2"), Task("fm_msg", "edits", 3))
        self.assertIsNone(task_of(["rattle", "check"], "/tmp/fm_msg"))

    def test_without_its_number_an_edit_is_known_by_its_folder(self) -> None:
        sampler, task = Sampler(), task_of(["rattle", "check", "--crate-name", "fm_msg", "--incremental", "/tmp/rt-edits-1"], "/tmp/rt-edit-2")
        self.assertEqual(task, Task("fm_msg", "edits"))
        assert task
        numbers = [sampler.numbered(task, folder).edit for folder in ("/tmp/rt-edit-2", "/tmp/rt-edit-9", "/tmp/rt-edit-2")]
        self.assertEqual(numbers, [0, 1, 0])


class Report(unittest.TestCase):
    SECONDS = {Task("fm_msg", "code"): 52.0, Task("fm_crew", "code"): 200.0, Task("fm_crew", "edits", 0): 52.0}

    def test_a_slower_machine_is_scaled(self) -> None:
        lines = report.budget_table(report.by_crate(self.SECONDS))
        self.assertEqual(lines[0], "fm_msg took 52 s of code, so each second counts 0.50 times:")
        self.assertEqual(lines[1], "2.5 minutes where the budget has 140 (code 2.1, tests 0.0, ground 0.0, edits 0.4)")
        self.assertEqual(lines[2], "the dearest crates, in minutes: fm_crew 2.1, fm_msg 0.4")

    def test_a_crate_past_its_share_is_named(self) -> None:
        share = read_seconds(report.SHARES)
        self.assertEqual(report.past_share(share), [])
        more = {**share, "fm_crew": 2 * share["fm_crew"] + 20, "fm_new": 30.0, "fm_msg": share["fm_msg"] + 1}
        self.assertEqual(report.past_share(more), [f"fm_crew {more['fm_crew']:.0f} for {share['fm_crew']:.0f}", "fm_new 30 for 0"])

    def test_a_new_table_of_shares_divides_the_budget(self) -> None:
        lines = report.share_lines(report.by_crate(self.SECONDS))
        self.assertEqual(lines[1:], ["fm_crew 6963", "fm_msg 1437"])

    def test_without_its_measure_a_run_is_not_compared(self) -> None:
        lines = report.budget_table(report.by_crate({Task("fm_crew", "code"): 1.0}))
        self.assertEqual(lines, ["no comparison with the budget: fm_msg was not proved in this run"])

    def test_the_goal_of_an_edit_is_what_the_checker_says_first(self) -> None:
        printed = ["rt: noise", "rt: must-fail fm_crew/no_lead.edit: refused, as it must be: src/limits.rt:7:1: error",
                   "rt: must-fail fm_crew/never_done.edit: NOT REFUSED: the crate is still proved"]
        self.assertEqual(report.goals(printed), {("fm_crew", "no_lead"): "src/limits.rt:7:1: error"})


class Crates(unittest.TestCase):
    def test_they_stand_in_the_sections_of_the_architecture(self) -> None:
        page = (TOP / "docs" / "ARCHITECTURE.md").read_text(encoding="utf-8")
        table = re.findall(r"^\| (?:\*\*([1-7]\. .*?)\*\*|`(fm_\w+)`) \|", page, re.M)
        lines = re.findall(r"^(?:# ([1-7]\. .*)|(fm_\w+)[ :].*)$", (TOP / "crates.txt").read_text(encoding="utf-8"), re.M)
        self.assertEqual([line for line in lines if not line[1].endswith("_tests")], table)


if __name__ == "__main__":
    unittest.main()
