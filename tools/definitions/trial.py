"""Changes definitions by rule, and tells which changes the rows find, and which of the others scores do.

    trial.py [FUNCTION] [CLAUSE] [--only PATTERN] [--alive] [--scores N] [--json FILE] [--table FILE]

Each definition that a clause needs and that computes is changed as mutants.py says. The rows that use the definition
are then run; a change is found where one of them does not come out true. With --scores, what no row finds is tried first on
the texts of rows about the table of the grammar, where a law says that a form has to spell them within the limits or not,
and on the words of rows about the command of the libraries, where one says that the rules ask for the same; and then on up
to N texts that use the definition, of the examples, of scripts/stress fuzz and at the limits of the grammar: it is found
where a product that `scripts/definitions` compares, from the tokens to the file, is another one. The table has a line for
each file: definitions, changes, how many a row finds that names the definition, how many only one that does not, how many a
law, how many a score, how many are the same by a rule, as operands of a sum that are exchanged, and how many are left. With
--alive each change that no row finds is told."""
from __future__ import annotations

import argparse
import json
import re
import sys
import time
from collections import Counter, defaultdict
from collections.abc import Callable, Iterator
from contextlib import contextmanager
from dataclasses import dataclass
from types import CodeType, FrameType
from typing import Any

sys.dont_write_bytecode = True
import limits  # noqa: E402
from limits import within  # noqa: E402
from mutants import Mutant, mutants_of  # noqa: E402
from notation import NotRead  # noqa: E402
from repository import Repository, Target, kit_of, row_files  # noqa: E402
from rows import TOP, Rows  # noqa: E402
from scores import Scores  # noqa: E402
from sizes import global_name  # noqa: E402
from statement import named_in_row, statement_of  # noqa: E402
from translate import Body, Translator, run  # noqa: E402
from values import KEPT, forget  # noqa: E402


# Changes that leave a definition as it is: what no row and no score finds is looked up here, with the reason.
EQUAL = {
    ("part_share", "arguments 1 and 2 of flat_of exchanged"): "a product",
    ("note_plays", "arguments 2 and 3 of note_end exchanged"): "a product",
    ("plays", "0 is 1"): "a list of one entry begins with it at each place",
    ("fillers", "the sides of ++ exchanged"): "one filler is as the other",
    ("status_of", "0 is 1"): "each message has a first byte",
    ("bounds_of", "arguments 1 and 2 of either exchanged"): "sums and maxima",
    ("bounds_in", "arguments 1 and 2 of plus exchanged"): "sums",
    ("sums_faults", "arguments 1 and 2 of plus exchanged"): "sums",
    ("bounds_beside", "arguments 1 and 2 of beside exchanged"): "sums and a maximum",
    ("place_faults", "the sides of ++ exchanged"): "one side has no fault, or both are gathered by their numbers",
    ("double_faults", "the sides of ++ exchanged"): "a name is in both lists or not",
    ("next_entry", "arguments 1 and 2 of same_quality exchanged"): "it is symmetric",
    ("settings_in_parts", "DEFAULT_PROCESS is DEFAULT_PROCESS - 1"): "it is 0, and no number is less",
    ("moved_on", "arguments 1 and 2 of same_quality exchanged"): "it is symmetric",
}


# Those of one clause, by its constructor: a branch has a block, which is one brace deeper than the fork.
DEEPER = "a branch has a block, which is one brace deeper"
EQUAL_OF = {("StmtWithin", "par", change): DEEPER
            for change in ("≤ is <", "most.braces is most.tokens", "the left side of × left out")}


# What rows give texts to, of which the law `table_is_the_grammar` says whether a form within the limits spells them; and
# what they give words to, of which the law `words_obey_rules` says that the rules ask for the same.
VERDICT = global_name(Target("definition", "Rattle.fm_grammar.proofs.Verdicts", "verdict"))
SETTINGS = global_name(Target("definition", "Rattle.fm_words.specs.Settings", "settings_of"))


@dataclass
class Row:
    place: str
    code: CodeType
    names: set[Target]
    uses: set[str]
    seconds: float = 0.0


class Trial:
    """The rows, and the module of the definitions that they run on."""

    def __init__(self, repository: Repository):
        read = Rows(repository)
        for path in row_files(TOP):
            read.read(path)
        self.translator = read.translator
        self.space = run(self.translator.module())
        self.rows: list[Row] = []
        named = names_of_rows(repository)
        for place, test in read.tests:
            self.rows.append(Row(place, compile(test, place, "eval"), named.get(place, set()), set()))
        self.by_name: dict[str, list[Row]] = defaultdict(list)
        self.unheard: dict[str, Any] = {}
        # what rows give to the table of the grammar, and to the command of the libraries
        self.texts: list[bytes] = []
        self.words: list[list[bytes]] = []
        self.heard(VERDICT, lambda text: self.texts.append(bytes(text)))
        self.heard(SETTINGS, lambda words: self.words.append([bytes(word) for word in words]))
        for row in self.rows:
            self.look_at(row)
        self.space.update(self.unheard)
        for row in self.rows:
            for name in row.uses:
                self.by_name[name].append(row)
        for rows in self.by_name.values():
            rows.sort(key=lambda row: row.seconds)

    def heard(self, name: str, tell: Callable[[Any], None]) -> None:
        """Each argument that a definition of one argument is given is told."""
        function = self.space[name]

        def call(argument: Any) -> Any:
            tell(argument)
            return function(argument)
        self.space[name], self.unheard[name] = call, function

    def look_at(self, row: Row) -> None:
        """Which definitions a row uses, and how long it takes."""
        forget()
        uses: set[str] = set()

        def called(frame: FrameType, event: str, argument: Any) -> None:
            if event == "call" and frame.f_code.co_filename == "<definitions>":
                uses.add(frame.f_code.co_name)
        begin = time.process_time()
        sys.setprofile(called)
        try:
            value = eval(row.code, self.space)
        finally:
            sys.setprofile(None)
        row.seconds = time.process_time() - begin
        row.uses = uses
        if value is not True:
            raise NotRead(f"{row.place}: it is not so")

    def python_of(self, mutant: Mutant) -> str:
        file, item = self.translator.found(mutant.target)
        return Body(self.translator, file, item, mutant.target, list(mutant.clauses)).text()

    def is_none(self, mutant: Mutant) -> bool:
        """Whether the Python stays as it is, as where only a proof was changed."""
        return self.python_of(mutant) == self.translator.functions[mutant.target]

    def found_by(self, mutant: Mutant) -> Row | None:
        """The first row that finds the change, one that names the definition before others."""
        rows = sorted(self.by_name.get(global_name(mutant.target), []),
                      key=lambda row: (mutant.target not in row.names, row.seconds))
        with changed(self.space, mutant.target, self.python_of(mutant)):
            return next((row for row in rows if not self.is_so(row)), None)

    def is_so(self, row: Row) -> bool:
        forget()
        within(1 + 20 * row.seconds)
        try:
            return eval(row.code, self.space) is True
        except Exception:  # noqa: BLE001, what does not compute is no row
            return False
        finally:
            within(0)


@contextmanager
def changed(space: dict[str, Any], target: Target, text: str) -> Iterator[None]:
    """A module in which one definition is another one for a while."""
    name = global_name(target)
    old, kept = space[name], len(KEPT)
    exec(compile(text, "<definitions>", "exec"), space)
    try:
        yield
    finally:
        space[name] = old
        del KEPT[kept:]
        forget()


def names_of_rows(repository: Repository) -> dict[str, set[Target]]:
    """The definitions that each row names."""
    found: dict[str, set[Target]] = {}
    for file in list(repository.files.values()):
        if not file.path.endswith(("Rows.antt", "/Examples.antt")):
            continue
        for item in file.items:
            if item.kind == "definition" and item.clauses:
                try:
                    found[f"{file.path}:{item.start}"] = set(named_in_row(repository, file, item))
                except NotRead:
                    continue
    return found


def tried(trial: Trial, scores: Scores | None, mutant: Mutant) -> tuple[str, str]:
    """How a change was found, and by what: a row that names the definition or another one, a law, a score, or nothing."""
    row = trial.found_by(mutant)
    if row is not None:
        return "named" if mutant.target in row.names else "other", row.place
    if scores:
        with changed(scores.definitions.space, mutant.target, trial.python_of(mutant)):
            for kind, parts in (("law", scores.law), ("score", scores.parts)):
                text = scores.found_by(global_name(mutant.target), parts)
                if text is not None:
                    return kind, text
    reason = EQUAL.get((mutant.target.name, mutant.change)) or EQUAL_OF.get((mutant.target.name, mutant.of, mutant.change))
    return ("equal", reason) if reason else ("alive", "")


KINDS = ("definitions", "changes", "named", "other", "law", "score", "equal", "alive")


def line_of(counts: Counter[str]) -> str:
    return ", ".join(f"{counts[kind]} {kind}" for kind in KINDS)


def table_of(rows: list[dict[str, str]]) -> str:
    """A line for each definition."""
    counts: dict[tuple[str, str], Counter[str]] = defaultdict(Counter)
    reasons: dict[tuple[str, str], set[str]] = defaultdict(set)
    for row in rows:
        key = row["path"], row["definition"]
        counts[key][row["kind"]] += 1
        if row["kind"] == "equal":
            reasons[key].add(f"{row['change']}: {row['by']}")
    lines = ["\t".join(("file", "definition", "mutants", "killed by a row", "by a law's row", "by the comparison",
                        "equal on purpose", "alive"))]
    for (path, name), found in sorted(counts.items()):
        equal = f"{found['equal']}{''.join(f'; {reason}' for reason in sorted(reasons[path, name]))}"
        numbers = sum(found.values()), found["named"] + found["other"], found["law"], found["score"]
        lines.append("\t".join(map(str, (path, name, *numbers, equal, found["alive"]))))
    return "\n".join(lines) + "\n"


def main() -> int:
    limits.begin()
    parser = argparse.ArgumentParser(description=__doc__, formatter_class=argparse.RawDescriptionHelpFormatter)
    parser.add_argument("function", nargs="?", default="formula_over")
    parser.add_argument("clause", nargs="?", default="accepted")
    parser.add_argument("--only", default="", help="only definitions of the files with this pattern in their path")
    parser.add_argument("--alive", action="store_true", help="tells each change that no row finds")
    parser.add_argument("--scores", type=int, default=0, help="how many texts what no row finds is tried on")
    parser.add_argument("--json", help="writes what was found")
    parser.add_argument("--table", help="writes a line for each definition, with tabs between")
    asked = parser.parse_args()
    statement = statement_of(Repository(TOP), asked.function, asked.clause)
    trial = Trial(Repository(TOP, kit_of("clap")))
    print(f"{len(trial.rows)} rows", flush=True)
    scores = Scores(asked.scores, trial.texts, trial.words) if asked.scores else None
    if scores:
        print(f"{len(scores.parts)} stages of texts, and {len(scores.law)} of what rows have", flush=True)
    table: dict[str, Counter[str]] = defaultdict(Counter)
    rows: list[dict[str, str]] = []
    for needed in statement.needed:
        target = needed.target
        if target.kind != "definition" or not re.search(asked.only, needed.path):
            continue
        for mutant in mutants_of_needed(trial, target):
            counts = table[needed.path]
            counts["definitions"] += (target.module, target.name) not in ((row["module"], row["definition"]) for row in rows)
            kind, by = tried(trial, scores, mutant)
            counts["changes"] += 1
            counts[kind] += 1
            rows.append({"path": needed.path, "module": target.module, "definition": target.name, "place": mutant.place,
                         "change": mutant.change, "kind": kind, "by": by})
            if kind in ("law", "score", "equal", "alive") and asked.alive:
                print(f"{kind}: {mutant.place} {target.name}: {mutant.change}{f': {by}' if by else ''}", flush=True)
    total: Counter[str] = Counter()
    for path, counts in sorted(table.items()):
        total.update(counts)
        print(f"{path}: {line_of(counts)}")
    print(f"all: {line_of(total)}")
    if asked.json:
        with open(asked.json, "w", encoding="utf-8") as file:
            json.dump(rows, file, ensure_ascii=False, indent=0)
    if asked.table:
        with open(asked.table, "w", encoding="utf-8") as file:
            file.write(table_of(rows))
    return 0


def makes_other(trial: Trial, mutant: Mutant) -> bool:
    """Whether a change makes other Python; a name that is no field of its own makes none."""
    try:
        return not trial.is_none(mutant)
    except NotRead:
        return False


def mutants_of_needed(trial: Trial, target: Target) -> list[Mutant]:
    """The changes of a definition that make other Python; a definition that is not read has none, and is told."""
    try:
        trial.translator.definition(target)
        mutants = mutants_of(trial.translator, target)
        if mutants and global_name(target) not in trial.space:
            space = run(trial.translator.module())
            trial.space.update({key: value for key, value in space.items() if key not in trial.space})
        return [mutant for mutant in mutants if makes_other(trial, mutant)]
    except NotRead as problem:
        print(f"not read: {problem}")
        return []


if __name__ == "__main__":
    sys.exit(main())
