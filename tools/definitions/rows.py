"""Runs the rows: lemmas that the checker closes by computing, computed once more by the translated definitions.

    rows.py [--module FILE]

Every row whose two sides compute has to come out true. A row that says something else than equations is told with its
reason. With --module the Python that was made is written to a file."""
from __future__ import annotations

import os
import sys
import threading
from collections import Counter
from typing import Any

sys.dont_write_bytecode = True
from notation import File, Item, NotRead, Word, groups_of, is_row, signature_of  # noqa: E402
from repository import Repository, Target, kit_of, row_files  # noqa: E402
from sizes import local  # noqa: E402
from terms import Parser, Term  # noqa: E402
from translate import Body, Translator, run  # noqa: E402

TOP = os.path.dirname(os.path.dirname(os.path.dirname(os.path.abspath(__file__))))


class Rows:
    def __init__(self, repository: Repository):
        self.repository, self.translator = repository, Translator(repository)
        self.tests: list[tuple[str, str]] = []
        self.left_out: list[tuple[str, str]] = []

    def read(self, path: str) -> None:
        module = "Rattle." + os.path.relpath(path, f"{self.repository.top}/crates").removesuffix(".antt").replace("/", ".")
        file = self.repository.known_file(module)
        for item in file.items:
            if item.kind == "definition" and (is_row(item) or gives_record(item)):
                place = f"{file.path}:{item.start}"
                try:
                    test = self.test(file, item) if is_row(item) else self.record_test(file, item)
                    self.tests.append((place, test))
                except NotRead as problem:
                    self.left_out.append((place, str(problem).removeprefix(f"{file.path}:")))

    def test(self, file: File, item: Item) -> str:
        """The row as a term of Python, with all that it names made."""
        behind, unfolded, _ = signature_of(item)
        parser = Parser(file.path, item.words[:unfolded], lambda word: self.repository.is_constructor(file, word))
        parser.at = behind + 1
        given = parser.given()
        term = parser.term()
        if parser.at != unfolded:
            raise parser.refuse("a row of another form")
        bound = {name: "ANYTHING" for name in given}
        expression = Body(self.translator, file, item, Target("definition", file.module, item.name)).term(term, bound)
        for name in self.repository.definition(Target("definition", file.module, item.name)).names:
            self.translator.definition(name)
        return expression


    def record_test(self, file: File, item: Item) -> str:
        """A row that gives a record: what stands in it, and that each part which says something comes out true."""
        behind, unfolded, _ = signature_of(item)
        own = Target("definition", file.module, item.name)
        said = Parser(file.path, item.words[behind + 1:unfolded], lambda word: self.repository.is_constructor(file, word)).term()
        arguments: list[Term] = []
        while said.kind == "apply":
            parts: Any = said.parts
            said, arguments = parts[0], [parts[1], *arguments]
        target = self.repository.resolve(file, tuple(said.word.parts), said.word.line)
        if target is None or target.kind != "definition":
            raise NotRead(f"{file.path}:{item.start}: a row of another form")
        theirs_file, kind = self.translator.found(target)
        body: Any = self.translator.clauses(file, item)[0].body.parts
        given = dict(body[1])
        mine, theirs = Body(self.translator, file, item, own), Body(self.translator, theirs_file, kind, target)
        parameters, fields = record_parts(kind)
        tests, bound = [], {name: local(name) for name in parameters}
        for label, words in fields:
            value = given[label]
            if value.kind == "proof" or value.word.text in ("refl", "tt"):
                says = Parser(theirs_file.path, words, lambda word: self.repository.is_constructor(theirs_file, word)).term()
                tests.append(theirs.term(says, bound))
            else:
                tests.append(f"[({local(label)} := {mine.term(value, {})})]")
                bound[label] = local(label)
        for name in [*self.repository.definition(own).names, *self.repository.definition(target).names]:
            self.translator.definition(name)
        names = ", ".join(map(local, parameters))
        return f"bool((lambda {names}: {' and '.join(tests)})({', '.join(mine.term(argument, {}) for argument in arguments)}))"


def gives_record(item: Item) -> bool:
    """Whether it is a record of which a part is closed by computing."""
    if len(item.clauses) != 1:
        return False
    words = [word.text for word in item.clauses[0]]
    return words[1:3] == ["=", "record"] and any(words[index:index + 2] == ["=", "refl"] for index in range(3, len(words)))


def record_parts(item: Item) -> tuple[list[str], list[tuple[str, list[Word]]]]:
    """The parameters of a record's type, and its fields with the words of their types."""
    where = next(index for index, word in enumerate(item.words) if word.text == "where")
    parameters: list[str] = []
    at = 0
    while at < where:
        if item.words[at].text == "(":
            colon = next(index for index in range(at, where) if item.words[index].text == ":")
            parameters += [word.text for word in item.words[at + 1:colon]]
            depth, at = 1, colon
            while depth:
                at += 1
                depth += (item.words[at].text == "(") - (item.words[at].text == ")")
        at += 1
    fields: list[tuple[str, list[Word]]] = []
    for words in groups_of(item.words[where + 1:]):
        named = [word for word in words if word.text != "pub"]
        fields.append((named[0].text, named[2:]))
    return parameters, fields


def judge(rows: Rows) -> int:
    space = run(rows.translator.module())
    failed: list[str] = []
    for place, test in rows.tests:
        try:
            if eval(test, space) is not True:
                failed.append(f"{place}: it is not so")
        except Exception as problem:  # noqa: BLE001, a row that cannot be run is told
            failed.append(f"{place}: {type(problem).__name__}: {problem}")
    for line in failed:
        print(line)
    for reason, count in Counter(reason.partition(": ")[2] for _, reason in rows.left_out).most_common():
        print(f"left out, {count}: {reason}")
    print(f"{len(rows.tests) - len(failed)} rows are so, {len(failed)} are not, {len(rows.left_out)} are left out")
    return len(failed)


def main() -> int:
    rows = Rows(Repository(TOP, kit_of("clap")))
    for path in row_files(TOP):
        rows.read(path)
    if "--module" in sys.argv:
        with open(sys.argv[sys.argv.index("--module") + 1], "w", encoding="utf-8") as file:
            file.write(rows.translator.module())
    # lists are gone through by recursion
    sys.setrecursionlimit(1_000_000)
    threading.stack_size(1 << 29)
    answers: list[int] = []
    worker = threading.Thread(target=lambda: answers.append(judge(rows)))
    worker.start()
    worker.join()
    return int(bool(answers[0])) if answers else 1


if __name__ == "__main__":
    sys.exit(main())
