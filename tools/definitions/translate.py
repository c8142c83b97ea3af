"""Turns definitions that compute into Python, by rule.

Each definition becomes one function with a test for each clause, in their order. One whose value is a type says something:
it becomes a test where a row or a definition asks for it and it is made of equations, orders, `×`, `⊎`, `Unit` and `⊥`.
Whatever else is not known ends the translation with file and line."""
from __future__ import annotations

from typing import Any

import running
from notation import File, Item, NotRead, Word, is_row
from patterns import Patterns, used
from repository import Repository, Target
from running import LIBRARY
from sizes import (
    block_parameters, constant, constructor_size, global_name, label_of, local, safe, says_only, variant_size,
)
from terms import FIXITY, Clause, Parser, Pattern, Term

OPERATORS = {
    "+": "({} + {})", "-": "less({}, {})", "*": "({} * {})", "/": "quotient({}, {})", "%": "remainder({}, {})",
    "^": "power({}, {})", "+ℤ": "({} + {})", "-ℤ": "({} - {})", "*ℤ": "({} * {})", "∷": "Pair({}, {})", "++": "joined({}, {})",
    "==": "({} == {})", "&&": "({} and {})", "||": "({} or {})", "<": "({} < {})", "≤": "({} <= {})", "≡": "({} == {})",
    "×": "({} and {})", "⊎": "({} or {})", "≢": "({} != {})",
}
# Constructors that are values of Python's own.
PLAIN = {"zero": "0", "true": "True", "false": "False", "[]": "NIL", "tt": "()", "None": "NONE", "Unit": "True", "⊥": "False"}


class Translator:
    def __init__(self, repository: Repository):
        self.repository = repository
        self.functions: dict[Target, str] = {}
        self.arities: dict[Target, int] = {}
        self.refused: dict[Target, NotRead] = {}
        # the constructors without parts
        self.plains: set[str] = set()
        # what says something and is computed all the same, as true or false
        self.wanted: set[Target] = set()

    # ---- what names are

    def parameters(self, file: File, item: Item) -> list[str]:
        """The parameters of the sections round a definition that it takes as arguments."""
        found = []
        for block in item.blocks:
            found += block_parameters(block)
        return found

    def arity(self, target: Target) -> int:
        if target not in self.arities:
            file, item = self.found(target)
            parser = Parser(file.path, item.clauses[0], lambda word: self.repository.is_constructor(file, word))
            self.arities[target] = len(self.parameters(file, item)) + len(parser.clause(item.name).patterns)
        return self.arities[target]

    def clauses(self, file: File, item: Item) -> list[Clause]:
        """The clauses of a definition as terms."""
        parsers = [Parser(file.path, words, lambda word: self.repository.is_constructor(file, word)) for words in item.clauses]
        return [parser.clause(item.name) for parser in parsers]

    def found(self, target: Target) -> tuple[File, Item]:
        file = self.repository.known_file(target.module)
        return file, next(item for item in file.items if item.name == target.name)

    def constructor_arity(self, target: Target, name: str) -> int:
        """How many arguments a constructor takes."""
        if target.kind == "code":
            return variant_size(self.repository.code(target.module)[target.name], name)
        _, item = self.found(target)
        return constructor_size(item, name)

    # ---- definitions

    def definition(self, target: Target) -> str:
        """The Python of one definition, and of those that it needs, made once each."""
        waiting, seen, refusals = [target], {target}, []
        while waiting:
            definition = waiting.pop()
            if definition in self.refused:
                refusals.append(self.refused[definition])
            elif definition.kind == "definition" and self.make(definition):
                names = [name for name in self.repository.definition(definition).names
                         if name.kind == "definition" and name not in seen]
                seen.update(names)
                waiting += names
        if refusals:
            raise refusals[0]
        return global_name(target)

    def make(self, target: Target) -> bool:
        """Makes one definition, and tells whether it computes."""
        if target not in self.functions:
            file, item = self.found(target)
            self.functions[target] = ""
            if item.kind != "definition" or is_row(item) or says_only(item) and target not in self.wanted:
                return False
            try:
                self.functions[target] = Body(self, file, item, target).text()
            except NotRead as problem:
                self.refused[target] = problem
                raise
        return bool(self.functions[target])

    def plain(self, name: str) -> str:
        """A constructor without parts: one value, made once."""
        self.plains.add(name)
        return f"C_{safe(name)}"

    def module(self) -> str:
        """All that was made, as the text of a Python module."""
        head = ('"""Made from the definitions of specs/ by tools/definitions/translate.py."""\n'
                "from running import *  # noqa: F403\n\n"
                + "".join(f"L_{safe(name)} = LIBRARY[{name!r}][1]\n" for name in LIBRARY)
                + "".join(f"C_{safe(name)} = Made({name!r})\n" for name in sorted(self.plains)) + "\n\n")
        return head + "\n\n\n".join(text for text in self.functions.values() if text) + "\n"


class Body(Patterns):
    """One definition on its way to Python; its clauses may be others than those of its file."""

    def __init__(self, translator: Translator, file: File, item: Item, target: Target, clauses: list[Clause] | None = None):
        super().__init__(translator.repository, file)
        self.translator, self.item, self.target = translator, item, target
        self.clauses = clauses

    def text(self) -> str:
        item, fixed = self.item, self.translator.parameters(self.file, self.item)
        lines: list[str] = []
        arguments: list[str] = []
        for clause in self.clauses or self.translator.clauses(self.file, item):
            arguments = [f"a{index}" for index in range(len(clause.patterns))]
            tests: list[str] = []
            bound: dict[str, str] = {name: local(name) for name in fixed}
            lets: list[tuple[str, str]] = []
            for argument, pattern in zip(arguments, clause.patterns, strict=True):
                self.match(pattern, argument, tests, lets, bound)
            inner = "        " if tests else "    "
            if tests:
                lines.append(f"    if {' and '.join(tests)}:")
            statements: list[str] = []
            body = clause.body
            while body.kind == "let":
                parts: Any = body.parts
                value = self.term(parts[1], bound)
                statements += [f"{name} = {part}" for name, part in self.let_parts(parts[0], value, bound)]
                body = parts[2]
            statements.append(f"return {self.term(body, bound)}")
            given = (f"{name} = {value}" for name, value in used(lets, "\n".join(statements)))
            lines += [f"{inner}{statement}" for statement in (*given, *statements)]
            if not tests:
                break
        else:
            lines.append(f"    raise NoClause({self.target.name!r})")
        names = [*(local(name) for name in fixed), *arguments]
        place = f"    # {self.file.path}:{item.start}"
        kept = [f"@kept{len(names)}"] if len(names) < 2 else []
        return "\n".join([*kept, f"def {global_name(self.target)}({', '.join(names)}):", place, *lines])

    # ---- terms

    def term(self, term: Term, bound: dict[str, str]) -> str:
        parts: Any = term.parts
        match term.kind:
            case "number":
                return str(int(term.word.text.replace("_", ""), 0))
            case "text":
                return term.word.text
            case "name":
                return self.applied(term, [], bound)
            case "apply":
                arguments: list[Term] = []
                head: Term = term
                while head.kind == "apply":
                    inner: Any = head.parts
                    arguments.insert(0, inner[1])
                    head = inner[0]
                return self.applied(head, arguments, bound)
            case "operator":
                return self.operator(term, bound)
            case "choice":
                return f"({self.term(parts[1], bound)} if {self.term(parts[0], bound)} else {self.term(parts[2], bound)})"
            case "tuple":
                return f"({', '.join(self.term(part, bound) for part in parts)})"
            case "field":
                return f"{self.term(parts[0], bound)}{label_of(term.word.text)}"
            case "record":
                fields = ", ".join(f"{safe(label)}={self.term(value, bound)}" for label, value in parts[1])
                return f"updated({self.term(parts[0], bound)}, {fields})" if parts[0] else f"Record({fields})"
            case "function":
                return self.function(parts[0], parts[1], bound)
            case "let":
                inside = dict(bound)
                lets = self.let_parts(parts[0], self.term(parts[1], bound), inside)
                return self.let(lets, self.term(parts[2], inside))
            case "elim":
                return self.elim(term, bound)
            case "proof":
                return "()"
            case "made":
                return self.applied(term, [], bound)
        raise self.refuse(term.word, f"a {term.kind}")

    def let(self, lets: list[tuple[str, str]], body: str) -> str:
        for name, value in reversed(lets):
            body = f"(lambda {name}: {body})({value})"
        return body

    def function(self, binders: tuple[Pattern, ...], body: Term, bound: dict[str, str]) -> str:
        inside = dict(bound)
        names: list[str] = []
        lets: list[tuple[str, str]] = []
        for pattern in binders:
            self.fresh += 1
            name = local(pattern.word.parts[0]) if pattern.kind == "variable" else f"t{self.fresh}"
            names.append(name)
            if pattern.kind == "variable":
                inside[pattern.word.parts[0]] = name
            else:
                self.match(pattern, name, [], lets, inside)
        expression = self.term(body, inside)
        expression = self.let(used(lets, expression), expression)
        for name in reversed(names):
            expression = f"(lambda {name}: {expression})"
        return expression

    def elim(self, term: Term, bound: dict[str, str]) -> str:
        matched, cases = term.parts
        self.fresh += 1
        value = f"m{self.fresh}"
        expression = f"no_clause({self.target.name!r})"
        for case in reversed(cases):  # type: ignore[call-overload]
            tests: list[str] = []
            lets: list[tuple[str, str]] = []
            inside = dict(bound)
            self.match(case.patterns[0], value, tests, lets, inside)
            body = self.term(case.body, inside)
            body = self.let(used(lets, body), body)
            expression = f"({body} if {' and '.join(tests) or 'True'} else {expression})"
        function = f"(lambda {value}: {expression})"
        return f"{function}({self.term(matched, bound)})" if matched else function  # type: ignore[arg-type]

    def operator(self, term: Term, bound: dict[str, str]) -> str:
        left, right = (self.term(side, bound) for side in term.parts)  # type: ignore[arg-type]
        own = None if term.word.kind == "mark" else self.resolved(term.word)
        if own and own.kind == "definition":
            return f"{global_name(own)}({left}, {right})"
        if term.word.text not in OPERATORS:
            raise self.refuse(term.word, "an operator that does not compute")
        return OPERATORS[term.word.text].format(left, right)

    # ---- names

    def applied(self, head: Term, arguments: list[Term], bound: dict[str, str]) -> str:
        values = [self.term(argument, bound) for argument in arguments]
        if head.kind not in ("name", "made"):
            return self.calls(self.term(head, bound), values)
        word = head.word
        if head.kind == "made" and word.text in ("Onset", "Ending"):
            return self.translator.plain(word.text)
        if head.kind == "made":
            return self.library(Target("library", "", word.text), word.text, word, values)
        first, *rest = word.parts
        if first in bound:
            return self.calls(bound[first] + "".join(map(label_of, rest)), values)
        target, count = self.path(word)
        fields = "".join(map(label_of, word.parts[count:]))
        if target and fields and self.is_record(target):
            # a field as a function
            return self.calls(f"(lambda record: record{fields})", values)
        if target is None:
            name = word.parts[-1]
            if name in PLAIN:
                return PLAIN[name]
            raise self.refuse(word, "a word of the notation that does not compute")
        value = self.value(target, word.parts[count - 1], word, values if not fields else [])
        return self.calls(value + fields, values) if fields else value

    def calls(self, function: str, arguments: list[str]) -> str:
        return function + "".join(f"({argument})" for argument in arguments)

    def path(self, word: Word) -> tuple[Target | None, int]:
        """What a path means, and how many of its parts say so; fields stand behind."""
        repository, parts = self.translator.repository, tuple(word.parts)
        for count in range(len(parts), 0, -1):
            try:
                target = repository.resolve(self.file, parts[:count], word.line)
            except NotRead:
                continue
            if target is None or count == 1:
                return target, count
            if self.means(target, parts[count - 1]):
                return target, count
        raise self.refuse(word, "what does this name mean")

    def means(self, target: Target, name: str) -> bool:
        """Whether the last part of a path is the definition, or a constructor or variant of it, and no field."""
        if target.name == name:
            return True
        if target.kind == "definition":
            _, item = self.translator.found(target)
            return name in item.constructors
        return target.kind == "code" and self.translator.repository.code(target.module)[target.name].kind == "enum"

    def is_record(self, target: Target) -> bool:
        """Whether a name is a type whose values have fields."""
        if target.kind == "code":
            return self.translator.repository.code(target.module)[target.name].kind == "struct"
        return target.kind == "definition" and self.translator.found(target)[1].kind == "record"

    def value(self, target: Target, name: str, word: Word, arguments: list[str]) -> str:
        """A name applied to what it is given."""
        if target.kind == "library":
            return self.library(target, name, word, arguments)
        if target.kind == "code":
            if self.translator.repository.code(target.module)[target.name].kind == "const":
                return str(constant(self.translator.repository, target.module, target.name))
            return self.constructed(target, name, arguments)
        if name != target.name:
            return self.constructed(target, name, arguments)
        file, item = self.translator.found(target)
        if item.kind != "definition":
            raise self.refuse(word, "a type where a value is wanted")
        if says_only(item) and target not in self.translator.wanted:
            self.translator.wanted.add(target)
            self.translator.functions.pop(target, None)
            self.translator.definition(target)
        if file is self.file:
            shared = [name for block in item.blocks if block in self.item.blocks for name in block_parameters(block)]
            arguments = [*map(local, shared), *arguments]
        return self.call(global_name(target), self.translator.arity(target), arguments)

    def call(self, function: str, count: int, arguments: list[str]) -> str:
        if len(arguments) < count:
            return f"curried({', '.join([function, str(count), *arguments])})"
        return self.calls(f"{function}({', '.join(arguments[:count])})", arguments[count:])

    def constructed(self, target: Target, name: str, arguments: list[str]) -> str:
        count = self.translator.constructor_arity(target, name)
        if count == 0 and not arguments:
            return self.translator.plain(name)
        if len(arguments) == count:
            inner = "".join(f"{argument}, " for argument in arguments)
            return f"Made({name!r}, ({inner}))"
        names = [f"c{index}" for index in range(count)]
        function = f"(lambda {', '.join(names)}: Made({name!r}, ({''.join(f'{name}, ' for name in names)})))"
        return f"curried({', '.join([function, str(count), *arguments])})"

    def library(self, target: Target, name: str, word: Word, arguments: list[str]) -> str:
        if name in PLAIN and not arguments:
            return PLAIN[name]
        if name == "suc":
            return self.call("(lambda n: n + 1)", 1, arguments)
        if name == "pos":
            return self.call("(lambda n: n)", 1, arguments)
        if name == "negsuc":
            return self.call("(lambda n: -1 - n)", 1, arguments)
        if name in ("Some", "Ok", "Err", "Less", "Equal", "Greater"):
            if name in ("Less", "Equal", "Greater"):
                return self.translator.plain(name)
            if len(arguments) == 1:
                return f"Made({name!r}, ({arguments[0]},))"
            return self.call(f"(lambda *it: Made({name!r}, it))", 1, arguments)
        plain = name.strip("◌")
        if "◌" in name and plain in OPERATORS:
            return self.call(f"(lambda a, b: {OPERATORS[plain].format('a', 'b')})", 2, arguments)
        if name not in LIBRARY and ".proofs." in target.module:
            # a proof: nothing reads it
            return "()"
        if name not in LIBRARY:
            raise self.refuse(word, f"a name of {target.module} that is not known to compute")
        return self.call(f"L_{safe(name)}", LIBRARY[name][0], arguments)


def run(text: str) -> dict[str, Any]:
    """Runs a module's text, and returns what it defines."""
    space: dict[str, Any] = {name: getattr(running, name) for name in dir(running)}
    exec(compile(text.replace("from running import *  # noqa: F403\n", ""), "<definitions>", "exec"), space)
    return space


assert set(OPERATORS) - {"≡"} <= set(FIXITY)
