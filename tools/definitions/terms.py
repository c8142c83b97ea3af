"""Reads the words of a definition that computes as terms: who is applied to what, by the operators' fixities."""
from __future__ import annotations

from collections.abc import Callable
from dataclasses import dataclass

from notation import NUMERAL, NotRead, Word, equals_of, is_operator, parts_of

# How tightly an operator binds, and to which side it goes on, as the libraries declare it.
FIXITY = {
    "^": (75, "r"), "*": (70, "l"), "/": (70, "l"), "%": (70, "l"), "*ℤ": (70, "l"), "∷": (67, "r"), "+": (65, "l"),
    "-": (65, "l"), "+ℤ": (65, "l"), "-ℤ": (65, "l"), "++": (65, "l"), "<": (50, "n"), "≤": (50, "n"), "==": (40, "n"),
    "&&": (35, "l"), "||": (30, "l"), ">>=": (10, "l"), "≡": (4, "n"), "≢": (4, "n"), "×": (2, "r"), "⊎": (1, "r"),
}
IF = 5
# A term that begins with one of these is a proof.
TACTICS = frozenset(("omega", "grind", "search", "simp", "cc"))


@dataclass(frozen=True)
class Term:
    """A node: its kind, its word where it has one, and its parts."""

    kind: str
    word: Word
    parts: tuple[object, ...] = ()


@dataclass(frozen=True)
class Pattern:
    kind: str
    word: Word
    parts: tuple[Pattern, ...] = ()
    labels: tuple[str, ...] = ()


@dataclass(frozen=True)
class Clause:
    patterns: tuple[Pattern, ...]
    body: Term


class Parser:
    def __init__(self, path: str, words: list[Word], is_constructor: Callable[[Word], bool]):
        self.path, self.words, self.is_constructor, self.at = path, words, is_constructor, 0

    def refuse(self, why: str) -> NotRead:
        word = self.words[min(self.at, len(self.words) - 1)]
        return NotRead(f"{self.path}:{word.line}: {why}: {word.text}")

    def next_is(self, *texts: str) -> bool:
        return self.at < len(self.words) and self.words[self.at].kind != "text" and self.words[self.at].text in texts

    def take(self, text: str | None = None) -> Word:
        if self.at >= len(self.words) or text is not None and not self.next_is(text):
            raise self.refuse(f"a {text} is wanted")
        self.at += 1
        return self.words[self.at - 1]

    # ---- terms

    def given(self) -> list[str]:
        """The names of `(x y : A) →` in front of a term."""
        names: list[str] = []
        while self.next_is("("):
            at = self.at + 1
            while self.words[at].kind == "name":
                at += 1
            if self.words[at].text != ":":
                break
            names += [word.text for word in self.words[self.at + 1:at]]
            while not self.next_is("→"):
                self.at += 1
            self.take("→")
        return names

    def term(self, least: int = 0) -> Term:
        left = self.applied()
        while self.at < len(self.words):
            word = self.words[self.at]
            if word.kind == "text" or word.text not in FIXITY:
                break
            binds, side = FIXITY[word.text]
            if binds < least:
                break
            self.at += 1
            right = self.term(binds if side == "r" else binds + 1)
            left = Term("operator", word, (left, right))
        return left

    def starts_atom(self) -> bool:
        if self.at >= len(self.words):
            return False
        word = self.words[self.at]
        if word.kind == "text":
            return True
        return word.text not in FIXITY and word.text not in (
            ")", "}", "]", ",", ";", "|", "↦", "=", "in", "then", "else", "→", ":", "as", "[", "where", ".")

    def applied(self) -> Term:
        head = self.atom()
        if head.word.text in TACTICS and head.kind == "name":
            # a proof: what it is made of is nothing
            self.skip_atoms()
            return Term("proof", head.word)
        while self.starts_atom():
            if self.next_is("{"):
                # an implicit argument: a type, or a level
                self.skip_braces()
                continue
            argument = self.atom()
            head = Term("apply", head.word, (head, argument))
        return head

    def skip_atoms(self) -> None:
        while self.starts_atom():
            if self.next_is("("):
                depth = 0
                while True:
                    word = self.take()
                    depth += (word.text == "(") - (word.text == ")")
                    if depth == 0:
                        break
            else:
                self.take()

    def skip_braces(self) -> None:
        depth = 0
        while True:
            word = self.take()
            depth += (word.text == "{") - (word.text == "}")
            if depth == 0:
                return

    def atom(self) -> Term:
        word = self.words[self.at] if self.at < len(self.words) else None
        if word is None:
            raise self.refuse("a term is wanted")
        if word.kind == "text":
            self.at += 1
            return Term("text", word)
        forms: dict[str, Callable[[], Term]] = {
            "λ": self.function, "let": self.let, "elim": self.elim, "record": self.record, "if": self.choice, "(": self.group,
        }
        if word.text in forms:
            return self.behind(forms[word.text]())
        if NUMERAL.fullmatch(word.text):
            self.at += 1
            return Term("number", word)
        if word.kind != "name" or word.text in ("→", "Type", "?", "_"):
            raise self.refuse("no term that computes")
        self.at += 1
        return Term("name", word)

    def behind(self, term: Term) -> Term:
        """A projection behind a bracket."""
        while self.at < len(self.words) and self.words[self.at].kind == "behind":
            word = self.take()
            for label in word.text.strip(".").split("."):
                term = Term("field", Word(label, word.line, word.column), (term,))
        return term

    def function(self) -> Term:
        word = self.take("λ")
        binders = []
        while not self.next_is("."):
            binders.append(self.binder())
        self.take(".")
        return Term("function", word, (tuple(binders), self.term()))

    def binder(self) -> Pattern:
        """What a λ or a let binds."""
        if self.next_is("("):
            word = self.take()
            first = self.binder()
            if self.next_is(":"):
                while not self.next_is(")"):
                    self.at += 1
                self.take(")")
                return first
            parts = [first]
            while self.next_is(","):
                self.take()
                parts.append(self.binder())
            self.take(")")
            return Pattern("tuple", word, tuple(parts)) if len(parts) > 1 else first
        if self.next_is("record"):
            word = self.take()
            self.take("{")
            labels, parts = [], []
            while not self.next_is("}"):
                labels.append(self.take().text)
                self.take("=")
                parts.append(self.binder())
                if self.next_is(";"):
                    self.take()
            self.take("}")
            return Pattern("record", word, tuple(parts), tuple(labels))
        word = self.take()
        return Pattern("any" if word.text == "_" else "variable", word)

    def let(self) -> Term:
        word = self.take("let")
        bound = self.binder()
        if self.next_is(":"):
            while not self.next_is("="):
                self.at += 1
        self.take("=")
        value = self.term()
        self.take("in")
        return Term("let", word, (bound, value, self.term()))

    def choice(self) -> Term:
        word = self.take("if")
        test = self.term()
        self.take("then")
        then = self.term()
        self.take("else")
        return Term("choice", word, (test, then, self.term(IF)))

    def group(self) -> Term:
        word = self.take("(")
        parts = [self.term()]
        while self.next_is(","):
            self.take()
            # a comma may stand behind the last part
            if not self.next_is(")"):
                parts.append(self.term())
        self.take(")")
        return Term("tuple", word, tuple(parts)) if len(parts) > 1 else parts[0]

    def record(self) -> Term:
        word = self.take("record")
        base: Term | None = None
        if self.next_is("("):
            base = self.behind(self.group())
        elif not self.next_is("{"):
            base = Term("name", self.take())
        self.take("{")
        fields: list[tuple[str, Term]] = []
        while not self.next_is("}"):
            label = self.take().text
            self.take("=")
            fields.append((label, self.term()))
            if self.next_is(";"):
                self.take()
        self.take("}")
        return Term("record", word, (base, tuple(fields)))

    def elim(self) -> Term:
        word = self.take("elim")
        matched = None if self.next_is("[") else self.atom()
        if self.next_is("as"):
            # the motive is a type
            self.take()
            depth = 0
            while depth or not self.next_is("["):
                text = self.take().text
                depth += (text == "(") - (text == ")")
        self.take("[")
        if self.next_is("|"):
            self.take()
        cases = []
        while not self.next_is("]"):
            pattern = self.pattern_row("↦")
            self.take("↦")
            cases.append(Clause((pattern,), self.term()))
            if self.next_is("|"):
                self.take()
        self.take("]")
        return Term("elim", word, (matched, tuple(cases)))

    # ---- patterns

    def pattern_row(self, stop: str) -> Pattern:
        """A pattern without parentheses round it: a constructor and its parts, or an operator between two."""
        parts = []
        while not self.next_is(stop, ")", ",", "∷"):
            parts.append(self.pattern_atom())
        if not parts:
            raise self.refuse("a pattern is wanted")
        first = parts[0]
        if len(parts) > 1:
            if first.kind != "constructor":
                raise self.refuse("a pattern that is no constructor is applied")
            first = Pattern("constructor", first.word, (*first.parts, *parts[1:]))
        if self.next_is("∷"):
            word = self.take()
            return Pattern("constructor", Word("∷", word.line, word.column), (first, self.pattern_row(stop)))
        return first

    def pattern_atom(self) -> Pattern:
        if self.next_is("("):
            word = self.take()
            parts = [self.pattern_row(")")]
            while self.next_is(","):
                self.take()
                parts.append(self.pattern_row(")"))
            self.take(")")
            return Pattern("tuple", word, tuple(parts)) if len(parts) > 1 else parts[0]
        word = self.take()
        if word.text == "_":
            return Pattern("any", word)
        if self.is_constructor(word):
            return Pattern("constructor", word)
        return Pattern("variable", word)

    def clause(self, name: str) -> Clause:
        """A clause of a definition: its patterns and its body."""
        patterns = []
        if is_operator(name):
            end = self.words.index(equals_of(self.words))
            own = next(index for index in range(end) if self.words[index].text in parts_of(name))
            left = Parser(self.path, self.words[:own], self.is_constructor)
            right = Parser(self.path, self.words[own + 1:end], self.is_constructor)
            patterns = [left.pattern_atom(), right.pattern_atom()]
            self.at = end
        else:
            self.take()
            while not self.next_is("="):
                if self.next_is("{"):
                    self.skip_braces()
                else:
                    patterns.append(self.pattern_atom())
        self.take("=")
        body = self.term()
        if self.at != len(self.words):
            raise self.refuse("the body goes on in an unknown form")
        return Clause(tuple(patterns), body)
