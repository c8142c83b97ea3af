"""Finds the form of the grammar that some tokens spell, where they spell one: a witness that the definitions then judge.

It is no part of what is believed. A form that it finds counts where the tokens are exactly those that the definitions
spell it with, and a text for which it finds none has to trip by the definitions."""
from __future__ import annotations

from collections.abc import Sequence
from typing import Any

from values import NIL, Made, Record


class NoForm(Exception):
    """The tokens spell no form."""


# The words of statements, with what each is made of.
SENDINGS = {"Program": "program", "Bend": "bend"}
SCOPINGS = {"Channel": "channel", "Volume": "volume", "Gate": "gate"}
CYCLINGS = {"Artic": "artic", "Loud": "loud"}
COMPARINGS = {"Min": "least", "Max": "greatest", "Less": "below", "Same": "equal"}
SCALINGS = {"*": "times", "/": "over", "%": "modulo"}
ADDINGS = {"+": "plus", "-": "minus"}


def in_turn(kind: str, items: Sequence[tuple[Any, ...]], end: str) -> Made:
    """`kind x (kind y end)`."""
    chain = Made(end)
    for item in reversed(items):
        chain = Made(kind, (*item, chain))
    return chain


class Forms:
    """Recursive descent over tokens."""

    def __init__(self, tokens: Any):
        self.tokens = [token.args[0] for token in tokens if token.tag == "Ok"]
        self.at = 0

    # ---- tokens

    @property
    def kind(self) -> Made:
        if self.at >= len(self.tokens):
            raise NoForm
        kind: Made = self.tokens[self.at].kind
        return kind

    def word(self) -> str:
        """The keyword that comes next, the sign that does, or the name of its kind."""
        kind = self.kind
        if kind.tag == "Keyword":
            return str(kind.args[0].tag)
        return chr(kind.args[0]) if kind.tag == "Symbol" else kind.tag

    def leaf(self, *words: str) -> Record:
        if words and self.word() not in words:
            raise NoForm
        token = self.tokens[self.at]
        self.at += 1
        return Record(text=token.text, spot=token.spot)

    def number(self) -> Record:
        value = self.kind.args[0] if self.kind.tag == "Number" else None
        return Record(value=value, leaf=self.leaf("Number"))

    def listed(self, item: Any) -> Record:
        first, others = item(), []
        while self.word() == ",":
            others.append((self.leaf(), item()))
        return Record(first=first, others=in_turn("more", others, "no_more"))

    # ---- lengths and parts

    def length(self) -> Made:
        if self.word() == "Ticks":
            return Made("ticks", (self.leaf(), self.number()))
        return Made("share", (self.number(), self.leaf("/"), self.number()))

    def part(self) -> Made:
        word = self.word()
        leaf = self.leaf("Flat", "Slope", "Pause", "Breath")
        if word in ("Pause", "Breath"):
            return Made(word.lower(), (leaf, self.length()))
        front = (leaf, self.length(), self.leaf("By"), self.number())
        return Made("flat", front) if word == "Flat" else Made("slope", (*front, self.leaf("To"), self.number()))

    # ---- expressions

    def expression(self) -> Made:
        factor, terms, sums = self.factor(), self.terms(), []
        while self.word() in ADDINGS:
            sign = self.word()
            sums.append((Made(ADDINGS[sign]), self.leaf(), self.factor(), self.terms()))
        return Made("expr", (factor, terms, in_turn("sum", sums, "no_sum")))

    def terms(self) -> Made:
        terms = []
        while self.word() in SCALINGS:
            sign = self.word()
            terms.append((Made(SCALINGS[sign]), self.leaf(), self.factor()))
        return in_turn("term", terms, "no_term")

    def factor(self) -> Made:
        word = self.word()
        if word == "Number":
            return Made("number", (self.number(),))
        if word in ("Register", "Index"):
            return Made(word.lower(), (self.kind.args[0], self.leaf()))
        if word == "-":
            return Made("negate", (self.leaf(), self.factor()))
        if word == "(":
            return Made("group", (self.leaf(), self.expression(), self.leaf(")")))
        if word == "Pick":
            return Made("pick", (self.leaf(), self.leaf("("), self.expression(), self.leaf(")")))
        if word in COMPARINGS:
            return Made("compare", (Made(COMPARINGS[word]), self.leaf(), self.leaf("("), self.expression(), self.leaf(","),
                                    self.expression(), self.leaf(")")))
        raise NoForm

    # ---- what statements are made of

    def amount(self) -> Made:
        word = self.word()
        if word == "Number":
            return Made("number", (self.number(),))
        if word == "-":
            return Made("negative", (self.leaf(), self.number()))
        return Made("computed", (self.leaf("("), self.expression(), self.leaf(")")))

    def duration(self) -> Made:
        if self.word() == "Ticks" and chr(self.tokens[self.at + 1].text.head if self.at + 1 < len(self.tokens)
                                          and self.tokens[self.at + 1].text is not NIL else 0) == "(":
            return Made("computed", (self.leaf(), self.leaf("("), self.expression(), self.leaf(")"), self.leaf("Max"),
                                     self.number()))
        return Made("fixed", (self.length(),))

    def pitch(self) -> Made:
        if self.word() == "Pitch":
            return Made("named", (self.kind.args[0], self.leaf()))
        return Made("keyed", (self.leaf("Key"), self.amount()))

    def block(self) -> Made:
        opens, statements = self.leaf("{"), []
        while self.word() != "}":
            statements.append((self.statement(),))
        return Made("block", (opens, in_turn("stmt", statements, "no_stmt"), self.leaf("}")))

    def statement(self) -> Made:
        word = self.word()
        if word not in STATEMENTS:
            raise NoForm
        statement: Made = STATEMENTS[word](self, word)
        return statement

    def note(self, word: str) -> Made:
        return Made("note", (self.leaf(), self.listed(self.pitch), self.duration(), self.leaf(";")))

    def play(self, word: str) -> Made:
        return Made("play", (self.leaf(), self.listed(self.pitch), self.leaf(";")))

    def rest(self, word: str) -> Made:
        return Made("rest", (self.leaf(), self.duration(), self.leaf(";")))

    def skip(self, word: str) -> Made:
        return Made("skip", (self.leaf(), self.leaf(";")))

    def control(self, word: str) -> Made:
        return Made("control", (self.leaf(), self.number(), self.amount(), self.leaf(";")))

    def send(self, word: str) -> Made:
        return Made("send", (Made(SENDINGS[word]), self.leaf(), self.amount(), self.leaf(";")))

    def assign(self, word: str) -> Made:
        front = self.leaf()
        if self.word() != "Register":
            raise NoForm
        return Made("set", (front, self.kind.args[0], self.leaf(), self.leaf("="), self.expression(), self.leaf(";")))

    def choice(self, word: str) -> Made:
        front = (self.leaf(), self.expression(), self.block())
        other = Made("otherwise", (self.leaf(), self.block())) if self.word() == "Else" else Made("no_else")
        return Made("choice", (*front, other))

    def repeat(self, word: str) -> Made:
        front = self.leaf()
        if self.word() == "(":
            return Made("again", (front, self.leaf(), self.expression(), self.leaf(")"), self.leaf("Max"), self.number(),
                                  self.block()))
        return Made("repeat", (front, self.number(), self.block()))

    def call(self, word: str) -> Made:
        return Made("call", (self.leaf(), self.leaf("Name"), self.leaf(";")))

    def warp(self, word: str) -> Made:
        return Made("warp", (self.leaf(), self.leaf("Name"), self.block()))

    def par(self, word: str) -> Made:
        front, branches = (self.leaf(), self.leaf("{"), self.leaf("Branch"), self.block()), []
        while self.word() == "Branch":
            branches.append((self.leaf(), self.block()))
        return Made("par", (*front, in_turn("branch", branches, "no_branch"), self.leaf("}")))

    def scope(self, word: str) -> Made:
        return Made("scope", (Made(SCOPINGS[word]), self.leaf(), self.number(), self.block()))

    def rhythm(self, word: str) -> Made:
        return Made("rhythm", (self.leaf(), self.leaf("["), self.listed(self.length), self.leaf("]"), self.block()))

    def cycling(self, word: str) -> Made:
        return Made("cycling", (Made(CYCLINGS[word]), self.leaf(), self.leaf("["), self.listed(self.number), self.leaf("]"),
                                self.block()))

    # ---- scores

    def entry(self) -> Made:
        word = self.word()
        if word == "Shape":
            return Made("shape", (self.leaf(), self.leaf("Name"), self.leaf("="), self.listed(self.part), self.leaf(";")))
        if word == "Phrase":
            return Made("phrase", (self.leaf(), self.leaf("Name"), self.block()))
        return Made("plays", (self.statement(),))

    def head(self, word: str, kind: str) -> Made:
        """A line of the head, or that there is none."""
        if self.word() != word:
            return Made(f"no_{kind}")
        return Made(kind, (self.leaf(), self.number(), self.leaf(";")))

    def score(self) -> Record:
        front = {"word": self.leaf("Formula"), "version": self.number(), "ends": self.leaf(";")}
        divided, seeded, entries = self.head("Name", "division"), self.head("Seed", "seed"), []
        while self.word() != "End":
            entries.append((self.entry(),))
        return Record(**front, divided=divided, seeded=seeded, entries=in_turn("entry", entries, "no_entry"), last=self.leaf())


STATEMENTS = {
    "Note": Forms.note, "Play": Forms.play, "Rest": Forms.rest, "Skip": Forms.skip, "Control": Forms.control,
    **dict.fromkeys(SENDINGS, Forms.send), "Set": Forms.assign, "If": Forms.choice, "Repeat": Forms.repeat,
    "Do": Forms.call, "Warp": Forms.warp, "Par": Forms.par, **dict.fromkeys(SCOPINGS, Forms.scope),
    "Rhythm": Forms.rhythm, **dict.fromkeys(CYCLINGS, Forms.cycling),
}


def form_of(tokens: Any) -> Any:
    """The form that tokens spell, or None where none is found."""
    try:
        return Forms(tokens).score()
    except NoForm:
        return None

