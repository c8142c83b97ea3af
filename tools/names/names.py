"""Lists names of the code that have two meanings within a crate and those that it stands on.

    names.py [--methods] [--crate NAME]

A name is that of a type, a trait or a function. Names that differ in their case alone are one name. A method of a trait
counts once, whoever has it. Methods that are no trait's are looked at with --methods only: `new` of two types is two
meanings then. Tests are left out. Each name is told with the crates that see both meanings, lowest first, and with the
places of its meanings. The exit status is 1 where a name of the code has no row in the last table of docs/GLOSSARY.md, or
a row of it no name."""
from __future__ import annotations

import argparse
import os
import sys
from collections.abc import Iterator
from dataclasses import dataclass

TOP = os.path.dirname(os.path.dirname(os.path.dirname(os.path.abspath(__file__))))
TYPES = frozenset(("struct", "enum", "union", "type", "trait"))
SCOPES = frozenset(("impl", "trait", "mod"))


@dataclass(frozen=True)
class Meaning:
    """A type, a trait or a function, where it is defined. A method's owner is its type, or the trait that it is of."""

    crate: str
    path: str
    line: int
    kind: str
    owner: str
    name: str

    def key(self) -> str:
        return self.name.lower()

    def place(self) -> str:
        name = f"{self.owner}::{self.name}" if self.owner else self.name
        return f"{self.path}:{self.line} {self.kind} {name}"


@dataclass(frozen=True)
class Token:
    text: str
    line: int


def tokens_of(text: str) -> Iterator[Token]:
    """Words and signs of the code. Comments, quoted texts and quoted signs are left out."""
    at, line = 0, 1
    while at < len(text):
        sign = text[at]
        if sign == "\n":
            line += 1
            at += 1
        elif text.startswith("//", at):
            at = end_before(text, "\n", at)
        elif text.startswith("/*", at):
            end = end_before(text, "*/", at) + 2
            line += text.count("\n", at, end)
            at = end
        elif sign == '"':
            end = end_of_quoted(text, at)
            line += text.count("\n", at, end)
            at = end
        elif sign == "'":
            at = end_of_sign(text, at)
        elif sign.isalpha() or sign == "_":
            end = at
            while end < len(text) and (text[end].isalnum() or text[end] in "_'"):
                end += 1
            yield Token(text[at:end].rstrip("'"), line)
            at = end
        else:
            if not sign.isspace():
                yield Token(sign, line)
            at += 1


def end_before(text: str, mark: str, at: int) -> int:
    found = text.find(mark, at)
    return len(text) if found < 0 else found


def end_of_quoted(text: str, at: int) -> int:
    """Returns where a quoted text ends that begins here."""
    at += 1
    while at < len(text) and text[at] != '"':
        at += 2 if text[at] == "\\" else 1
    return at + 1


def end_of_sign(text: str, at: int) -> int:
    """Returns where a quoted sign ends that begins here, or where a lifetime's name begins."""
    if text.startswith("\\", at + 1):
        return end_before(text, "'", at + 3) + 1
    return at + 3 if text.startswith("'", at + 2) else at + 1


class Reader:
    """Reads the items of one file. Whatever stands in braces that are no impl's, trait's or module's is passed over."""

    def __init__(self, crate: str, path: str, text: str):
        self.crate, self.path = crate, path
        self.tokens = list(tokens_of(text))
        self.at = 0
        self.found: list[Meaning] = []

    def read(self) -> list[Meaning]:
        self.scope("", False)
        return self.found

    def scope(self, owner: str, is_trait: bool) -> None:
        """Reads up to the brace that closes this scope, or to the end of the file."""
        # what the next brace opens, whose it is, and whether what follows is for tests alone
        opens, owned, of_trait, tested = "", "", False, False
        while self.at < len(self.tokens):
            token = self.tokens[self.at]
            self.at += 1
            if token.text == "}":
                return
            if token.text == "#":
                tested = self.attribute() or tested
            elif token.text == "{":
                self.block(opens, owned, of_trait)
                opens = ""
            elif token.text == ";":
                opens, tested = "", False
            elif token.text == "impl":
                opens, (owned, of_trait), tested = "" if tested else "impl", self.impl_head(), False
            elif token.text in ("fn", "mod") or token.text in TYPES:
                name = self.tokens[self.at].text if self.at < len(self.tokens) else ""
                if name.isidentifier():
                    self.at += 1
                    opens, owned, of_trait = "" if tested else token.text, name, token.text == "trait"
                    if token.text != "mod" and not tested:
                        kind = ("trait method" if is_trait else "method") if token.text == "fn" and owner else token.text
                        self.found.append(Meaning(self.crate, self.path, token.line, kind, owner, name))
                    tested = False

    def block(self, opens: str, owned: str, of_trait: bool) -> None:
        """Reads a block that is open, or passes over it."""
        if opens == "mod":
            self.scope("", False)
        elif opens in SCOPES:
            self.scope(owned, of_trait)
        else:
            self.pass_over()

    def attribute(self) -> bool:
        """Passes over an attribute, and says whether what follows is for tests alone."""
        words: list[str] = []
        depth = 0
        while self.at < len(self.tokens):
            text = self.tokens[self.at].text
            self.at += 1
            depth += (text == "[") - (text == "]")
            words.append(text)
            if depth == 0 and text == "]":
                break
        return words[1:] in (["cfg", "(", "test", ")", "]"], ["test", "]"])

    def impl_head(self) -> tuple[str, bool]:
        """Returns the type of an impl, or the trait of which it is, and whether it is one of a trait."""
        names: list[str] = []
        depth = 0
        trait = ""
        for token in self.tokens[self.at:]:
            if token.text == "{":
                break
            depth += (token.text in "<(") - (token.text in ">)")
            if depth == 0 and token.text == "for":
                trait = names[-1] if names else ""
            elif depth == 0 and token.text.isidentifier():
                names.append(token.text)
        return (trait, True) if trait else (names[-1] if names else "", False)

    def pass_over(self) -> None:
        depth = 1
        while self.at < len(self.tokens) and depth > 0:
            text = self.tokens[self.at].text
            depth += (text == "{") - (text == "}")
            self.at += 1


def crates_of(top: str) -> dict[str, list[str]]:
    """Each crate with those that it stands on, in the order of crates.txt."""
    found: dict[str, list[str]] = {}
    with open(f"{top}/crates.txt", encoding="utf-8") as file:
        for line in file:
            head, mark, stands = line.partition(":")
            if mark and not line.startswith("#"):
                found[head.split()[0]] = stands.split()
    return {name: [crate for crate in stands if crate in found] for name, stands in found.items()}


def files_of(folder: str) -> list[str]:
    """The files of code of a crate, tests left out."""
    return sorted(f"{at}/{name}" for at, _, names in os.walk(f"{folder}/src") for name in names
                  if name.endswith(".rt") and not name.startswith("tests") and "/tests" not in at)


def meanings_of(top: str, crate: str) -> list[Meaning]:
    found: list[Meaning] = []
    for path in files_of(f"{top}/crates/{crate}"):
        with open(path, encoding="utf-8") as file:
            found += Reader(crate, os.path.relpath(path, top), file.read()).read()
    return found


def is_looked_at(meaning: Meaning, methods: bool) -> bool:
    return meaning.name != "main" and (methods or meaning.kind != "method")


def doubles(top: str, methods: bool, only: str) -> dict[str, tuple[list[str], list[Meaning]]]:
    """Each name with two meanings: the crates that see them, and the meanings."""
    stands = crates_of(top)
    of_crate = {crate: [meaning for meaning in meanings_of(top, crate) if is_looked_at(meaning, methods)] for crate in stands}
    found: dict[str, tuple[list[str], list[Meaning]]] = {}
    for crate in stands:
        if only and crate != only or crate.endswith("_tests"):
            continue
        seen: dict[str, dict[tuple[str, str, str], Meaning]] = {}
        for lower in [crate, *stands[crate]]:
            for meaning in of_crate[lower]:
                trait = meaning.kind == "trait method"
                place = ("", meaning.owner, "") if trait else (meaning.path, meaning.owner, meaning.kind)
                seen.setdefault(meaning.key(), {}).setdefault(place, meaning)
        for key, several in seen.items():
            if len(several) > 1 and any(meaning.crate == crate for meaning in several.values()):
                crates, meanings = found.setdefault(key, ([], []))
                crates.append(crate)
                meanings += [meaning for meaning in several.values() if meaning not in meanings]
    return found


def rows_of(text: str) -> set[str]:
    """The names that the last table of a page tells, in its first column."""
    lines = text.rstrip("\n").split("\n")
    first = max((at for at, line in enumerate(lines) if not line.startswith("|")), default=-1) + 1
    return {name.lower() for line in lines[first:] for name in line.split("|")[1].split("`")[1::2]}


def compare(found: set[str], rows: set[str]) -> list[str]:
    """What differs between the names that were found and those that have a row."""
    return [f"{name}: no row in docs/GLOSSARY.md" for name in sorted(found - rows)] + \
        [f"{name}: a row in docs/GLOSSARY.md, and one meaning" for name in sorted(rows - found)]


def main() -> int:
    parser = argparse.ArgumentParser(description=__doc__, formatter_class=argparse.RawDescriptionHelpFormatter)
    parser.add_argument("--methods", action="store_true", help="look at methods that are no trait's, too")
    parser.add_argument("--crate", default="", help="only what this crate sees")
    words = parser.parse_args()
    if words.crate and words.crate not in crates_of(TOP):
        parser.error(f"crates.txt has no crate {words.crate}")
    found = doubles(TOP, words.methods, words.crate)
    for key, (crates, meanings) in sorted(found.items()):
        print(f"{key}: {' '.join(crates)}")
        for meaning in meanings:
            print(f"    {meaning.place()}")
    print(f"{len(found)} names with two meanings")
    if words.methods or words.crate:
        return 0
    with open(f"{TOP}/docs/GLOSSARY.md", encoding="utf-8") as file:
        wrong = compare(set(found), rows_of(file.read()))
    for line in wrong:
        print(line)
    return 1 if wrong else 0


if __name__ == "__main__":
    sys.exit(main())
