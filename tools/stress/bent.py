"""Texts by number, for scripts/stress: bent examples, and tokens thrown together."""

from __future__ import annotations

import random
import re
from typing import Callable

from harness import EXAMPLES, content

NUMBERS = (
    0, 1, 1, 2, 3, 4, 5, 7, 8, 15, 16, 17, 60, 63, 64, 65, 90, 99, 100, 101, 127, 128, 255, 256, 257,
    480, 1000, 1920, 10_000, 999_999, 1_000_000, 1_000_001, 999_999_999, 1_000_000_000, 10**12,
)
STATEMENT = re.compile(rb"\b(?:note|rest|skip|play|do|bend|control|program|set)\b[^;{}#]*;")
BLOCKS = (
    b"repeat 3 {", b"repeat 300 {", b"if pick(2) {", b"gate 50 {", b"gate 400 {", b"channel 9 {", b"loud [64, 90] {",
    b"rhythm [1/8, 1/4] {", b"artic [50, 350, 110] {", b"repeat 2 { if same(n0, 1) {",
    b"par { branch { note c4 1/4; } branch {", b"par { branch {",
)
TOKEN = re.compile(rb"[a-z_][a-z_0-9]*|[0-9]+|#[^\n]*\n?|\s+|.", re.DOTALL)
PITCHES = (b"c4", b"d4", b"e4", b"fs5", b"bb3", b"a0", b"g9", b"key")

#: Makes another text of one.
Bend = Callable[[bytes, random.Random], bytes]


class Texts:
    """Texts by number: bent examples, and tokens thrown together."""

    def __init__(self, seed: int):
        self.seed = seed
        self.examples: list[bytes] = []
        self.accepted: list[bytes] = []
        for path in sorted(EXAMPLES.glob("*/*.score"), key=str):
            text = content(path)
            if len(text) < 20_000:
                self.examples.append(text)
                if path.parent.name != "refused":
                    self.accepted.append(text)
        tokens: set[bytes] = set()
        for text in self.examples:
            tokens.update(token for token in TOKEN.findall(text) if not token.isspace() and token[:1] != b"#")
        self.tokens = sorted(tokens)

    def text(self, number: int) -> tuple[bytes, random.Random]:
        """The text of this number, and what draws its trouble."""
        draw = random.Random(f"{self.seed}/{number}")
        kind = draw.random()
        if kind < 0.03:
            text = self.thrown_together(draw)
        elif kind < 0.65:
            text = draw.choice(self.accepted)
            for _ in range(draw.choice((1, 1, 2, 3, 4))):
                gently: Bend = draw.choice((self.number, self.number, self.pitch, self.statement_twice,
                                            self.statement_in_block, self.statement_in_block))
                text = gently(text, draw)
        else:
            text = draw.choice(self.examples)
            for _ in range(draw.choice((1, 1, 1, 2, 3, 5))):
                text = self.bent(text, draw)
        return text[:1_100_000], draw

    def thrown_together(self, draw: random.Random) -> bytes:
        head = draw.choice((b"formula 1; ", b"formula 1; ", b"formula 2; ", b"formula 2; division 96; ", b""))
        return head + b" ".join(draw.choice(self.tokens) for _ in range(draw.randrange(60)))

    def bent(self, text: bytes, draw: random.Random) -> bytes:
        way: Bend = draw.choice((self.other_bytes, self.cut, self.part_out, self.part_twice, self.other_part, self.token,
                                 self.token, self.number, self.tokens_turned, self.statement_in_block))
        return way(text, draw)

    @staticmethod
    def span(text: bytes, draw: random.Random, most: int = 200) -> tuple[int, int]:
        begin = draw.randrange(len(text) + 1)
        return begin, min(len(text), begin + draw.randrange(most))

    @staticmethod
    def other_bytes(text: bytes, draw: random.Random) -> bytes:
        begin = draw.randrange(len(text) + 1)
        new = bytes(draw.randrange(256) for _ in range(draw.randrange(3)))
        return text[:begin] + new + text[begin + draw.randrange(2):]

    @staticmethod
    def cut(text: bytes, draw: random.Random) -> bytes:
        return text[:draw.randrange(len(text) + 1)]

    def part_out(self, text: bytes, draw: random.Random) -> bytes:
        begin, end = self.span(text, draw)
        return text[:begin] + text[end:]

    def part_twice(self, text: bytes, draw: random.Random) -> bytes:
        begin, end = self.span(text, draw)
        return text[:end] + text[begin:end] * draw.choice((1, 1, 2, 30)) + text[end:]

    def other_part(self, text: bytes, draw: random.Random) -> bytes:
        other = draw.choice(self.examples)
        begin, end = self.span(other, draw)
        place = draw.randrange(len(text) + 1)
        return text[:place] + other[begin:end] + text[place:]

    def token(self, text: bytes, draw: random.Random) -> bytes:
        tokens = TOKEN.findall(text) or [b""]
        place = draw.randrange(len(tokens))
        way = draw.randrange(4)
        if way == 0:
            del tokens[place]
        elif way == 1:
            tokens.insert(place, b" " + draw.choice(self.tokens) + b" ")
        elif way == 2:
            tokens[place] = draw.choice(PITCHES) if draw.randrange(3) == 0 else draw.choice(self.tokens)
        else:
            tokens.insert(place, tokens[place])
        return b"".join(tokens)

    @staticmethod
    def number(text: bytes, draw: random.Random) -> bytes:
        """Another number in place of one, so that most texts stay accepted."""
        tokens = TOKEN.findall(text)
        places = [place for place, token in enumerate(tokens) if token.isdigit()]
        if places:
            place = draw.choice(places)
            old = int(tokens[place])
            new = draw.choice(NUMBERS) if draw.randrange(2) else max(0, old + draw.choice((-1, 1, old)))
            tokens[place] = b"%d" % new
        return b"".join(tokens)

    @staticmethod
    def tokens_turned(text: bytes, draw: random.Random) -> bytes:
        tokens = TOKEN.findall(text)
        if len(tokens) > 1:
            first, second = draw.randrange(len(tokens)), draw.randrange(len(tokens))
            tokens[first], tokens[second] = tokens[second], tokens[first]
        return b"".join(tokens)

    @staticmethod
    def pitch(text: bytes, draw: random.Random) -> bytes:
        tokens = TOKEN.findall(text)
        places = [place for place, token in enumerate(tokens) if re.fullmatch(rb"[a-g][sb]?[0-9]", token)]
        if places:
            tokens[draw.choice(places)] = draw.choice(PITCHES)
        return b"".join(tokens)

    @staticmethod
    def statement_twice(text: bytes, draw: random.Random) -> bytes:
        found = list(STATEMENT.finditer(text))
        if not found:
            return text
        statement, place = draw.choice(found), draw.choice(found).end()
        return text[:place] + b" " + statement.group() + text[place:]

    @staticmethod
    def statement_in_block(text: bytes, draw: random.Random) -> bytes:
        found = list(STATEMENT.finditer(text))
        if not found:
            return text
        statement, block = draw.choice(found), draw.choice(BLOCKS)
        ends = b" }" * (block.count(b"{") - block.count(b"}"))
        return text[:statement.start()] + block + b" " + statement.group() + ends + text[statement.end():]
