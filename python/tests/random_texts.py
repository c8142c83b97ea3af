"""Random score texts over the whole language: registers, draws, choices, lists, loops, phrases, warps and voices."""

from __future__ import annotations

import random
from typing import Callable, Optional


class Texts:
    """Texts from a seed; most of them are accepted."""

    def __init__(self, seed: int):
        self.dice = random.Random(seed)
        self.shapes: list[str] = []
        self.phrases: list[str] = []

    def one_of(self, *choices: str) -> str:
        return self.dice.choice(choices)

    def below(self, number: int) -> int:
        return self.dice.randrange(number)

    # ---- small parts

    def length(self) -> str:
        return self.one_of("1/4", "1/8", "3/8", "1/12", "1/1", "0/1", f"ticks {self.below(700)}", f"{self.below(5)}/2")

    def part(self) -> str:
        length = self.one_of("1/4", "1/1", "3/2", f"ticks {1 + self.below(900)}")
        return self.one_of(f"flat {length} by {1 + self.below(3000)}",
                           f"slope {length} by {1 + self.below(3000)} to {1 + self.below(3000)}",
                           f"pause {self.length()}", f"breath {self.length()}")

    def expression(self, loops: int, deep: int = 2) -> str:
        leaves = [str(self.below(130)), f"r{self.below(8)}", f"pick({self.below(9)})"]
        leaves += [f"n{self.below(loops)}"] if loops else []
        if deep == 0:
            return self.one_of(*leaves)
        left, right = self.expression(loops, deep - 1), self.expression(loops, deep - 1)
        return self.one_of(*leaves, f"{left} {self.one_of('+', '-', '*', '/', '%')} {right}", f"-{self.one_of(*leaves)}",
                           f"({left})", f"{self.one_of('min', 'max', 'less', 'same')}({left}, {right})", f"pick({left})")

    def pitch(self, loops: int) -> str:
        return self.one_of(f"{self.one_of(*'cdefgab')}{self.one_of('', 's', 'b')}{1 + self.below(8)}",
                           f"key {self.below(128)}", f"key ({self.expression(loops)})")

    def pitches(self, loops: int) -> str:
        return ", ".join(self.pitch(loops) for _ in range(1 + self.below(3)))

    def duration(self, loops: int) -> str:
        return self.one_of(self.length(), self.length(), f"ticks ({self.expression(loops)}) max {self.below(600)}")

    def entries(self, entry: str) -> str:
        makers: dict[str, Callable[[], str]] = {"rhythm": self.length, "artic": lambda: str(self.below(401)), "loud": lambda: str(1 + self.below(127))}
        return ", ".join(makers[entry]() for _ in range(1 + self.below(4)))

    # ---- statements

    def simple(self, loops: int, in_rhythm: bool) -> str:
        choices = [f"note {self.pitches(loops)} {self.duration(loops)};", f"rest {self.duration(loops)};",
                   f"control {self.below(128)} {self.one_of(str(self.below(128)), f'({self.expression(loops)})')};",
                   f"program {self.below(128)};", f"set r{self.below(8)} = {self.expression(loops)};",
                   f"bend {self.one_of('-', '')}{self.below(8192)};"]
        if in_rhythm:
            choices += [f"play {self.pitches(loops)};"] * 3 + ["skip;"]
        return self.one_of(*choices)

    def block(self, deep: int, loops: int, in_rhythm: bool, may_fork: bool) -> str:
        inner = [self.statement(deep, loops, in_rhythm, may_fork) for _ in range(1 + self.below(3))]
        return "{ " + " ".join(inner) + " }"

    def statement(self, deep: int, loops: int = 0, in_rhythm: bool = False, may_fork: bool = True) -> str:
        if deep == 0 or self.below(3) == 0:
            return self.simple(loops, in_rhythm)
        kind = self.one_of("repeat", "computed", "if", "par", "warp", "channel", "volume", "gate", "rhythm", "artic",
                           "loud", "do")
        if kind == "par" and may_fork:
            branches = " ".join("branch " + self.block(deep - 1, loops, in_rhythm, True)
                                for _ in range(1 + self.below(3)))
            return f"par {{ {branches} }}"
        if kind == "do" and self.phrases:
            return f"do {self.one_of(*self.phrases)};"
        if kind == "warp" and self.shapes:
            return f"warp {self.one_of(*self.shapes)} {self.block(deep - 1, loops, in_rhythm, may_fork)}"
        if kind in ("rhythm", "artic", "loud"):
            inside = in_rhythm or kind == "rhythm"
            return f"{kind} [{self.entries(kind)}] {self.block(deep - 1, loops, inside, may_fork)}"
        if kind == "repeat":
            return f"repeat {self.below(4)} {self.block(deep - 1, loops + 1, in_rhythm, may_fork)}"
        if kind == "computed":
            return (f"repeat ({self.expression(loops)}) max {self.below(5)} "
                    f"{self.block(deep - 1, loops + 1, in_rhythm, False)}")
        if kind == "if":
            other = f" else {self.block(deep - 1, loops, in_rhythm, False)}" if self.below(2) else ""
            return f"if {self.expression(loops)} {self.block(deep - 1, loops, in_rhythm, False)}{other}"
        if kind in ("channel", "volume", "gate"):
            number = {"channel": self.below(16), "volume": 1 + self.below(127), "gate": self.below(401)}[kind]
            return f"{kind} {number} {self.block(deep - 1, loops, in_rhythm, may_fork)}"
        return self.simple(loops, in_rhythm)

    def score(self, version: Optional[int] = None) -> str:
        lines = [f"formula {version or 1 + self.below(2)};"]
        if lines[0] == "formula 2;" and self.below(2):
            lines.append(f"division {self.one_of('96', '480', '960', '24')};")
        if self.below(2):
            lines.append(f"seed {self.below(10 ** 9)};")
        for number in range(self.below(4)):
            lines.append(f"shape s{number}x = {', '.join(self.part() for _ in range(1 + self.below(4)))};")
            self.shapes.append(f"s{number}x")
        for number in range(self.below(3)):
            lines.append(f"phrase verse_{number} {self.block(2, 0, False, False)}  # phrase {number}")
            self.phrases.append(f"verse_{number}")
        lines += [self.statement(4) for _ in range(1 + self.below(5))]
        return "\n".join(lines) + "\n"
