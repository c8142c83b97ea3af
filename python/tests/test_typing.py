"""Errors of one key in legal texts: who follows what is told mostly gets the text back, and seldom another one."""

from __future__ import annotations

import random
import unittest

from formula_score.language.tokens import NAME, tokens

from .test_repair import explained


def anonymous(text: str) -> list[str]:
    """The tokens of a text, each name by the order in which names come."""
    names: dict[str, str] = {}
    return [names.setdefault(token.text, f"NAME {len(names)}") if token.kind == NAME else token.text
            for token in tokens(text)]


class Typing(unittest.TestCase):
    TEXTS = (
        "formula 1; note c4 1/4; note e4, g4 1/8; rest 3/8;",
        "formula 1; phrase tune { note fs4 1/4; rest 1/8; } repeat 4 { do tune; }",
        "formula 1; rhythm [1/4, 1/8] { play c4; play d4, f4; skip; }",
        "formula 1; shape rit = slope 1/1 by 1000 to 1500, flat 2/1 by 1500; warp rit { note c4 1/1; note bb3 1/2; }",
        "formula 1; par { branch { note c5 1/1; } branch { channel 1 { volume 90 { note e4 1/2; note f4 1/2; } } } }",
        "formula 2; seed 42; set r0 = 60; repeat 9 { note key (r0) 1/8; set r0 = max(48, min(72, r0 + pick(9) - 4)); }",
        "formula 1; repeat 8 { if less(n0, 5) { note c4 1/8; } else { gate 50 { note g4 1/8; } } }",
    )
    KEYS = ("1234567890-=", "qwertyuiop[]", "asdfghjkl;", "zxcvbnm,./")

    def mistyped(self, draw: random.Random, text: str) -> str:
        """The text with a key left out, pressed twice, too early, beside the right one, or with a blank too many."""
        at = draw.randrange(len("formula 1;") + 1, len(text) - 1)
        before, key, behind = text[:at], text[at], text[at + 1:]
        row = next((row for row in self.KEYS if key in row), key)
        beside = row[max(0, min(len(row) - 1, row.find(key) + draw.choice((-1, 1))))]
        return before + draw.choice((behind, key + key + behind, behind[0] + key + behind[1:], beside + behind,
                                     " " + key + behind))

    def test_few_errors_of_one_key_lead_astray(self) -> None:
        draw, count = random.Random(77), {"right": 0, "astray": 0, "asserted": 0, "other": 0}
        for _ in range(400):
            text = draw.choice(self.TEXTS)
            wrong = self.mistyped(draw, text)
            found = explained(wrong.encode())
            if found is None or anonymous(wrong) == anonymous(text):
                continue
            if any(anonymous(each.decode()) == anonymous(text) for each in found.texts):
                count["right"] += 1
            elif found.texts:
                count["asserted" if found.strength == "write" else "astray"] += 1
            else:
                count["other"] += 1
        refused = sum(count.values())
        self.assertGreaterEqual(count["right"], 0.7 * refused, count)
        self.assertLessEqual(count["asserted"], 0.03 * refused, count)


if __name__ == "__main__":
    unittest.main()
