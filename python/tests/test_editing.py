"""What editors are told of a text: refusals and their places, names, completion, the rows of words, the outline."""

from __future__ import annotations

import unittest

from formula_companion.editing.completion import completed
from formula_companion.editing.names import renamed, same_name, use_at
from formula_companion.editing.outline import Part, outline
from formula_companion.editing.places import Places, Position
from formula_companion.editing.reference import SAYS, form_of, row_at
from formula_score.checks.margin import refused
from formula_score.explaining.explain import Place
from formula_score.language.grammar import KEYWORDS

TEXT = b"""formula 1;  # \xe2\x99\xaa \xf0\x9d\x84\x9e a tune
phrase tune { note c4, eb4 1/4; }
shape rit = slope 1/1 by 1000 to 1500;
par {
  branch { do tune; }
  branch { channel 1 { warp rit { do tune; do tune; } } }
}
"""


def words(text: bytes) -> list[str]:
    return [item.label for item in completed(text, len(text)).items]


class Positions(unittest.TestCase):
    def test_characters_are_those_of_utf_16(self) -> None:
        places = Places("# ♪𝄞x\nab".encode())
        byte = places.data.index(b"x")
        self.assertEqual((places.position(byte), places.byte(Position(0, 5))), (Position(0, 5), byte))
        self.assertEqual([places.byte(Position(1, 1)), places.byte(Position(0, 99)), places.byte(Position(9, 0))],
                         [byte + 3, byte + 1, byte + 4])
        self.assertEqual(places.byte_of(2, 2), byte + 3)

    def test_a_refusal_is_underlined_where_it_is_told(self) -> None:
        text = "formula 1; # 𝄞\nnote c4 1/4\nnote d4 1/4;".encode()
        refusal = refused(text, Place(3, 1, 3))
        places = Places(text)
        self.assertEqual(places.range(refusal.start, refusal.end), (Position(1, 10), Position(1, 11)))
        self.assertIn("a `;` is expected", refusal.what)
        self.assertEqual(refusal.cure, "each statement ends with `;`: write `note c4 1/4;`")
        change, = refusal.changes
        edit, = change.edits
        self.assertEqual((change.title, places.range(edit.start, edit.end), edit.new),
                         ("write `note c4 1/4;`", (Position(1, 0), Position(1, 11)), "note c4 1/4;"))
        word = refused(b"formula 1; volume 200 { }", Place(1, 19, 7))
        self.assertEqual((word.start, word.end), (18, 21))
        byte = refused("formula 1; note 𝄞 1/4;".encode(), Place(1, 17, 1))
        self.assertEqual((byte.start, byte.end), (16, 20))
        empty = refused(b"", Place(1, 1, 3))
        self.assertEqual((empty.start, empty.end), (0, 0))


class Names(unittest.TestCase):
    def test_all_places_of_a_name_are_found(self) -> None:
        use = use_at(TEXT, TEXT.index(b"do tune") + 4)
        assert use is not None
        self.assertEqual([(place.start, place.defines) for place in same_name(TEXT, use)],
                         [(TEXT.index(b"tune {"), True)] + [(at, False) for at in
                          (TEXT.index(b"tune; }\n"), TEXT.index(b"tune; do"), TEXT.rindex(b"tune"))])
        self.assertIsNone(use_at(TEXT, TEXT.index(b"c4")))

    def test_a_new_name_is_one_that_may_stand_there(self) -> None:
        at = TEXT.index(b"rit")
        self.assertEqual([use.start for use in renamed(TEXT, at, "slower") if not isinstance(use, str)],
                         [at, TEXT.index(b"rit {")])
        for name in ("c4", "r0", "n3", "note", "tune", "Rit", "1x", "", "a b"):
            self.assertIsInstance(renamed(TEXT, at, name), str, name)
        self.assertIsInstance(renamed(TEXT, 0, "x"), str)


class Completion(unittest.TestCase):
    def test_only_what_may_stand_there_is_offered(self) -> None:
        head = b"formula 1; phrase tune { note c4 1/4; } shape rit = flat 1/1 by 900; "
        self.assertEqual(words(head + b"do "), ["tune"])
        self.assertEqual(words(head + b"warp r"), ["rit"])
        self.assertEqual(words(head + b"shape a = "), ["flat", "slope", "pause", "breath"])
        self.assertEqual(words(head + b"shape a = flat 1/1 "), ["by"])
        self.assertEqual(words(b"form"), ["formula"])
        self.assertIn("shape", words(head))
        self.assertNotIn("shape", words(head + b"repeat 2 { "))
        self.assertIn("c4", words(head + b"note "))
        self.assertIn("73 flute", words(head + b"program 7"))
        self.assertIn("crescendo", words(head + b"cresc"))

    def test_behind_a_fault_all_words_are_offered(self) -> None:
        self.assertEqual(words(b"formula 1; ! sha"), ["shape"])


class Words(unittest.TestCase):
    def test_each_word_of_the_language_has_a_row(self) -> None:
        self.assertEqual(set(SAYS), KEYWORDS | {"division"})
        for word in SAYS:
            self.assertIn(word, form_of(word))

    def test_a_row_is_that_of_what_stands_there(self) -> None:
        for place, form, says in ((b"slope", "slope 1/1 by 1000 to 1500", "evenly"), (b"eb4", "eb4", "key 63"),
                                  (b"tune; }\n", "phrase tune { note c4, eb4 1/4; }", "phrase of line 2"),
                                  (b"1000", "by 1000", "120.00 quarter notes")):
            row = row_at(TEXT, TEXT.index(place))
            assert row is not None
            self.assertEqual(row.form, form)
            self.assertIn(says, row.says)
        self.assertIsNone(row_at(TEXT, TEXT.index(b"a tune")))


class Outline(unittest.TestCase):
    def test_phrases_shapes_and_branches_are_in_it(self) -> None:
        def shown(part: Part) -> tuple[str, str, bytes]:
            return part.kind, part.name, TEXT[part.start:part.end][-4:]

        self.assertEqual([shown(part) for part in outline(TEXT)], [
            ("phrase", "tune", b"4; }"), ("shape", "rit", b"500;"), ("branch", "branch 1", b"e; }"),
            ("branch", "branch 2", b" } }")])
        nested = outline(b"phrase a { par { branch { par { branch { } branch { } } } branch { } } } par { branch {")
        self.assertEqual([entry.name for entry in nested], ["a", "branch 1"])
        self.assertEqual([entry.name for entry in nested[0].inner], ["branch 1", "branch 2"])
        self.assertEqual([entry.name for entry in nested[0].inner[0].inner], ["branch 1", "branch 2"])


if __name__ == "__main__":
    unittest.main()
