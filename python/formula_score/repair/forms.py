"""What the statement of each word looks like."""

from __future__ import annotations

#: What each word's statement looks like.
FORMS = {
    "note": "note c4, e4, g4 1/4;", "play": "play c4;", "rest": "rest 1/4;", "skip": "skip;",
    "control": "control 7 100;", "program": "program 73;", "bend": "bend 4096;", "set": "set r0 = r0 + 2;",
    "if": "if less(r0, 3) { .. } else { .. }", "repeat": "repeat 4 { .. }", "do": "do verse;",
    "warp": "warp rit { .. }",
    "par": "par { branch { .. } branch { .. } }", "channel": "channel 1 { .. }", "volume": "volume 80 { .. }",
    "gate": "gate 50 { .. }", "rhythm": "rhythm [1/4, 1/8] { .. }", "artic": "artic [100, 50] { .. }",
    "loud": "loud [100, 64] { .. }", "shape": "shape rit = slope 1/1 by 1000 to 1500;", "phrase": "phrase verse { .. }",
    "seed": "seed 42;", "formula": "formula 1;", "division": "division 96;", "else": "if r0 { .. } else { .. }",
}

#: The same by the grammar, where words in capitals are what differs.
GRAMMAR = {
    "note": "note PITCH, .. LENGTH;", "play": "play PITCH, ..;", "rest": "rest LENGTH;", "skip": "skip;",
    "control": "control CONTROLLER VALUE;", "program": "program NUMBER;", "bend": "bend NUMBER;",
    "set": "set REGISTER = VALUE;", "if": "if VALUE { .. }", "repeat": "repeat COUNT { .. }", "do": "do NAME;",
    "warp": "warp NAME { .. }", "par": "par { branch { .. } .. }", "channel": "channel NUMBER { .. }",
    "volume": "volume NUMBER { .. }", "gate": "gate NUMBER { .. }", "rhythm": "rhythm [LENGTH, ..] { .. }",
    "artic": "artic [NUMBER, ..] { .. }", "loud": "loud [NUMBER, ..] { .. }", "shape": "shape NAME = PART, ..;",
    "phrase": "phrase NAME { .. }", "seed": "seed NUMBER;", "formula": "formula NUMBER;", "division": "division "
                                                                                                      "NUMBER;",
    "else": "else { .. }",
}

#: What each place of the grammar takes. `{word}` is the word of the statement, `{form}` its form.
AT = {
    "pitch": "a pitch is a letter a to g, perhaps `s` or `b`, then one digit of octave, as in `{form}`; by its number "
             "it is `key 60`",
    "pitches": "the pitches of a chord have commas between them, and the length is after them, as in `note c4, e4, "
               "g4 1/4;`",
    "length": "a length is a part of a whole note, as in `{form}`, or `ticks 480`; a computed one is `ticks (E) max "
              "1920`",
    "slash": "a length is a part of a whole note, as in `1/4` or `3/8`, or `ticks 480`",
    "under": "a number is missing after the `/`, as in `1/4`",
    "ticks": "a number is after `ticks`, as in `ticks 480`; what is computed is in parentheses, as `ticks (E) max "
             "1920`",
    "max": "what is computed has the most that it may be after it, as in `(r0) max 16`",
    "most": "a written number is after `max`, as in `(r0) max 16`",
    "count": "the count is directly after `repeat`, as in `repeat 4 {{ .. }}`; a computed one is `repeat (E) max 16 "
             "{{ .. }}`",
    "setting": "a written number and a block are after `{word}`, as in `{form}`",
    "list": "a list in brackets and a block are after `{word}`, as in `{form}`",
    "entry": "an entry is a written number, as in `{form}`",
    "entries": "commas are between the entries of a list, and `]` is after the last one, as in `{form}`",
    "block": "a block between `{{` and `}}` is after `{word}`, as in `{form}`",
    "value": "a value is a number, a register `r0` to `r7`, an index such as `n0`, or a function such as `pick(12)` "
             "or `less(r0, 3)`",
    "operator": "operators are `+`, `-`, `*`, `/`, `%`; `min`, `max`, `less` and `same` take two values, as in "
                "`max(r0, 48)`",
    "function": "a function has its values in parentheses, as in `pick(12)` or `less(r0, 3)`",
    "register": "registers are `r0` to `r7`, as in `set r0 = 60;`", "equals": "write `=` here, as in `{form}`",
    "name": "the name of a {of} is after `{word}`, as in `{form}`",
    "new": "a name of small letters, digits and `_` is after `{word}`, as in `{form}`; no keyword, pitch or register "
           "is a name",
    "part": "a part is `flat 1/1 by 1000`, `slope 1/1 by 1000 to 1500`, `pause 1/8` or `breath 1/16`",
    "by": "a stretch in thousandths is after the length, as in `flat 1/1 by 1000` or `slope 1/1 by 1000 to 1500`",
    "to": "a `slope` has two stretches, as in `slope 1/1 by 1000 to 1500`, and `flat` has one",
    "stretch": "a stretch is a number of thousandths: 1000 is as written, 2000 half as fast, as in `flat 1/1 by 1250`",
    "amount": "a number is after `{word}`, as in `{form}`; what is computed is in parentheses, as in `{word} (r0 + "
              "5);`",
    "controller": "the number of a controller and its value are after `control`, as in `control 7 100;`",
    "key": "the number of a key is after `key`, as in `key 60`; what is computed is in parentheses, as in `key (r0 + "
           "60)`",
    "branch": "a `par` has branches, as in `par {{ branch {{ .. }} branch {{ .. }} }}`",
    "formula": "begin the text with `formula 1;`", "version": "the version of the language is 1 or 2, as in `formula "
               "1;`",
    "seed": "a written number is after `seed`, as in `seed 42;`",
    "amount@bend": "a bend goes from -8192 to 8191, and 4096 is one semitone on most instruments, as in `bend 4096;`",
    "amount@program": "a program is its number in General MIDI less one: 73 is the flute, as in `program 73;`",
    "setting@channel": "channels go from 0 to 15, and the drums are on 9, as in `channel 9 {{ .. }}`",
    "setting@volume": "a velocity goes from 1 to 127, and 80 is mf, as in `volume 80 {{ .. }}`",
    "setting@gate": "a gate is percent of the length, 0 to 400, as in `gate 50 {{ .. }}`",
}
