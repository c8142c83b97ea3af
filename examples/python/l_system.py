"""A melody that grows by a rule: each letter becomes a word, five times over. Listen for the same turn on each scale."""
from formula_score import Scale, Score, channel, crescendo, instrument, note, phrase, seq, tempo

RULES = {"A": "AB", "B": "A-B", "-": "-"}
scale = Scale("d4", "dorian")

word = "A"
for _ in range(6):
    word = "".join(RULES[letter] for letter in word)

at, notes = 0, []
for letter in word:
    if letter == "-":
        at = -(at % 5)
    else:
        at += 2 if letter == "A" else -1
        notes.append(note(scale[max(-7, min(9, at))], "1/8" if letter == "A" else "3/16"))

lines = [seq(*notes[begin:begin + 32]) for begin in range(0, len(notes), 32)]
score = Score(tempo(132, channel(0, instrument("marimba"), *(crescendo("p", "f", line) for line in lines))))
