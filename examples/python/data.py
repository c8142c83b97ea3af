"""Data as sound: the sunspots of each year from 1900 to 1999, high where they are many. A cycle is about 11 notes."""
from formula_score import Scale, Score, channel, crescendo, dynamics, instrument, note, par, tempo

# yearly means of the sunspot number, Brussels, rounded
SPOTS = [int(word) for word in """
 16 5 8 41 70 106 90 103 81 73 31 10 6 2 16 79 95 174 134 106 63 44 24 10 28 74 107 115 130 108 59 35 19 9 15 60 133
 191 183 148 113 79 51 27 16 55 155 215 193 191 119 98 45 20 7 54 201 269 262 225 159 76 53 40 15 22 67 133 150 149
 148 94 98 54 49 23 18 39 131 220 219 199 162 91 61 21 14 34 123 211 192 203 133 76 45 25 12 29 88 136
""".split()]
scale = Scale("c3", "pentatonic")
years = [note(scale[spots // 15], "1/8") for spots in SPOTS]
ground = [note(scale[max(SPOTS[at:at + 10]) // 30 - 5], "5/4") for at in range(0, 100, 10)]
score = Score(tempo(140, par(
    channel(0, instrument("vibraphone"), dynamics("f", *years)),
    channel(1, instrument("contrabass"), crescendo("p", "f", *ground)),
)))
