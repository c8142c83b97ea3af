"""From a MIDI file to a score. `parts` has the parts of a file, and `going` is the whole way.

`grid` (where onsets go, and files with the ticks of another clock), `messages` and `moved` move what the file has, `voicing`
finds the voices of a part and `spelling` their bars. With `--exact` nothing moves, and `exact` finds the voices. The text is
made by `branches`, `levels` (volumes and gates), `statements`, `repeats` (loops and phrases), `tempo`, `words`, `layout` and
`text`. `judging` compares what was played with the file. `formula_companion.verbs.importing` is the verb.
"""
