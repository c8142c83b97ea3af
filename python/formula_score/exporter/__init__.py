"""From a score to a MIDI file for notation programs: the written grid under a tempo map, with a meter and names.

`axis` says where each event lies on the grid, `tempo` finds tempos that play it there in time, `tracks` the tracks and
their names, and `check` compares the real times of both files. `formula_score.exporter.files` is the verb.
"""
