"""A score on paper: as it is written, before each deformation, in MusicXML or ABC, and drawn.

`sheet` has the notes in voices and staves, `tuplets` and `rhythm` their printed values, `spelling` keys and clefs,
`marks` tempos and fermatas, `dynamics` loudness, `touch` slurs, `repeats` what is folded. `musicxml` and `abc_text`
write, `files` has the whole, and `paper` draws by programs that are installed.
"""
