"""What editors need of a text, whether it is accepted or not: refusals, names, completion, words, an outline.

The studio and the language server share it. A position is a line and a character, both from 0, and a character is one
of UTF-16, as editors count.
"""
