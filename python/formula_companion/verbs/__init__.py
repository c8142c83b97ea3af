"""The verbs of `formula-score`: the words of each, and what it prints.

`program.py` has their table, and each is a module of its own. What a verb tells of ticks are answers of the proved
program. `libraries.py` lets Debian's Python go on where this one lacks a library of a verb.
"""
