"""The language: its grammar, its tokens, which numbers each place takes, and where the first fault of a text is."""
