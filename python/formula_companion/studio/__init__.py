"""The studio: a page in the browser that shows and plays a score while it is written, and the server behind it.

docs/STUDIO.md says how it is built. It is part of the companion, outside the proof.
"""
