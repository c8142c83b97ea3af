"""The reading of a text that the command accepts: its tree, a walk over what is played, bars and ticks.

What it tells of ticks are answers of the proved program. It judges nothing, and is outside the proof.
"""
