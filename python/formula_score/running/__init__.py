"""Runs of the command on a text, and the score that is saved and played."""
