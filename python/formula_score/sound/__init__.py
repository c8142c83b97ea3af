"""Which synthesizer is there to play a file."""
