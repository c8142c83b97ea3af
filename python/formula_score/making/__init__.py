"""Values that make a score: pitches, lengths, shapes, music that holds music, and what it will play."""
