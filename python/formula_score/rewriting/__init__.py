"""Other texts of a score: transposed, and in one layout. What is not meant to change stays byte by byte."""
