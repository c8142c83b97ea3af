"""What is accepted in a score and hardly meant, and its bars."""
