"""What a machine has for what goes beyond the command, and what it lacks."""
