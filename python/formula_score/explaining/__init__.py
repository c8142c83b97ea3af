"""What the command's statuses, lines and faults mean, and the record of a run as lines."""
