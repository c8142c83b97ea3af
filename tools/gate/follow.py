"""What a command prints, as it comes."""
import subprocess
import sys
from typing import Iterator


def follow(running: "subprocess.Popen[str]") -> Iterator[str]:
    """Prints each line of a command as it comes, and returns it."""
    assert running.stdout is not None
    for line in running.stdout:
        sys.stdout.write(line)
        sys.stdout.flush()
        yield line.rstrip("\n")
