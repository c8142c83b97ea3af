"""`python3 -m formula_companion` is `formula-score`."""

import sys


def main() -> int:
    """Runs the program by the Python that has the libraries of the verb, which is known before anything else is
    loaded. The processes of a batch load this module too, and need nothing else of the package."""
    from .verbs.libraries import restart
    restart(sys.argv[1:])
    from .verbs import program
    return program.main()


if __name__ == "__main__":
    sys.exit(main())
