"""The words of a benchmark: perhaps the path of a program, then counts."""

import os
import sys


def program_and_counts(crate, usual):
    """The program that the words name, else the one that `crate` built; and the counts that they name, else the usual ones."""
    words = sys.argv[1:]
    if words in (["-h"], ["--help"]):
        print(sys.modules["__main__"].__doc__.strip())
        sys.exit(0)
    top = os.path.dirname(os.path.dirname(os.path.abspath(__file__)))
    program = os.path.join(top, "crates", crate, "out", crate)
    if words and not words[0].isdigit():
        program = os.path.abspath(words.pop(0))
    if not os.access(program, os.X_OK):
        sys.exit(f"{program} is no program: `rt run` in crates/{crate} builds one")
    return program, [int(word) for word in words] or usual
