"""How a script says how it is used: by the text at its head."""

import os
import sys


def asked(words=None, needs=0):
    """Gives the words that the script was started with. Where they ask for help, or are fewer than it needs, it says how it is used
    and ends."""
    words = sys.argv[1:] if words is None else words
    if {"-h", "--help"}.intersection(words):
        print(sys.modules["__main__"].__doc__.strip())
        sys.exit(0 if words == sys.argv[1:] else 2)
    if len(words) < needs:
        print(sys.modules["__main__"].__doc__.strip(), file=sys.stderr)
        sys.exit(2)
    return words


def program_asked():
    """Gives the path of the program that the script was started with."""
    (program,) = asked(needs=1)[:1]
    if not os.access(program, os.X_OK) or os.path.isdir(program):
        sys.exit(f"{os.path.basename(sys.argv[0])}: there is no program {program}")
    return os.path.abspath(program)
