"""What the programs of bench/ are given that take a number, or nothing."""

import sys


def number_of(text, usual=None):
    """The number that a program was given, and the usual one if it was given none. One without a usual one takes none. With --help it prints
    its text, and ends; so it does with anything else, by its line of usage and with status 2."""
    words = sys.argv[1:]
    if {"-h", "--help"} & {*words}:
        print(text, end="")
        sys.exit()
    if not words:
        return usual
    if usual is None or len(words) > 1 or not words[0].isdecimal():
        print(next(line for line in text.splitlines() if line.startswith("usage: ")), file=sys.stderr)
        sys.exit(2)
    return int(words[0])
