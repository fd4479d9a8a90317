"""The limits of the programs of bench/, which each keeps by itself and bench/all tells of together."""

import sys

# What the line of a limit begins with.
KEPT = "kept: "
OVER = "over: "


def number(n):
    """A figure in few digits."""
    return f"{n:.0f}" if n >= 100 else f"{n:.3f}"


def keep(limits):
    """Prints each limit, its figure and the most that it may be, and ends the program: with status 1 if one is passed."""
    for limit, figure, most in limits:
        print(f"{OVER if figure > most else KEPT}{limit}: {number(figure)}, at most {number(most)}")
    sys.exit(any(figure > most for _, figure, most in limits))
