"""Runs of 70,000 datagrams, whose numbers go past 65,535. The traces are put together by hand, as in the names of runs/run."""

from common import wants

SETUP = "head 7 width 4\nmeter 1 block 2 capacity 64 factory 78\nopen 7 1 616263 1\n"
MANY = 70_000
# So often the head end asks for the block size, and of that nothing comes but the last one. Then its answer comes.
SCRIPT = SETUP + "tick 7 1\n" * MANY + f"deliver {MANY - 1} {MANY}\n"
ASKS = "head 7 -> meter 1  "
ANSWERS = "meter 1 -> head 7  "
# What is sent from the last of these asks on, where all comes.
SENT = [
    *(ASKS + "get block size", ANSWERS + "get 2"),
    *(ASKS + "enable", ANSWERS + "set 0"),
    *(ASKS + "initiate campaign 7 1 (3 bytes)", ANSWERS + "action 0"),
    *(ASKS + "block 0 (2 bytes)", ASKS + "block 1 (1 bytes)", ANSWERS + "action 0", ANSWERS + "action 0"),
    *(ASKS + "get first not transferred block", ANSWERS + "get 2"),
    *(ASKS + "verify", ANSWERS + "action 0"),
    *(ASKS + "get image to activate", ANSWERS + "get images 1"),
    *(ASKS + "activate", ANSWERS + "action 0"),
    *(ASKS + "get active firmware identifier", ANSWERS + "get campaign 7 1"),
]
LOST = [f"{number} {ASKS}get block size  lost" for number in range(MANY - 1)]
TRACE = [*LOST, *(f"{number} {line}" for number, line in enumerate(SENT, MANY - 1))]
REPORT = ["row 7 1 1 done", "meter 1 status 6 active 7 1 size 3", "activations 1"]


def told(place, *words):
    """What a run of the script tells."""
    status, out, said = place.run(*words, "--trace", text=SCRIPT)
    wants((status, said) == (0, []), f"{words} ends with {status} and {said}")
    return out.splitlines()


def compared(got, want):
    """Fails at the first line that differs."""
    for number, (one, other) in enumerate(zip(got, want)):
        wants(one == other, f"line {number} is {one} in place of {other}")
    wants(len(got) == len(want), f"there are {len(got)} lines in place of {len(want)}")


# To be seen, of each of the three: a number of a datagram or of an event that is kept, compared or shown in 16 bits; a datagram from
# number 65,536 on that isn't found, or comes as another one; a log that is full.
def replay_takes_70000_datagrams(place):
    """In `replay` each of 70,019 datagrams has its number, and those from 69,999 on come."""
    compared(told(place, "replay", "--rounds", "8", "--fates", "d"), [*TRACE, *REPORT])


def rehearse_takes_70000_datagrams(place):
    """The same of `rehearse`."""
    compared(told(place, "rehearse", "--rounds", "8", "--workers", "1"), [*TRACE, *REPORT, "board 1"])


def live_takes_70000_datagrams(place):
    """The same of `live`, in which some datagrams may be lost and asked for again."""
    lines = told(place, "live", "--rounds", "30", "--workers", "1")
    compared(lines[: MANY + 1], TRACE[: MANY + 1])
    numbers = [int(line.split()[0]) for line in lines if line[0].isdigit()]
    wants(numbers == list(range(len(numbers))) and len(numbers) >= len(TRACE), f"the numbers end with {numbers[-1]}")
    compared(lines[len(numbers) :], [*REPORT, "board 1"])


STEPS = [replay_takes_70000_datagrams, rehearse_takes_70000_datagrams, live_takes_70000_datagrams]
