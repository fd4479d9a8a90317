"""What the scripts deploy/PART/try have in common: their arguments, what they need, and the steps that they make."""

import argparse
import os
import pathlib
import re
import subprocess
import sys
import textwrap
import time

ROOT = pathlib.Path(__file__).resolve().parent.parent
# The program, which is the proved one if ./dlmsfw --proof says so.
PROGRAM = ROOT / "crates" / "dlmsfw" / "out" / "dlmsfw"
# The status if something that is needed isn't there.
MISSING = 77


class Failed(Exception):
    """What a step found wrong."""


def wants(holds, why):
    """Fails a step if something doesn't hold."""
    if not holds:
        raise Failed(why)


def until(holds, seconds, why):
    """Waits until something holds. Why it has to is asked only if it doesn't after some seconds."""
    end = time.monotonic() + seconds
    while not holds():
        wants(time.monotonic() < end, f"after {seconds} s {why()}")
        time.sleep(0.05)


def taken(processes):
    """What processes that run have taken so far: their processor time in seconds, and the most memory that one of them had, in kB."""
    seconds, most = 0, 0
    for process in processes:
        folder = pathlib.Path("/proc", str(process.pid))
        words = (folder / "stat").read_text().rpartition(")")[2].split()
        seconds += (int(words[11]) + int(words[12])) / os.sysconf("SC_CLK_TCK")
        # (one that has ended and isn't waited for yet has none)
        held = re.search(r"^VmHWM:\s+(\d+)", (folder / "status").read_text(), re.M)
        most = max(most, int(held[1]) if held else 0)
    return seconds, most


def told_of(taken):
    """What was taken, in words."""
    seconds, most = taken
    return f"{seconds:.0f} s of a processor, and at most {most / 1000:.1f} MB each"


def arguments(text, *options):
    """The arguments of the script that this text is of, which --help prints: --needs, and options with their type and what they are if left
    out. One of type bool takes no value."""
    if {"-h", "--help"} & {*sys.argv[1:]}:
        print(text, end="")
        sys.exit()
    usage = text.partition("usage: ")[2].partition("\n")[0]
    parser = argparse.ArgumentParser(prog=usage.partition(" ")[0], usage=usage, add_help=False, allow_abbrev=False)
    parser.add_argument("--needs", action="store_true")
    for name, kind, value in options:
        how = {"action": "store_true"} if kind is bool else {"type": kind, "default": value}
        parser.add_argument(name, **how)
    return parser.parse_args()


def lacks_of(given):
    """What isn't there of the program: that of --program, or else the proved one."""
    program = getattr(given, "program", None)
    if program:
        return None if program.is_file() else f"a program {program}"
    made = subprocess.run([ROOT / "dlmsfw", "--proof"], stdin=subprocess.DEVNULL, capture_output=True, text=True, check=False)
    return None if made.returncode == 0 else f"the proved program ({made.stderr.strip()})"


def need(part, given, needed):
    """Ends if something isn't there that a part needs, each with whether it is. With --needs that is all, and the program isn't asked for."""
    lacking = [what for what, is_there in needed.items() if not is_there]
    if not given.needs and not lacking:
        lacking = [it for it in [lacks_of(given)] if it]
    if lacking:
        print(f"deploy/{part}/try: NOT TRIED: it lacks {'; '.join(lacking)}", flush=True)
        sys.exit(MISSING)
    if given.needs:
        print(f"deploy/{part}/try: all that it needs is here", flush=True)
        sys.exit()


def program_of(given):
    """The program to try."""
    return (given.program or PROGRAM).resolve()


def make(part, steps, of, needed_by_others=None):
    """Makes the steps, with a line for each: the status, 1 if one failed. None is made after one that fails if others need it, or after any
    if it isn't said which those are."""
    holding = 0
    for step in steps:
        began = time.monotonic()
        try:
            told = step(of)
        except (Failed, subprocess.SubprocessError, OSError) as why:
            print(f"{step.__name__}: FAILED: {textwrap.shorten(str(why), 2000)}", flush=True)
            if needed_by_others is None or step in needed_by_others:
                break
            continue
        holding += 1
        print(f"{step.__name__}: ok in {time.monotonic() - began:.0f} s{f': {told}' if told else ''}", flush=True)
    print(f"deploy/{part}/try: {holding} of {len(steps)} steps hold", flush=True)
    return 0 if holding == len(steps) else 1
