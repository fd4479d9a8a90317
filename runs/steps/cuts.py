"""What a cut of the power may leave of the files that a recorded run of the program changes."""

import contextlib
import subprocess
import tempfile

import common
from common import script
from disk import key, recorded

power = script("power")
# Where there are more than 64 choices of what the disk has, these are tried: none, all, each alone, and each left out.
power.RANDOM = 0

# Calls that stand in a record and change no file.
LOOKS = ("open", "bind")


def lefts(disk):
    """The states that a cut may leave now: of each what the files have by their names, as a value."""
    chosen = (disk.left(some) for some in power.choices(disk.units(), None))
    return {key(left) for left in chosen if left is not None}


@contextlib.contextmanager
def recording(place, folder, *words, **settings):
    """A run of the program in a folder while it is recorded, and then what gives its calls."""
    with tempfile.NamedTemporaryFile(dir=place.folder) as record:
        env = place.preloaded("record", RECORD=record.name, SENDS=1, **settings)
        process = subprocess.Popen([place.program, *map(str, words)], cwd=folder, env=env, stdin=subprocess.PIPE, stdout=subprocess.PIPE,
                                   stderr=subprocess.PIPE, text=True)
        try:
            yield process, lambda: list(recorded(record.name))
        finally:
            process.kill()
            process.communicate()


def recorded_run(place, folder, *words, text="", **settings):
    """A run to its end: its status, what it printed, and its calls."""
    with recording(place, folder, *words, **settings) as (process, calls):
        out, _ = process.communicate(text, timeout=common.LONGEST)
        return process.returncode, out, calls()


def number_of_call(calls, at):
    """The number of the call at this place of a record, as KILL has it."""
    return sum(word not in LOOKS for word, *_ in calls[: at + 1])


def last_sync(calls, before):
    """The place of the last sync before this one."""
    return max(at for at, (word, *_) in enumerate(calls[:before]) if word == "sync")
