"""Meters over stores in files, with the power cut at each call of a campaign.

What a meter shows at each moment, and what it answers to the rest of the campaign, is worked out by hand from docs/METER.md and
docs/FORMATS.md.
"""

import errno
import hashlib
import os
import pathlib
import shutil
import signal
from dataclasses import dataclass

from common import HOST, Meter, listed, wants
from cuts import LOOKS, last_sync, lefts, number_of_call, power, recorded_run
from disk import CHANGES, at_once, folder_of, key
from ends import SET_ENABLED
from loads import OBJECT, action, datagram, number, octets, structure

STORE = "store"
# The factory image of `answer`, and an image in two blocks of two bytes.
FACTORY, IMAGE = b"abc", b"bbbb"
FACTORY_NAME = b"\x01" + bytes(8) + hashlib.sha256(FACTORY).digest()
# Campaign 1 of head end 7, and release 5: so a header write changes the first part of the file and the last one.
NAME = b"\x02" + bytes.fromhex("000000070000000100000005") + hashlib.sha256(IMAGE).digest()

# The attributes 3 to 7 of Image transfer, and the active firmware identifier.
READS = [datagram(bytes.fromhex("c001c1") + OBJECT + bytes([attribute, 0])) for attribute in (3, 4, 5, 6, 7)]
READS.append(datagram(bytes.fromhex("c001c100010100000200ff0200")))
# What the runs hand to the meter, of which the first one makes it.
RUNS = [
    None,
    datagram(bytes.fromhex("c101c1") + OBJECT + bytes.fromhex("05000301")),
    action(1, structure(octets(NAME), number(len(IMAGE)))),
    action(2, structure(number(0), octets(IMAGE[:2]))),
    action(2, structure(number(1), octets(IMAGE[2:]))),
    action(3, b"\x0f\x00"),
    action(4, b"\x0f\x00"),
]
# The codes of the runs after each one where that one wasn't made: read-write-denied while transfer isn't enabled, temporary-failure where
# the status isn't the one that the method wants.
WITHOUT = [None, [3, 3, 3, 3, 3], [2, 2, 2, 2], [0, 2, 2], [2, 2], [2], []]


def shown(enabled, status, bits, missing, offered, runs):
    """The answers to READS. The bits are those of two blocks, or none."""
    name = octets(offered)
    info = b"\x01\x01" + structure(number(len(IMAGE)), name, octets(offered[-32:])) if offered else b"\x01\x00"
    marks = b"\x04\x00" if bits is None else b"\x04\x02" + bytes([bits])
    values = [marks, number(missing), bytes([3, enabled]), bytes([0x16, status]), info, octets(runs)]
    return [datagram(b"\xc4\x01\xc1\x00" + value) for value in values]


# What the meter shows after each run.
SHOWN = [
    shown(0, 0, None, 0, b"", FACTORY_NAME),
    shown(1, 0, None, 0, b"", FACTORY_NAME),
    shown(1, 1, 0x00, 0, b"", FACTORY_NAME),
    shown(1, 1, 0x80, 1, b"", FACTORY_NAME),
    shown(1, 1, 0xC0, 2, b"", FACTORY_NAME),
    shown(1, 3, 0xC0, 2, NAME, FACTORY_NAME),
    shown(1, 6, None, 0, b"", NAME),
]


def answer(run, code):
    """The answer to what a run hands over: to a SET, or to an ACTION."""
    return datagram(b"\xc5\x01\xc1" + bytes([code]) if run[8] == 0xC1 else b"\xc7\x01\xc1" + bytes([code, 0]))


def lines(datagrams):
    return "".join(f"{it.hex()}\n" for it in datagrams)


@dataclass(frozen=True)
class Cut:
    """A state that a cut leaves: the files, the number of the run that was cut or has ended, and whether it has ended."""

    state: tuple
    run: int
    has_ended: bool

    def asked(self):
        """What its meter is asked: all that it shows, and then the rest of the campaign."""
        return lines([*READS, *RUNS[self.run + 1 :]])

    def may_answer(self):
        """What it may answer: as after the run, or if that has not ended as before it."""
        rest = RUNS[self.run + 1 :]
        answers = [lines([*SHOWN[self.run], *(answer(run, 0) for run in rest)])]
        if not self.has_ended and self.run > 0:
            codes = zip(rest, WITHOUT[self.run], strict=True)
            answers.append(lines([*SHOWN[self.run - 1], *(answer(run, code) for run, code in codes)]))
        return answers

    def fault(self, place):
        """What is wrong with it. A store that isn't there is made anew, and one may lack only until it is made."""
        if STORE not in dict(self.state) and (self.run > 0 or self.has_ended):
            return "the store isn't there"
        with folder_of(place.folder, self.state) as at:
            status, out, said = place.run("answer", "--store", f"{at}/{STORE}", text=self.asked())
        if status or out not in self.may_answer():
            return f"it ends with {status} and {said}, and answers {out.split()}"
        return None


def cuts_of(disk, run, calls):
    """The cuts of a run whose calls are these."""
    cuts = {Cut(left, run, False) for left in lefts(disk)}
    for call in calls:
        disk.take(*call)
        cuts |= {Cut(left, run, False) for left in lefts(disk)}
    return cuts | {Cut(left, run, True) for left in lefts(disk)}


def judged(place, cuts):
    """Fails if a cut leaves what it must not."""
    cuts = list(cuts)
    faults = [(cut, fault) for cut, fault in zip(cuts, at_once(lambda cut: cut.fault(place), cuts)) if fault]
    if faults:
        cut, fault = faults[0]
        files = {name: len(content) for name, content in cut.state}
        wants(False, f"of {len(cuts)} cuts {len(faults)} leave what they must not; one in run {cut.run}, with {files}: {fault}")


def cuts_of_openings(place, cuts):
    """The cuts of openings that put something right in what a cut left."""
    found = set()
    for number, cut in enumerate(cut for cut in cuts if STORE in dict(cut.state)):
        folder, disk = place.sub(f"opening{number}").folder, power.Sectors.of(dict(cut.state))
        for name, content in cut.state:
            (folder / name).write_bytes(content)
        _, _, calls = recorded_run(place, folder, "answer", "--store", STORE)
        if any(word in ("make", "write", "size") for word, *_ in calls):
            for call in calls:
                disk.take(*call)
                found |= {Cut(left, cut.run, cut.has_ended) for left in lefts(disk)}
    return found


def made(place, folder, run, more=(), **settings):
    """A run of the session, recorded, which asks for more then: its status, what it answers, and its calls."""
    text = lines([*RUNS[run : run + bool(RUNS[run])], *more])
    return recorded_run(place, folder, "answer", "--store", STORE, text=text, **settings)


# To be seen: a store that isn't synced before its rename; a folder that isn't synced after it; a capacity that isn't synced before the
# zeros after it; a block that isn't synced before its mark, or a header after it; a journal that isn't synced before its write; a rename
# that is left out.
def stores_outlive_cuts(place):
    """A store that is cut at a call has its meter as before the run or as after it, and the campaign goes on from there."""
    folder, disk, cuts = place.sub("session").folder, power.Sectors(), set()
    for run, handed in enumerate(RUNS):
        status, out, calls = made(place, folder, run)
        wants((status, out) == (0, lines([answer(handed, 0)]) if handed else ""), f"run {run} ends with {status} and {out!r}")
        disk.open.clear()
        cuts |= cuts_of(disk, run, calls)
    judged(place, cuts)
    openings = cuts_of_openings(place, cuts)
    wants(openings, "no opening puts anything right")
    judged(place, openings)


# To be seen: a call that was refused and is taken for done; a header write that was refused and leaves a part of it; a block that is
# marked and not written.
def refused_calls_change_nothing(place):
    """On a disk that refuses each call from one on a run doesn't open the store, or answers hardware-fault, and its meter is as before. The
    store has it as before or as after, and with room the campaign goes on."""
    folder, cuts = place.sub("session").folder, set()
    for run, handed in enumerate(RUNS):
        before = [(it.name, it.read_bytes()) for it in folder.iterdir()]
        _, _, calls = made(place, folder, run)
        for fail in range(1, 1 + sum(word in CHANGES for word, *_ in calls)):
            with folder_of(place.folder, before) as at:
                status, out, _ = made(place, at, run, READS, FAIL=fail)
                fault = (0, lines([answer(handed, 1), *SHOWN[run - 1]])) if handed else None
                wants((status, out) in (fault, (1, "")), f"where call {fail} of run {run} is refused it ends with {status} and {out!r}")
                state = key({it.name: it.read_bytes() for it in pathlib.Path(at).iterdir()})
            # (a file without bytes stays where its first sync is refused)
            left = [name for name, content in state if content]
            wants(run > 0 or not left or STORE in left, f"where call {fail} of a making is refused {left} are left")
            cuts.add(Cut(state, run, False))
    judged(place, cuts)


# To be seen: an opening that doesn't sync the folder.
def names_outlive_a_kill(place):
    """A meter that is killed after it named its store, and before it synced the folder, is opened, and from then on a cut leaves its
    store."""
    _, _, calls = made(place, place.sub("whole").folder, 0)
    folder, disk = place.sub("killed").folder, power.Sectors()
    call = number_of_call(calls, last_sync(calls, len(calls)))
    status, _, calls = made(place, folder, 0, KILL=call)
    changes = [word for word, *_ in calls if word not in LOOKS]
    wants((status, changes[-1]) == (-signal.SIGKILL, "rename"), f"before call {call} it ends with {status}, after {changes}")
    for call in calls:
        disk.take(*call)
    disk.open.clear()
    wants(any(STORE not in dict(left) for left in lefts(disk)), "the name is synced before it can be")
    status, _, calls = made(place, folder, 1)
    wants(status == 0, f"the opening ends with {status}")
    for call in calls:
        disk.take(*call)
    judged(place, {Cut(left, 1, True) for left in lefts(disk)})


# To be seen: a file that is opened though it has a second name, or though another process made it and has it; one that is taken though
# another file got its name before it was locked; a link that is followed.
def a_store_has_one_name_and_one_process(place):
    """A store is refused while another process has it, which made it, if it has a second name, and if another file has its name once it is
    locked; and one isn't made where a link leads elsewhere."""
    def refused(why, **how):
        said = place.run("answer", "--store", STORE, text=f"{SET_ENABLED}\n", **how)
        wants(said == (1, "", ["dlmsfw: StoreFault", f"--store {STORE}: {why}"]), f"though {why} it ends with {said}")

    with Meter(place.folder / STORE).killed():
        refused("another process has it open")
    other, alone = place.folder / "other", "it is a link, or no regular file, or has another name as well"
    os.link(place.folder / STORE, other)
    refused(alone)
    other.unlink()
    shutil.copy(place.folder / STORE, other)
    refused(alone, env=place.preloaded("swap"))
    wants((place.folder / "old").read_bytes() == (place.folder / STORE).read_bytes(), "a file is changed that has the name no more")
    (place.folder / STORE).unlink()
    (place.folder / f"{STORE}.new").symlink_to("nowhere")
    refused(f"{STORE}.new: {alone}")


# To be seen: a store that is refused, or stays under FILE.new, where a cut in its renaming left it both names.
def a_store_loses_its_second_name(place):
    """A store that a cut in its renaming left the name FILE.new as well is opened, and has one name then."""
    wants(place.run("answer", "--store", STORE)[0] == 0, "no store is made")
    store, new = place.folder / STORE, place.folder / f"{STORE}.new"
    os.link(store, new)
    before = store.read_bytes()
    said = place.run("answer", "--store", STORE)
    wants(said == (0, "", []), f"with both names it ends with {said}")
    wants(not new.exists() and store.stat().st_nlink == 1 and store.read_bytes() == before, "it keeps the name FILE.new, or has other bytes")


# To be seen: a path that is too long, and is told as one where no file is, or as another fault.
def a_path_that_is_too_long_is_told(place):
    """A path of more bytes than the operating system takes is refused with the cause that the system has for it, and nothing is made."""
    path, why = "a" * 5000, f"{os.strerror(errno.ENAMETOOLONG)} (os error {errno.ENAMETOOLONG})"
    listed(place.folder, [])
    head = ["head", "--head", "7", "--meters", "meters.csv", "--listen", f"{HOST}:0", "--book"]
    for words, fault in (["answer", "--store"], "StoreFault"), (head, "BookFault"):
        status, out, said = place.run(*words, path)
        wants((status, out, said) == (1, "", [f"dlmsfw: {fault}", f"{words[-1]} {path}: {why}"]),
              f"{words} ends with {status} and {[it[-80:] for it in said]}")
    wants([it.name for it in place.folder.iterdir()] == ["meters.csv"], "something is made")


STEPS = [
    stores_outlive_cuts,
    refused_calls_change_nothing,
    names_outlive_a_kill,
    a_store_has_one_name_and_one_process,
    a_store_loses_its_second_name,
    a_path_that_is_too_long_is_told,
]
