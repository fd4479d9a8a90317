"""Head ends over books in files, with the power cut at each call of two runs.

Which books may be there at a moment follows from what was asked for, from how the meters answer that are played here, and from the lines
that were told. What a file holds is read here, as docs/BOOK.md and docs/FORMATS.md spell it. hostile/book does both.
"""

import itertools
import random
import signal

from common import bound, comes_in, listed, PATIENCE, script, wait_for, wants
from cuts import last_sync, lefts, number_of_call, power, recording
from disk import Disk

book = script("book")
# How many lengths, places and values of one change are tried, and how long a run may take.
book.CHOICES, book.LONGEST = 8, 20
BOOK, HEAD = book.BOOK, str(book.HEAD)

# A new book, and a campaign for a meter that takes the image, eleven that refuse it, and one that never answers. Then it is cancelled, and
# another one is opened for the first meter, once the book is written anew. Rows that ended are more than half of it by then.
FIRST = book.Run((1, *range(61, 72), 101), new=True, open=(1, 5, b"the first image"))
NEXT = book.Run((1,), cancel=1, open=(2, 0, b"another image"))


def place_of(place):
    """The folder, the program and the meters of hostile/book."""
    library = place.library("record")
    book.PROGRAM, book.recorder = place.program, lambda _: library
    return book.Place(place.folder)


def wrong(state, may_be):
    """Why a state may not be left, if so."""
    files = dict(state)
    try:
        held = book.read(files[BOOK]) if BOOK in files else None
    except book.NoBook as why:
        return str(why)
    if held is not None and not book.is_noted(files[BOOK]):
        return f"it lacks notes of {held}"
    return None if may_be(held) else f"it has {held}"


def judged(run, cuts):
    """Fails if a cut of a run leaves what it must not."""
    faults = [fault for fault in (wrong(*cut) for cut in cuts) if fault]
    wants(not faults, f"of {len(cuts)} cuts of {run.words()} {len(faults)} leave what they must not; of one {faults[:1]}")


# To be seen: a new book that isn't synced before its rename; a folder that isn't synced after that, or after the rename of a book that is
# written anew; a book written anew that isn't synced before its rename; a record that isn't synced before its gate, or a gate before its
# line is told; a file that is cut off before what is cut off is kept and synced, or before its folder is.
def books_outlive_cuts(place):
    """A book that is cut at a call is that of a moment since the last line, also if it is made or written anew. What an opening cuts off
    is kept."""
    played, chance = place_of(place), random.Random(70)
    disk, known, anew = Disk(), None, 0
    for run in (FIRST, NEXT):
        calls, ending = played.record(book.files_of(disk), run, known or ())
        disk.open.clear()
        cuts, told = book.cut(disk, run, known, calls, chance)
        wants(not ending and told == run.ends(known or ()), f"{run.words()} ends with {ending}, and tells of {told}")
        judged(run, cuts)
        anew += sum(word == "rename" for word, *_ in calls)
        known = told
    wants(anew == 2, f"a book was made or written anew {anew} times")
    kept = list(book.kept_first(played, book.files_of(disk)[BOOK], chance))
    wants(all(kept), f"of {len(kept)} cuts {kept.count(False)} lack what an opening cut off")


# To be seen: bytes that are kept in the place of older ones, in part, with other rights than the book's, or of which nothing is said; a book
# that gets other rights when it is written anew.
def what_is_cut_off_is_told(place):
    """What an opening cuts off is kept in a new file with the rights of the book, and standard error says how many records it has and where
    they are."""
    content = b"FWJ1" + book.block(b"\1" + book.numbers(7, 1, 5) + b"\1" + book.numbers(5) + b"image" + book.numbers(1))
    failed, done = (book.block(b"\2" + book.numbers(7, 1, 1) + bytes([end])) for end in (2, 1))
    path, kept = place.folder / BOOK, {}
    listed(place.folder, [])
    for count, name in (2, book.DROPPED), (1, f"{book.DROPPED}.2"):
        # The row failed, and the gate before what follows is shut.
        kept[name] = b"\0" + done[1:] + (count - 1) * done + b"\0"
        path.write_bytes(content + failed + kept[name])
        path.chmod(0o600)
        status, out, said = place.run(*words_of())
        wants((status, out.splitlines()[1:], said) == (0, ["over done 0 failed 0"], book.untaken(count, name)),
              f"it ends with {status} and {said}, and prints {out}")
        files = {it.name: it for it in place.folder.iterdir() if it.name.startswith(BOOK)}
        found = {name: it.read_bytes() for name, it in files.items() if name != BOOK}
        wants(found == kept, f"beside the book it leaves {found}")
        rights = {name: oct(it.stat().st_mode)[-3:] for name, it in files.items()}
        wants({*rights.values()} == {"600"}, f"the rights are {rights}")


def words_of(*more):
    """The words of a head end with a book in its folder."""
    return ["head", "--head", HEAD, "--book", BOOK, "--meters", "meters.csv", "--listen", "127.0.0.1:0", *more]


# To be seen: an opening that neither syncs what it reads nor writes it anew, or leads the file of the process before it.
def a_book_is_written_anew_before_it_is_led(place):
    """A head end that is killed before the last sync of an opening is started again: nothing is sent until a cut leaves what it reads, in a
    new file."""
    meter = bound()
    new = words_of("--new", "--open", "1", "--release", "5", "--image", "image")
    opened = (book.Campaign(1, 5, b"image", ((1, book.LIVE),)),)
    for name in ("whole", "killed"):
        (place.sub(name).folder / "image").write_bytes(b"image")
        listed(place.folder / name, [meter.getsockname()])
    with recording(place, place.folder / "whole", *new) as (process, calls_of):
        for _ in range(2):
            process.stdout.readline()
        calls = calls_of()
    told = [at for at, (word, *_, given) in enumerate(calls) if word == "print" and given.startswith(b"opened ")]
    wants(told, f"it is not told that it is opened, in {calls}")
    call = number_of_call(calls, last_sync(calls, told[0]))
    disk = power.Sectors()
    with recording(place, place.folder / "killed", *new, KILL=call) as (process, calls_of):
        wait_for(lambda: process.poll() is not None, "it isn't killed")
        wants(process.returncode == -signal.SIGKILL, f"before call {call} it ends with {process.returncode}")
        for one in calls_of():
            disk.take(*one)
    wants({held(left) for left in lefts(disk)} == {(), opened}, "the opening is synced before it can be")
    disk.open.clear()
    while comes_in(meter, 0):
        meter.recv(65535)
    with recording(place, place.folder / "killed", *words_of()) as (process, calls_of):
        wants(comes_in(meter, PATIENCE), "nothing is sent")
        before = list(itertools.takewhile(lambda one: one[0] != "send", calls_of()))
    for one in before:
        disk.take(*one)
    wants(sum(one[0] == "rename" for one in before) == 1, "the file is led that another process wrote")
    wants({held(left) for left in lefts(disk)} == {opened}, "what is sent is of a campaign that a cut may take away")


def held(state):
    """The book in a state."""
    return book.read(dict(state)[BOOK])


STEPS = [books_outlive_cuts, what_is_cut_off_is_told, a_book_is_written_anew_before_it_is_led]
