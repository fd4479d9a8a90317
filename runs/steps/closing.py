"""Campaigns that are cancelled in a book, and rows that are given up in it, by commands that end."""

import resource
import signal

from common import HOST, PATIENCE, bound, listed, name_of, received, wants
from ends import Fleet, HeadEnd, fields_of, opening, rows_of
from ports import PATIENT
from services import begins, lines_until

GIVEN_UP = "size given-up"


def closes(place, command, *words, head="7", **how):
    """The status, the lines and those of standard error of a command over the book of a folder."""
    status, out, said = place.run(command, "--head", head, "--book", place.folder / "head.book", *words, **how)
    return status, out.splitlines(), said


def ends(place, wanted, command, *words, **how):
    """Fails if a command doesn't end so."""
    got = closes(place, command, *words, **how)
    wants(got == wanted, f"{command} {words} ends with {got} in place of {wanted}")


def refused(place, fault, about, *words, head="7"):
    """Fails if a command isn't refused for this fault with a second line about this, or changes the book."""
    path = place.folder / "head.book"
    before = path.read_bytes() if path.exists() else None
    status, lines, said = closes(place, *words, head=head)
    wants((status, lines) == (1, []) and said[:1] == [f"dlmsfw: {fault}"], f"in place of {fault} it ends with {status}, {lines} and {said}")
    wants(len(said) == 2 and begins(said[1], about), f"of {fault} the second line is {said[1:]}")
    wants((path.read_bytes() if path.exists() else None) == before, f"at {fault} the book is changed")


def opened(place, count):
    """Opens campaigns for so many meters, at addresses at which nobody but the first listens."""
    first = bound()
    listed(place.folder, [first.getsockname(), *((HOST, number) for number in range(2, count + 1))])
    with HeadEnd(place.folder, "--new", *opening(place.folder, b"image"), *PATIENT).running() as head:
        lines_until(head, f"opened 7 {(count + 255) // 256} ")
        received(first)
    return first


# To be seen: a cancelling of the first campaign alone, or of another; one in memory alone; one of a range that cancels what ended, or is refused
# since a number in it has no campaign; a line that lacks, or stands twice; a refusal that takes back what was cancelled before it.
def campaigns_are_cancelled_in_a_book(place):
    """Both campaigns of 300 meters are cancelled at once, without a network. What is refused leaves those before it cancelled."""
    opened(place, 300)
    rows = [f"7,{1 if number <= 256 else 2},{number}" for number in range(1, 301)]
    ends(place, (0, ["cancelled 7 1", "cancelled 7 2"], []), "cancel", "--campaign", "1-4294967295")
    wants(rows_of(place.folder) == [f"{row},cancelled" for row in rows], "status has other rows once both are cancelled")
    ends(place, (0, [], []), "cancel", "--campaign", "7-9", "--campaign", "1-2")
    # The third is opened for one meter.
    (place.folder / "meters.csv").write_text("1,127.0.0.1:9\n")
    with HeadEnd(place.folder, *opening(place.folder, b"next", 3), *PATIENT).running() as head:
        lines_until(head, "opened 7 3 ")
    ends(place, (1, ["cancelled 7 3"], ["dlmsfw: NotLive", "--campaign 2"]), "cancel", "--campaign", "3", "--campaign", "2,4")
    wants(rows_of(place.folder) == [f"{row},cancelled" for row in (*rows, "7,3,1")], "status has other rows once a campaign was refused")


# To be seen: a row of another meter that is given up, or of another campaign; one that is told and not kept, or without its reason; a meter that
# stays busy; one without a live row that isn't told, or that ends the command; a range that names what ended.
def rows_are_given_up(place):
    """The live rows of the meters that are named fail, with that reason, and the meters are free for another campaign. A meter without a live row is
    told."""
    silent, other = bound(), bound()
    with Fleet(place.folder, 2).killed() as fleet:
        fleet.list({1: fleet.addresses[1], 3: name_of(silent.getsockname()), 4: name_of(other.getsockname()), 2: fleet.addresses[2]})
        with HeadEnd(place.folder, "--new", *opening(place.folder, bytes(range(256)))).running() as head:
            done = {lines[-1] for lines in (lines_until(head, "row "), lines_until(head, "row "))}
        wants(done == {"row 7 1 1 done", "row 7 1 2 done"}, f"it leads {done}")
    ends(place, (0, [f"row 7 1 3 failed: {GIVEN_UP}"], []), "give-up", "--meter", "3")
    rows = ["7,1,1,done", "7,1,3,failed", "7,1,4,live", "7,1,2,done"]
    wants(rows_of(place.folder) == rows, f"status has {rows_of(place.folder)} once a row is given up")
    lacking = [f"meter {number} has no live row" for number in (3, 1, 4294967295)]
    ends(place, (5, [f"row 7 1 4 failed: {GIVEN_UP}"], lacking), "give-up", "--meter", "3,1,4", "--meter", "4294967295")
    ends(place, (0, [], []), "give-up", "--meter", "0-4294967295")
    reasons = [row[6] for row in fields_of(place.folder)]
    wants(reasons == ["", GIVEN_UP, GIVEN_UP, ""], f"status has the reasons {reasons}")
    # Each start writes the book anew.
    (place.folder / "meters.csv").write_text(f"3,{name_of(silent.getsockname())}\n")
    with HeadEnd(place.folder, *opening(place.folder, b"next", 2), *PATIENT).running() as head:
        lines_until(head, "opened 7 2 ")
    rows = ["7,1,1,done", "7,1,3,failed", "7,1,4,failed", "7,1,2,done", "7,2,3,live"]
    wants(rows_of(place.folder) == rows, f"status has {rows_of(place.folder)} once there is another campaign")
    ends(place, (0, [f"row 7 2 3 failed: {GIVEN_UP}"], []), "give-up", "--meter", "2-3")


# To be seen: a command that takes the book of a head end that runs, or of another head end; one that makes a book; a fault without its name, or its
# cause; a campaign, or the head end whose book it is, that isn't named.
def what_cant_be_closed_is_refused(place):
    """Each fault of the commands over a book has its name, and the option that it is about, and leaves the book as it is."""
    book = place.folder / "head.book"
    for words in (["cancel", "--campaign", "1"], ["give-up", "--meter", "1"]):
        refused(place, "NoBook", f"--book {book}", *words)
        wants(not book.exists(), f"{words[0]} makes a book")
    first = bound()
    listed(place.folder, [first.getsockname()])
    with HeadEnd(place.folder, "--new", *opening(place.folder, b"image"), *PATIENT).running() as head:
        lines_until(head, "opened ")
        received(first)
        for words in (["cancel", "--campaign", "1"], ["give-up", "--meter", "1"]):
            refused(place, "Locked", f"--book {book}", *words)
    # From now on an opening writes the same bytes.
    ends(place, (0, [], []), "give-up", "--meter", "2-3")
    for words in (["cancel", "--campaign", "1"], ["give-up", "--meter", "1"]):
        refused(place, "ForeignHead", f"--book {book}: it is the book of head end 7", *words, head="8")
    refused(place, "NoSuchCampaign", "--campaign 2", "cancel", "--campaign", "2")
    wants(rows_of(place.folder) == ["7,1,1,live"], "status has other rows")


# To be seen: a line that is told before the disk has what it says; a row that is kept in part.
def nothing_is_told_on_a_full_disk(place):
    """Where the disk takes no record more, neither a campaign that is cancelled nor a row that is given up is told, and both stay live."""
    opened(place, 3)
    ends(place, (0, [], []), "give-up", "--meter", "7-9")
    size = (place.folder / "head.book").stat().st_size

    def limited():
        # Such a write would else end the process.
        signal.signal(signal.SIGXFSZ, signal.SIG_IGN)
        resource.setrlimit(resource.RLIMIT_FSIZE, (size + 8, size + 8))

    for words in (["cancel", "--campaign", "1"], ["give-up", "--meter", "1-3"]):
        status, lines, said = closes(place, *words, preexec_fn=limited)
        wants((status, lines, said[:1]) == (1, [], ["dlmsfw: BookFault"]), f"on the full disk {words} ends with {status}, {lines} and {said}")
        wants(rows_of(place.folder) == [f"7,1,{number},live" for number in (1, 2, 3)], f"on the full disk {words} changes the book")
    ends(place, (0, [f"row 7 1 {number} failed: {GIVEN_UP}" for number in (1, 2, 3)], []), "give-up", "--meter", "1-3")


# To be seen: a value that is taken though it names nothing, or another campaign or meter.
def what_names_none_is_refused(place):
    """A value that is no list of numbers and ranges is a wrong command line, and so is a campaign of number 0."""
    for command, option, more in (("cancel", "campaign", ("0", "0-7", "1,0")), ("give-up", "meter", ())):
        for text in ("", "7,", ",7", "7,,9", "7-", "-7", "9-7", "7-9-11", "7 9", "seven", "4294967296", "7-4294967296", "7..9", *more):
            status, lines, said = closes(place, command, f"--{option}={text}")
            wants((status, lines) == (2, []) and said[0].startswith("error: "), f"{command} --{option}={text} ends with {status}, {lines} and {said}")
        status, lines, said = closes(place, command)
        wants((status, lines) == (2, []), f"{command} without --{option} ends with {status}, {lines} and {said}")


STEPS = [
    campaigns_are_cancelled_in_a_book,
    rows_are_given_up,
    what_cant_be_closed_is_refused,
    nothing_is_told_on_a_full_disk,
    what_names_none_is_refused,
]
