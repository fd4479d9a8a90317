"""Head ends and meters as services: started again, cancelled, refused, on a full disk, and several in one process."""

import hashlib
import pathlib
import re
import resource
import signal

from common import HOST, PATIENCE, Failed, Head, Members, bound, comes_in, listed, name_of, received, stays_silent, wants
from ends import ANSWERS_FAULT, GET_STATUS, SET_ENABLED, STATUS, Fleet, HeadEnd, opening, rows_of
from ports import PATIENT, full_disk

# What a SET gets that was done, and a GET of image_transfer_enabled that gets false.
SET_DONE = "0001000100010004c501c100"
GET_ENABLED, IS_DISABLED = "000100010001000dc001c1001200002c0000ff0500", "0001000100010006c401c1000300"


def lines_until(head, word):
    """The lines of a head end up to the first that begins with this word."""
    lines = []
    for line in head.process.stdout:
        lines.append(line.rstrip("\n"))
        if line.startswith(word):
            return lines
    raise Failed(f"it prints {lines}")


def drained(sock):
    """Takes what came to a socket."""
    while comes_in(sock, 0):
        sock.recv(65535)


# To be seen: an opening that the book has and that is opened again, or refused as used, or not led on; a line that is told again.
def a_second_start_goes_on(place):
    """A head end is started again with the same --open, amid its campaign and after it. It goes on, opens nothing, and then has nothing
    to do."""
    image, silent = bytes(range(256)) * 16, bound()
    with Fleet(place.folder, 2).killed() as fleet:
        fleet.list({1: fleet.addresses[1], 2: name_of(silent.getsockname())})
        words = opening(place.folder, image)
        with HeadEnd(place.folder, "--new", *words).running() as head:
            lines = lines_until(head, "row ")
        wants(lines[1:] == [f"opened 7 1 2 {hashlib.sha256(image).hexdigest()}", "row 7 1 1 done"], f"at first it prints {lines}")
        fleet.list(fleet.addresses)
        lines = HeadEnd(place.folder, *words).over()
        wants(lines[1:] == ["row 7 1 2 done", "over done 1 failed 0"], f"at its second start it prints {lines}")
        lines = HeadEnd(place.folder, *words).over()
        wants(lines[1:] == ["over done 0 failed 0"], f"at its third start it prints {lines}")
        fleet.run(image)


def unlisted(serial, meter):
    """What a head end says of a live row whose meter has no line in its list."""
    return f"campaign 7 {serial}: meter {meter} isn't in the list, and isn't led"


# To be seen: a list in another order that is refused, or opened for again; a new meter that is refused, that gets no campaign or one under a
# serial number that is used, or for which all are opened for again; a row without a line that is refused, led, waited for, or not told; a
# status of 0 where there is one, or another where there is none; a row that ended which is told.
def a_list_changes(place):
    """With the same --open a list in another order opens nothing, and one with a new meter a campaign for that one alone. A live row whose meter
    isn't in the list is told and isn't asked, and the others are led to their ends."""
    image, silent = bytes(range(256)) * 4, bound()
    digest = hashlib.sha256(image).hexdigest()
    with Fleet(place.folder, 3).killed() as fleet:
        first, second, third = (fleet.addresses[number] for number in (1, 2, 3))
        words, nobody = opening(place.folder, image, 5), name_of(silent.getsockname())
        fleet.list({2: nobody, 1: first})
        with HeadEnd(place.folder, "--new", *words, *PATIENT).running() as head:
            lines = lines_until(head, "row ")
        wants(lines[1:] == [f"opened 7 5 2 {digest}", "row 7 5 1 done"], f"at first it prints {lines}")
        drained(silent)
        # In another order, with a new meter, and without meter 2.
        fleet.list({3: third, 1: first})
        for opened, done in (True, 1), (False, 0):
            status, lines, said = HeadEnd(place.folder, *words).end(patience=PATIENCE)
            wanted = [f"opened 7 6 2 {digest}", "row 7 6 3 done"] if opened else []
            wants((status, lines[1:], said) == (5, [*wanted, f"over done {done} failed 0"], [unlisted(5, 2)]), f"it ends with {status}, {lines} and {said}")
        stays_silent(silent, seconds=0)
        # All three, the last first. Meter 2 is there now, at another address.
        fleet.list({3: third, 2: second, 1: first})
        lines = HeadEnd(place.folder, *words).over()
        wants(lines[1:] == ["row 7 5 2 done", "over done 1 failed 0"], f"at last it prints {lines}")
        wants(rows_of(place.folder) == ["7,5,2,done", "7,5,1,done", "7,6,3,done"], "status has other rows")
        # Rows that ended need no line.
        fleet.list({3: third})
        lines = HeadEnd(place.folder).over()
        wants(lines[1:] == ["over done 0 failed 0"], f"with one line it prints {lines}")
        fleet.run(image)


# To be seen: a meter that is opened for again though it has such a row, since that was cancelled; one that isn't, since it has a row of an earlier
# campaign, of another release or of another image.
def a_row_counts_from_its_serial_on(place):
    """With --open SERIAL a meter gets no campaign if it has a row of that image and release from SERIAL on, even a cancelled one. An earlier row is
    none of these, and neither is one of another release or image."""
    silent, again = bound(), opening(place.folder, b"image", 5)
    listed(place.folder, [silent.getsockname()])
    with HeadEnd(place.folder, "--new", *again, *PATIENT).running() as head:
        lines_until(head, "opened 7 5 ")
    HeadEnd(place.folder, "--cancel", "5").over(patience=PATIENCE)
    lines = HeadEnd(place.folder, *again).over(patience=PATIENCE)
    wants(lines[1:] == ["over done 0 failed 0"], f"for a meter with a cancelled row it prints {lines}")
    for serial, release, image, opened in ((6, 2, b"image", 6), (5, 3, b"image", 7), (5, 3, b"other", 8)):
        words = opening(place.folder, image, serial)
        words[words.index("--release") + 1] = str(release)
        with HeadEnd(place.folder, *words, *PATIENT).running() as head:
            lines = lines_until(head, "opened ")
        digest = hashlib.sha256(image).hexdigest()
        wants(lines[1:] == [f"opened 7 {opened} {release} {digest}"], f"from {serial} on, for release {release}, it prints {lines}")
        HeadEnd(place.folder, "--cancel", str(opened)).over(patience=PATIENCE)
    wants(rows_of(place.folder) == [f"7,{serial},1,cancelled" for serial in (5, 6, 7, 8)], f"status has {rows_of(place.folder)}")


# To be seen: a cancel that cancels nothing, or in memory alone; one that cancels another campaign, or all; one that is told and not done; a
# cancelled row that is led on.
def a_campaign_is_cancelled(place):
    """The live rows of a cancelled campaign are cancelled, that of another isn't, and nothing is asked of its meters any more."""
    # Campaigns have 256 meters at most. Of these the ones between the first and the last are addresses at which nobody listens.
    first, last = bound(), bound()
    listed(place.folder, [first.getsockname(), *((HOST, number) for number in range(2, 257)), last.getsockname()])
    with HeadEnd(place.folder, "--new", *opening(place.folder, b"image"), *PATIENT).running() as head:
        lines_until(head, "opened 7 2 ")
        received(first)
    drained(last)
    with HeadEnd(place.folder, "--cancel", "1", *PATIENT).running() as head:
        lines_until(head, "cancelled 7 1")
        received(last)
        stays_silent(first, seconds=0)
    rows = [f"7,1,{number},cancelled" for number in range(1, 257)]
    wants(rows_of(place.folder) == [*rows, "7,2,257,live"], "status has other rows once a campaign is cancelled")
    lines = HeadEnd(place.folder, "--cancel", "2").over(patience=PATIENCE)
    wants(lines[1:] == ["cancelled 7 2", "over done 0 failed 0"], f"it prints {lines}")
    wants(rows_of(place.folder) == [*rows, "7,2,257,cancelled"], "status has other rows once both are cancelled")
    # A start writes the book anew, with a campaign's cancelling before its notes. From then on it stays as it is.
    HeadEnd(place.folder).over(patience=PATIENCE)
    refused(place, "NotLive", "--cancel 1", "--cancel", "1")


# To be seen: a range without its first or its last campaign, or with one beside it; one that is refused since a number of it has no campaign, or
# one without a live row; one that cancels what ended; a campaign that is cancelled twice, and refused then; another order; a row that is led on.
def campaigns_are_cancelled_by_ranges(place):
    """Of ranges those campaigns are cancelled that have live rows, each once, in the order given; and what is cancelled lets go of its meters
    before campaigns are opened."""
    sockets = [bound() for _ in range(5)]
    lines = [f"{number},{name_of(sock.getsockname())}\n" for number, sock in enumerate(sockets, 1)]
    meters = place.folder / "meters.csv"
    for number, serial in enumerate((2, 3, 5, 9, 10), 1):
        meters.write_text(lines[number - 1])
        words = opening(place.folder, f"image {number}".encode(), serial)
        with HeadEnd(place.folder, *(["--new"] if number == 1 else []), *words, *PATIENT).running() as head:
            lines_until(head, f"opened 7 {serial} ")
    meters.write_text("".join(lines))
    for sock in sockets:
        drained(sock)
    with HeadEnd(place.folder, "--cancel", "10,3-8,1-3", *PATIENT).running() as head:
        said = lines_until(head, "cancelled 7 2")
        received(sockets[3])
        stays_silent(*sockets[:3], sockets[4], seconds=0)
    wants(said[1:] == ["cancelled 7 10", "cancelled 7 3", "cancelled 7 5", "cancelled 7 2"], f"it prints {said}")
    states = ["7,2,1,cancelled", "7,3,2,cancelled", "7,5,3,cancelled", "7,9,4,live", "7,10,5,cancelled"]
    wants(rows_of(place.folder) == states, f"status has other rows than {states}")
    # Ranges without live rows cancel nothing; what is opened next is for meters that are let go of.
    again = opening(place.folder, b"the next image", 9)
    with HeadEnd(place.folder, "--cancel", "1-3,9-9,4-8", *again, *PATIENT).running() as head:
        said = lines_until(head, "opened ")
    digest = hashlib.sha256(b"the next image").hexdigest()
    wants(said[1:] == ["cancelled 7 9", f"opened 7 11 2 {digest}"], f"it prints {said}")
    status, said, _ = HeadEnd(place.folder, "--cancel", "1-4294967295").end(patience=PATIENCE)
    wants((status, said[1:]) == (0, ["cancelled 7 11", "over done 0 failed 0"]), f"it ends with {status}, and prints {said}")


# To be seen: a value of --cancel that is taken though it names no campaigns, or another one; a wrong one that makes a book.
def what_names_no_campaigns_is_refused(place):
    """A value of --cancel that is no list of serial numbers and ranges is a wrong command line."""
    listed(place.folder, [(HOST, 9)])
    for text in ("", "0", "7,", ",7", "7,,9", "7-", "-7", "9-7", "0-7", "7-9-11", "7 9", "seven", "4294967296", "7-4294967296", "7..9"):
        status, out, said = place.run("head", "--head", 7, "--book", "head.book", "--new", "--meters", "meters.csv", "--listen", f"{HOST}:0", f"--cancel={text}")
        wants((status, out) == (2, "") and said[0].startswith("error: "), f"--cancel={text} ends with {status}, {out} and {said}")
    wants(not (place.folder / "head.book").exists(), "a wrong command line makes a book")


def begins(text, wanted):
    """Whether a line is this one, or goes on behind it with a cause."""
    return text == wanted or text.startswith(f"{wanted}: ")


def refused(place, fault, about, *words, head="7", **how):
    """Fails if a head end isn't refused for this fault with a second line about this, or changes its book."""
    path = place.folder / "head.book"
    before = path.read_bytes() if path.exists() else None
    status, lines, said = HeadEnd(place.folder, *words, head=head, **how).end(patience=PATIENCE)
    wants(status == 1 and not lines and said[:1] == [f"dlmsfw: {fault}"], f"in place of {fault} it ends with {status}, {lines} and {said}")
    wants(len(said) == 2 and begins(said[1], about), f"of {fault} the second line is {said[1:]}")
    wants((path.read_bytes() if path.exists() else None) == before, f"at {fault} the book is changed")


# To be seen: a head end that leads another one's book, or one that another process has; that opens for a meter that is busy; that takes
# damaged bytes for a book; a fault with another name, or a status of 0; another line of a list; one that cancels before all is judged; a book
# of another head end without that one's number.
def a_head_end_is_refused(place):
    """Each fault of a head end whose book is there has its name, and the option that it is about, and leaves the book as it is."""
    folder, silent = place.folder, bound()
    book, meters, image = (folder / name for name in ("head.book", "meters.csv", "image"))
    listed(folder, [silent.getsockname()])
    refused(place, "NoBook", f"--book {book}")
    with HeadEnd(folder, "--new", *opening(folder, b"one"), *PATIENT).running() as head:
        lines_until(head, "opened ")
        received(silent)
        refused(place, "Locked", f"--book {book}")
        refused(place, "BookExists", f"--book {book}", "--new")
    refused(place, "ForeignHead", f"--book {book}: it is the book of head end 7", head="8")
    # Another image, another release, and a later serial number.
    busy = "meter 1 is live in campaign 1"
    refused(place, "MeterBusy", f"--open 1: {busy}", *opening(folder, b"two"))
    refused(place, "MeterBusy", f"--open 1: {busy}", "--open", "1", "--release", "3", "--image", image)
    refused(place, "MeterBusy", f"--open 2: {busy}", *opening(folder, b"two", 2))
    refused(place, "NoSuchCampaign", "--cancel 3", "--cancel", "3")
    # Campaign 1 is there, and would be cancelled.
    refused(place, "NoSuchCampaign", "--cancel 1,3", "--cancel", "1,3")
    refused(place, "NoSuchCampaign", "--cancel 3,1-2", "--cancel", "3,1-2")
    meters.write_text("1,127.0.0.1:9\nnone\n")
    refused(place, "BadList 2", f"--meters {meters}: the line has one field, and lacks the address of the meter")
    meters.write_text("".join(f"{number},127.0.0.1:{number}\n" for number in range(1, 258)))
    refused(place, "BadSetup", "--open 4294967295", *opening(folder, b"two", 4294967295))
    content = book.read_bytes()
    # The first record begins at 9, after the mark, a gate and its length.
    book.write_bytes(content[:9] + bytes([content[9] ^ 4]) + content[10:])
    refused(place, "BadBook 4", f"--book {book}")
    # A mark without its campaign.
    mark = bytes.fromhex("0200000007000000010000000101")
    book.write_bytes(b"FWJ1\x01" + len(mark).to_bytes(4, "big") + mark + hashlib.sha256(mark).digest() + b"\x00")
    refused(place, "BadRecord 0", f"--book {book}")


# To be seen: a line that is refused without its cause, or for another one; a number or an address that is said to stand in another line; a wave
# that is taken for a name without an address; a file that is made.
def a_bad_line_has_its_cause(place):
    """Behind the list stands what is wrong with the line of it that is refused."""
    meters = place.folder / "meters.csv"
    number, above = "the first field is no number from 0 to 4294967295", "the number of the meter is above 4294967295"
    address = "the second field is no address with a port, as 10.0.0.7:4059, [fd00::7]:4059 or meter.example:4059"
    family = "the address is of another family than that of --listen: both are IPv4, or both IPv6"
    host = "the address can't be asked, since it is unspecified, multicast or broadcast"
    wave = "the third field is no wave, a number from 0 to 255"
    for line, text, why, *listen in (
        (2, b"1,127.0.0.1:9\n2\n", "the line has one field, and lacks the address of the meter"),
        (1, b"1,127.0.0.1:9,1,\n", "the line has more than three fields"),
        (1, b"1,127.0.0.1:9,\xff\n", "a field of the line isn't UTF-8"),
        (1, b"meter,127.0.0.1:9\n", number),
        (1, b"-1,127.0.0.1:9\n", number),
        (1, b",127.0.0.1:9\n", number),
        (1, b"4294967296,127.0.0.1:9\n", above),
        (1, b"18446744073709551616,127.0.0.1:9\n", number),
        (3, b"1,127.0.0.1:9\n2,127.0.0.1:10\n2,127.0.0.1:11\n", "line 2 has the same meter"),
        (4, b"1,127.0.0.1:9\r\n\r\n2,127.0.0.1:10\r\n3,127.0.0.1:10\r\n", "line 3 has the same address"),
        (2, b"1,127.0.0.1:9\n2,localhost:9\n", "line 1 has the same address"),
        (1, b"1,127.0.0.1\n", address),
        (1, b"1,127.0.0.1:65536\n", address),
        (1, b"1,\n", address),
        (1, b"1,localhost:0\n", "the system has no address for the name in the second field that --listen can ask"),
        (1, b"1,127.0.0.1:0\n", "the port is 0, which can't be asked"),
        (1, b"1,[::1]:9\n", family),
        (1, b"1,127.0.0.1:9\n", family, "[::1]:0"),
        (1, b"1,0.0.0.0:9\n", host),
        (1, b"1,224.0.0.1:9\n", host),
        (1, b"1,255.255.255.255:9\n", host),
        (1, b"1,127.0.0.1:9,256\n", wave),
        (1, b"1,localhost:9,first\n", wave),
    ):
        meters.write_bytes(text)
        refused(place, f"BadList {line}", f"--meters {meters}: {why}", "--new", **({"listen": listen[0]} if listen else {}))
    wants({it.name for it in place.folder.iterdir()} == {"meters.csv"}, "a file is made")


# To be seen: a store that takes what isn't written for written; a meter that ends, or doesn't answer; one that goes on with what a failed
# write left.
def a_meter_on_a_full_disk(place):
    """A meter that can't write answers hardware-fault and goes on, and its row fails. With room it takes the next campaign."""
    # Such a write would else end the process.
    signal.pthread_sigmask(signal.SIG_BLOCK, [signal.SIGXFSZ])
    image = bytes(range(250)) * 10
    with Fleet(place.folder, 1).killed() as fleet:
        process, head = fleet.meters[1].process, Head()
        with full_disk(process):
            wants(head.ask(fleet.meters[1], SET_ENABLED) == ANSWERS_FAULT, "a SET that can't be written is done")
            wants(head.ask(fleet.meters[1], GET_STATUS) == STATUS % 0, "the meter doesn't go on")
            lines = HeadEnd(place.folder, "--new", *opening(place.folder, image)).over()
            wants(lines[2:] == ["row 7 1 1 failed: enable code 1 hardware-fault", "over done 0 failed 1"], f"on the full disk it prints {lines}")
        fleet.restart(1)
        process = fleet.meters[1].process
        # The SET left nothing: transfer isn't enabled.
        wants(head.ask(fleet.meters[1], GET_ENABLED) == IS_DISABLED, "transfer is enabled")
        lines = HeadEnd(place.folder, *opening(place.folder, image, 2)).over()
        wants(lines[2:] == ["row 7 2 1 done", "over done 1 failed 0"], f"with room it prints {lines}")
        fleet.run(image)
        with full_disk(process):
            wants(head.ask(fleet.meters[1], SET_ENABLED) == ANSWERS_FAULT, "later a SET that can't be written is done")
        wants(head.ask(fleet.meters[1], SET_ENABLED) == SET_DONE, "with room again a SET isn't done")


def written(process):
    """How many bytes a process has written so far (proc(5), wchar)."""
    return int(re.search(r"wchar: (\d+)", pathlib.Path(f"/proc/{process.pid}/io").read_text())[1])


# To be seen: a store whose opening could write nothing, and that takes its bytes for synced all the same.
def a_store_is_written_again(place):
    """A meter whose disk is full as it starts listens, and its next header write, and no other, begins with writing all of FILE again."""
    signal.pthread_sigmask(signal.SIG_BLOCK, [signal.SIGXFSZ])
    with Fleet(place.folder, 1).killed() as fleet:
        head, size = Head(), (place.folder / "1.fw").stat().st_size
        limit = resource.getrlimit(resource.RLIMIT_FSIZE)
        resource.setrlimit(resource.RLIMIT_FSIZE, (0, limit[1]))
        fleet.restart(1)
        resource.setrlimit(resource.RLIMIT_FSIZE, limit)
        process = fleet.meters[1].process
        resource.prlimit(process.pid, resource.RLIMIT_FSIZE, limit)
        for all_of_it in (True, False):
            before = written(process)
            wants(head.ask(fleet.meters[1], SET_ENABLED) == SET_DONE, "with room a SET isn't done")
            wants((written(process) - before >= size) == all_of_it, f"a SET writes {written(process) - before} of {size} bytes")


# To be seen: a head end that tells a row which the disk doesn't have, or goes on; a book that takes what isn't written for written.
def a_head_end_on_a_full_disk(place):
    """A head end whose disk gets full ends with BookFault, and told nothing that the disk hasn't. With room it goes on."""
    signal.pthread_sigmask(signal.SIG_BLOCK, [signal.SIGXFSZ])
    book = place.folder / "head.book"
    with Fleet(place.folder, 1).killed() as fleet:
        # The meter is heard once the disk is full.
        fleet.meters[1].process.send_signal(signal.SIGSTOP)
        with HeadEnd(place.folder, "--new", *opening(place.folder, b"image")).running() as head:
            lines_until(head, "opened ")
            with full_disk(head.process):
                fleet.meters[1].process.send_signal(signal.SIGCONT)
                status, lines, said = head.end()
        wants((status, lines, said[:1]) == (1, [], ["dlmsfw: BookFault"]), f"it ends with {status}, {lines} and {said}")
        wants(begins(said[1], f"--book {book}"), f"it says {said}")
        wants(rows_of(place.folder) == ["7,1,1,live"], "the row isn't live")
        lines = HeadEnd(place.folder).over()
        wants(lines[1:] == ["row 7 1 1 done", "over done 1 failed 0"], f"with room it prints {lines}")


# To be seen: a making that takes a full disk for done, or leaves a part of a store or of a book.
def makings_on_a_full_disk(place):
    """A store and a book that can't be made are refused by name, and nothing is left of them."""
    def limited(size):
        def limit():
            resource.setrlimit(resource.RLIMIT_FSIZE, (size, size))
        return {"preexec_fn": limit, "restore_signals": False}

    listed(place.folder, [(HOST, 9)])
    before = sorted(it.name for it in place.folder.iterdir())
    meter = ["meter", "--listen", f"{HOST}:0", "--store", "meter.fw"]
    head = ["head", "--head", "7", "--book", "head.book", "--new", "--meters", "meters.csv", "--listen", f"{HOST}:0"]
    for words, fault, about, size in ((meter, "StoreFault", "--store meter.fw", 4096), (head, "BookFault", "--book head.book", 3)):
        status, out, said = place.run(*words, **limited(size))
        wants((status, out, said[:1]) == (1, "", [f"dlmsfw: {fault}"]), f"{words} ends with {status}, {out} and {said}")
        wants(begins(said[1], about), f"{words} says {said}")
        left = {it.name: it.stat().st_size for it in place.folder.iterdir() if it.name not in before}
        # What a making of a book left is taken by the next one.
        wants(not left or set(left) == {"head.book.new"} and left["head.book.new"] <= 5, f"{words} leaves {left}")


# To be seen: a fleet whose meter 2 has the file, or the port, of meter 1, or whose meters have one file.
def each_of_a_fleet_has_its_own(place):
    """Meter K of a fleet has FILE.K. Byte 8 of a store, byte 4 of its header, says whether transfer is enabled."""
    fleet, head = Members(place.folder, 3), Head()
    with fleet.meter.killed():
        for number in (2, 3, 1):
            wants(fleet.file(number)[8] == 0, f"meter {number} is enabled before it is asked to")
            got = head.ask(fleet.at[number - 1], SET_ENABLED)
            wants(got == SET_DONE, f"meter {number} answers {got}")
            wants(fleet.file(number)[8] == 1, f"the file of meter {number} has another meter")


STEPS = [
    a_second_start_goes_on,
    a_list_changes,
    a_row_counts_from_its_serial_on,
    a_campaign_is_cancelled,
    campaigns_are_cancelled_by_ranges,
    what_names_no_campaigns_is_refused,
    a_head_end_is_refused,
    a_bad_line_has_its_cause,
    a_meter_on_a_full_disk,
    a_store_is_written_again,
    a_head_end_on_a_full_disk,
    makings_on_a_full_disk,
    each_of_a_fleet_has_its_own,
]
