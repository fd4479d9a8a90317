"""What stands in captures of starts, and when the disk has it."""

import ipaddress
import resource
import signal
import struct
import subprocess
import time

from common import HOST, PATIENCE, Members, Meter, bound, comes_in, has_ipv6, listed, name_of, received, wait_for, wants
from cuts import recording
from ends import GET_STATUS, STATUS, HeadEnd
from ports import records_of

# The room of a new meter, whose store has some 33,000 bytes with it.
ROOM = ("--capacity", "16384")


def notes_of(capture):
    """The texts of the notes of a capture, behind a header of 20 bytes (RFC 791). Their protocol is 253."""
    return [packet[20:] for _, packet in records_of(capture.read_bytes()) if packet[0] >> 4 == 4 and packet[9] == 253]


def asking(address):
    """The note of an address that may ask (docs/FORMATS.md)."""
    host, port = address
    return b"dlmsfw may ask " + ipaddress.ip_address(host).packed + port.to_bytes(2, "big")


def started(count, *heads):
    """The notes of a start of meters."""
    return [b"dlmsfw start meter " + struct.pack(">IQ", count, len(heads)), *map(asking, heads)]


# To be seen: a start of another command, or of another number of meters; an address of --head that is left out, or is another one.
def starts_say_what_started(place):
    """The notes of a start: of a meter, if there is IPv6 of one at [::] of whom two may ask, where an IPv4 address is IPv4-mapped, of meters in
    one process, and of a head end."""
    plain, asked, fleet, head = (place.folder / f"{name}.pcap" for name in ("plain", "asked", "fleet", "head"))
    mapped, other, heard = ("::ffff:192.0.2.7", 4059), ("2001:db8::7", 65535), ("192.0.2.7", 4059)
    words = ["--head", "192.0.2.7:4059", "--head", "[2001:db8::7]:65535"]
    wanted = {plain: started(0), fleet: started(2, heard), head: [b"dlmsfw start head " + (7).to_bytes(4, "big")]}
    with Meter(place.folder / "plain.fw", "--capture", plain).killed() as meter:
        listed(place.folder, [meter.address])
        HeadEnd(place.folder, "--new", "--capture", head).over()
    if has_ipv6():
        wanted[asked] = started(0, mapped, other)
        with Meter(place.folder / "asked.fw", "--capture", asked, *words, listen="[::]:0").killed():
            pass
    with Members(place.folder, 2, "--capture", fleet, *words[:2]).meter.killed():
        pass
    for capture, want in wanted.items():
        got = notes_of(capture)
        wants(got == want, f"{capture.name} has {got}")


def limited():
    """No file may have more than 8,192 bytes."""
    signal.pthread_sigmask(signal.SIG_BLOCK, [signal.SIGXFSZ])
    resource.setrlimit(resource.RLIMIT_FSIZE, (8192, 8192))


# To be seen: a start in the capture of a meter whose store can't be made.
def a_start_comes_once_the_store_is_open(place):
    """A meter for whose store the disk has no room leaves a capture without a start, and the next one goes on with that."""
    capture = place.folder / "meter.pcap"
    words = ["meter", "--listen", f"{HOST}:0", "--store", place.folder / "meter.fw", "--capture", capture, *ROOM]
    made = subprocess.run([place.program, *map(str, words)], capture_output=True, text=True, timeout=PATIENCE, check=False,
                          preexec_fn=limited)
    wants((made.returncode, made.stdout) == (1, "") and made.stderr.startswith("dlmsfw: StoreFault\n"), f"it ends with {made}")
    wants(notes_of(capture) == [], f"its capture has {notes_of(capture)}")
    with Meter(place.folder / "meter.fw", "--capture", capture, *ROOM).killed():
        pass
    wants(notes_of(capture) == started(0), f"the next one's has {notes_of(capture)}")


def changes_of(calls, name):
    """The writes and the syncs of a file in the order of a record."""
    names, changes = {}, []
    for word, file, _, given in calls:
        if word in ("open", "make"):
            # A new capture was opened under the name that it has while it is made.
            names[file] = given.decode().removesuffix(".new").rsplit("/", 1)[-1]
        elif word in ("write", "sync") and names.get(file) == name:
            changes.append(word)
    return changes


# To be seen: a capture that is never synced, with each record, or not where nothing comes any more, or its process ends.
def captures_are_synced(place):
    """A meter has its capture on the disk: about once a second while it is asked, and once it isn't. So has a head end that is over."""
    asker = bound()
    words = ["meter", "--listen", f"{HOST}:0", "--store", "meter.fw", "--capture", "meter.pcap"]
    with recording(place, place.folder, *words) as (process, calls_of):
        at = HOST, int(process.stdout.readline().split(":")[1])
        begun, began = changes_of(calls_of(), "meter.pcap").count("sync"), time.monotonic()
        for _ in range(40):
            asker.sendto(bytes.fromhex(GET_STATUS), at)
            received(asker)
        wait_for(lambda: changes_of(calls_of(), "meter.pcap")[-1] == "sync", "the disk lacks the last record")
        changes, seconds = changes_of(calls_of(), "meter.pcap"), time.monotonic() - began
        syncs = changes.count("sync") - begun
        wants(changes.count("write") > 80 and 1 <= syncs <= seconds + 2, f"in {seconds} seconds it is synced {syncs} times")
    wants(not comes_in(asker, 0), "the meter answers once more")
    listed(place.folder, [asker.getsockname()])
    words = ["head", "--head", "7", "--book", "head.book", "--new", "--meters", "meters.csv", "--listen", f"{HOST}:0", "--capture", "head.pcap"]
    with recording(place, place.folder, *words) as (process, calls_of):
        wants(process.wait(PATIENCE) == 0, "the head end doesn't end well")
        changes = changes_of(calls_of(), "head.pcap")
    wants(changes[-2:] == ["write", "sync"], f"the last calls of a head end are {changes}")


# To be seen: a datagram without memory that has no note, or that of another meter; a note of one that is served; an audit that wants a reply to it.
def a_datagram_without_memory_is_noted(place):
    """A datagram for which memory is refused has its note, of one meter and of the second of two, and the audit asks for no reply to it."""
    asker, env = bound(), place.preloaded("forgetful")
    refused = GET_STATUS[:20] + "cf" + GET_STATUS[22:]
    for name, count in (("one", 1), ("two", 2)):
        folder = place.sub(name).folder
        capture, store = folder / "meter.pcap", folder / "fleet.fw"
        if count == 1:
            meter = Meter(store, "--capture", capture, env=env)
            meters, stores = [meter], [store]
        else:
            fleet = Members(folder, count, "--capture", capture, env=env)
            meter, meters, stores = fleet.meter, fleet.at, [folder / f"fleet.fw.{number}" for number in (1, 2)]
        with meter.killed():
            for line in (GET_STATUS, refused, GET_STATUS):
                asker.sendto(bytes.fromhex(line), meters[-1].address)
            got = [received(asker)[0], received(asker)[0]]
        wants(got == 2 * [STATUS % 0] and not comes_in(asker, 0), f"it answers {got}")
        want = [*started(count if count > 1 else 0), b"dlmsfw unserved " + meters[-1].address[1].to_bytes(2, "big")]
        wants(notes_of(capture) == want, f"the notes of {count} are {notes_of(capture)}")
        lines = (f"{number},{name_of(it.address)},{capture},{file}\n" for number, (it, file) in enumerate(zip(meters, stores), 1))
        (folder / "audited.csv").write_text("".join(lines))
        status, out, said = place.run("audit", "--audited", folder / "audited.csv")
        shown = f"meter {count} ok 5 datagrams 2 starts"
        wants((status, said) == (0, []) and shown in out.splitlines(), f"the audit ends with {status} and {said}, and prints {out}")


STEPS = [captures_are_synced, starts_say_what_started, a_start_comes_once_the_store_is_open, a_datagram_without_memory_is_noted]
