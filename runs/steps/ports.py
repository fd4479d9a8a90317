"""What sockets send, where to and from where, and whom they hear. The datagrams are spelled by hand from docs/FORMATS.md."""

import contextlib
import errno
import hashlib
import os
import pathlib
import re
import resource
import signal
import subprocess
import time

from common import (HOST, PATIENCE, SILENCE, Head, Members, Meter, bound, comes_in, free_address, listed, name_of, received, stays_silent,
                    wait_for, wants)
from cuts import recording
from ends import GET_NAME, GET_STATUS, SET_ENABLED, STATUS, Failed, HeadEnd, action, transfer

# The name of the image that a new meter of `meter` runs.
RUNS_ABC = "000100010001002fc401c1000929010000000000000000" + hashlib.sha256(b"abc").hexdigest()
# What a head end asks a new meter first, with the invoke-id 0, and then, with 1; and the answers to the first: 64 bytes a block, and none
# that fits.
ASKS_SIZE = "000100010001000dc001c0001200002c0000ff0200"
ASKS_ENABLE = "000100010001000fc101c1001200002c0000ff05000301"
HAS_64, HAS_0 = "0001000100010009c401c0000600000040", "0001000100010009c401c0000600000000"
# How long a head end waits that is to ask once alone.
PATIENT = ("--resend", "60000")


def opening(folder, serial=1, image=b"an image"):
    """The words that open a campaign of a new head end."""
    (folder / "image").write_bytes(image)
    return ["--new", "--open", str(serial), "--image", folder / "image"]


def listens_at(head):
    """Where a head end listens, by its first line."""
    found = re.fullmatch(r"listening 127\.0\.0\.1:(\d+)\n", head.process.stdout.readline())
    wants(found, "a head end doesn't tell where it listens")
    return HOST, int(found[1])


@contextlib.contextmanager
def full_disk(process):
    """A process that can write to no file, as on a full disk."""
    limit = resource.prlimit(process.pid, resource.RLIMIT_FSIZE)
    resource.prlimit(process.pid, resource.RLIMIT_FSIZE, (0, limit[1]))
    yield
    if process.poll() is None:
        resource.prlimit(process.pid, resource.RLIMIT_FSIZE, limit)


def at_a_free_port(start):
    """What is started with the address of a port that was free before. Nothing is where another process took it meanwhile."""
    for _ in range(5):
        at = free_address()
        if started := start(name_of(at)):
            return at, started
    raise Failed("no port stays free")


# To be seen: a socket that sends a datagram twice, cut, to another address than that of who asked, or from another port than the line
# says; one that is bound to another port than it was asked for; a meter that answers what asks for no answer.
def a_meter_replies_once(place):
    """A meter listens at the port that it is asked for, and answers each datagram once, from that port, to who sent it alone."""
    def start(listen):
        with contextlib.suppress(Failed):
            return Meter(place.folder / "meter.fw", listen=listen)

    at, meter = at_a_free_port(start)
    with meter.killed():
        wants(meter.address == at, f"it listens at {meter.address} in place of {at}")
        first, second, third = bound(), bound(), bound()
        for asker, line, want in ((first, GET_STATUS, STATUS % 0), (second, GET_NAME, RUNS_ABC)):
            asker.sendto(bytes.fromhex(line), at)
            got = received(asker)
            wants(got == (want, at), f"the reply to {line} is {got}")
        # A GET for which no answer is wanted.
        third.sendto(bytes.fromhex(GET_STATUS.replace("c001c1", "c00181")), at)
        stays_silent(first, second, third)


# To be seen: a head end that sends from another port than its line says, twice, or to another meter; one that hears an answer from an
# address that isn't in its list, or takes it for that of a meter which has not sent it.
def a_head_end_asks_once(place):
    """A head end asks each meter once, from the port that it is asked for, and hears the answer from the meter's own address alone."""
    meter, other, stranger = bound(), bound(), bound()
    listed(place.folder, [meter.getsockname(), other.getsockname()])

    def start(listen):
        head = HeadEnd(place.folder, *opening(place.folder), *PATIENT, listen=listen)
        first = head.process.stdout.readline()
        wants(first in ("", f"listening {listen}\n"), f"it is to listen at {listen}, and prints {first}")
        return head if first else None

    at, head = at_a_free_port(start)
    with head.running():
        for sock in (meter, other):
            got = received(sock)
            wants(got == (ASKS_SIZE, at), f"the first datagram is {got}, and not {ASKS_SIZE} from {at}")
        # These would make the row fail, and lead it on.
        stranger.sendto(bytes.fromhex(HAS_0), at)
        stranger.sendto(bytes.fromhex(HAS_64), at)
        stays_silent(meter, other, stranger)
        meter.sendto(bytes.fromhex(HAS_64), at)
        got = received(meter)
        wants(got == (ASKS_ENABLE, at), f"the next datagram is {got}, and not {ASKS_ENABLE} from {at}")
        stays_silent(meter, other, stranger)
        wants(head.process.poll() is None, "the head end ended")


def disagrees(request):
    """The answer of a meter that has its one block by attribute 3, and lacks it by attribute 4, to a request in hexadecimal."""
    apdu = request[16:]
    service, invoke = apdu[:4], apdu[4:6]
    if service == "c001":
        answer = f"c401{invoke}00" + {"02": "0600000040", "03": "040180", "04": "0600000000"}[apdu[22:24]]
    else:
        answer = {"c101": f"c501{invoke}00", "c301": f"c701{invoke}0000"}[service]
    return f"000100010001{len(answer) // 2:04x}{answer}"


# To be seen: a head end that asks a meter as fast as it answers, though no block is new.
def a_row_that_gets_nowhere_rests(place):
    """A meter whose attributes 3 and 4 disagree is asked eight times at first, twice after a second, twice after two more, and so on. Each time
    it is told what the row meets, in a line and by an event."""
    meter, asked, end = bound(), 0, time.monotonic() + 1.5
    listed(place.folder, [meter.getsockname()])
    with HeadEnd(place.folder, *opening(place.folder), *PATIENT, "--events", place.folder / "events").running() as head:
        while (left := end - time.monotonic()) > 0:
            meter.settimeout(left)
            with contextlib.suppress(TimeoutError):
                request, at = meter.recvfrom(2048)
                asked += 1
                meter.sendto(bytes.fromhex(disagrees(request.hex())), at)
        wants(head.process.poll() is None, "the head end ended")
        head.process.kill()
        said = head.process.communicate()[1].splitlines()
    wants(8 <= asked <= 10, f"it is asked {asked} times")
    met = "a block is missing by attribute 4, and none by attribute 3"
    wants(f"row 7 1 1 no progress: {met}" in said, f"the head end says {said}")
    events = (place.folder / "events").read_text()
    wants(f'{{"campaign":1,"event":"no_progress","head":7,"met":"{met}","meter":1,"time":' in events, f"the events are {events}")


def status_of_all(heads, stranger, meters):
    """Whether each meter answers each of these, and the stranger never. What the stranger sent comes before."""
    for meter in meters:
        for _ in range(3):
            stranger.socket.sendto(bytes.fromhex(GET_STATUS), meter.address)
        for head in heads:
            got = head.ask(meter, GET_STATUS)
            wants(got == STATUS % 0, f"{head.address()} gets {got}")
        wants(not comes_in(stranger.socket, 0), "a stranger gets a reply")


# To be seen: a meter that ignores --head, takes the first address alone, or compares the host alone; a fleet that does, or whose first
# meter alone has the addresses; a capture that has a stranger's datagram, or doesn't count it.
def strangers_are_dropped(place):
    """Just the addresses of --head are answered, by a meter and by each of a fleet; what comes from others is counted in the capture."""
    heads, stranger = [Head(), Head()], Head()
    words = [word for head in heads for word in ("--head", head.address())]
    for name, count in (("alone", 1), ("fleet", 2)):
        folder = place.sub(name).folder
        capture = folder / "meter.pcap"
        options = [*words, "--capture", capture]
        if count == 1:
            meter = Meter(folder / "meter.fw", *options)
            meters = [meter]
        else:
            fleet = Members(folder, count, *options)
            meter, meters = fleet.meter, fleet.at
        with meter.killed():
            status_of_all(heads, stranger, meters)
        content = capture.read_bytes()
        notes = re.findall(rb"dlmsfw strangers (.{8})", content, re.DOTALL)
        wants(notes == [(3).to_bytes(8, "big")] * count, f"the capture of {count} meters counts {notes}")
        wants(content.count(bytes.fromhex(GET_STATUS)) == 2 * count, f"the capture of {count} meters has another number of requests")


def asked_at_once(folder, count, least, *words):
    """How many of these meters, none of which answers, are asked while the first of them is waited for, once these are."""
    meters = [bound() for _ in range(count)]
    listed(folder, [meter.getsockname() for meter in meters])
    with HeadEnd(folder, *opening(folder), *PATIENT, *words).running() as head:
        listens_at(head)
        asked = set()
        until = time.monotonic() + 10
        while time.monotonic() < until:
            now = {meter for meter in meters if comes_in(meter, 0)}
            if now != asked:
                asked, until = now, time.monotonic() + (SILENCE if len(now) >= least else 10)
            time.sleep(0.01)
    for meter in meters:
        meter.close()
    return len(asked)


# To be seen: a head end that ignores --flight, or --resend.
def the_flight_is_kept(place):
    """No more datagrams are out than --flight, or those of one tick. By default that lets each of 60 meters be asked."""
    for flight, least, most in ((1, 1, 1), (40, 2, 40), (None, 60, 60)):
        words = ["--flight", str(flight)] if flight else []
        asked = asked_at_once(place.sub(str(flight)).folder, 60, least, *words)
        wants(least <= asked <= most, f"with a flight of {flight} it asks {asked} of 60 meters at once")


# To be seen: a socket that is closed at fewer faults, or at none; a head end that doesn't count its own.
def a_socket_may_fail(place):
    """A meter whose socket fails 999 times in a row goes on. After 1,000 times it ends. A head end tells how often its own failed."""
    with Meter(place.folder / "few.fw", env=place.preloaded("faulty", FAULTS=999)).killed() as meter:
        got = Head().ask(meter, GET_STATUS)
        wants(got == STATUS % 0, f"after 999 faults it answers {got}")
    said = place.run("meter", "--listen", f"{HOST}:0", "--store", "many.fw", env=place.preloaded("faulty", FAULTS=1000))
    wants((said[0], said[2]) == (1, ["dlmsfw: Socket", f"--listen {HOST}:0"]), f"after 1,000 faults it ends with {said}")
    with bound() as silent:
        listed(place.folder, [silent.getsockname()])
        words = [*opening(place.folder), *PATIENT, "--every", "1"]
        with HeadEnd(place.folder, *words, env=place.preloaded("faulty", FAULTS=3)).running() as head:
            line = head.process.stderr.readline()
    wants(line.endswith(", 3 faults\n"), f"after 3 faults a head end tells {line}")


# ---- the wires of `live`

SCRIPT = "head 7 width 15\nmeter 1 block 2 capacity 64 factory 78\nmeter 2 block 2 capacity 64 factory 78\nopen 7 1 {} 1 2\n"


def inet(text):
    """An address as /proc has it: the bytes of the host the other way round."""
    host, port = text.split(":")
    return ".".join(str(byte) for byte in reversed(bytes.fromhex(host))), int(port, 16)


def sockets_of(number):
    """The UDP sockets of a process: of each its own address and that which it is joined to."""
    with contextlib.suppress(OSError):
        files = [os.readlink(it) for it in pathlib.Path(f"/proc/{number}/fd").iterdir()]
        inodes = {found[1] for file in files if (found := re.fullmatch(r"socket:\[(\d+)\]", file))}
        rows = [line.split() for line in pathlib.Path("/proc/net/udp").read_text().splitlines()[1:]]
        return [(inet(row[1]), inet(row[2])) for row in rows if row[9] in inodes]
    return []


# To be seen: sockets that are bound to all addresses of the machine, or joined to none, so that others are heard.
def wires_stay_on_this_machine(place):
    """The sockets of `live` are bound to 127.0.0.1, and each is joined to its other end."""
    words = ["live", "--rounds", "100000", "--workers", "2"]
    process = subprocess.Popen([place.program, *words], stdin=subprocess.PIPE, stdout=subprocess.DEVNULL, stderr=subprocess.DEVNULL)
    try:
        process.stdin.write(SCRIPT.format("616263").encode())
        process.stdin.close()
        wait_for(lambda: sum(to[1] > 0 for _, to in sockets_of(process.pid)) == 4, "there aren't four sockets that are joined", seconds=5)
        found = sockets_of(process.pid)
    finally:
        process.kill()
        process.wait()
    wants(len(found) == 4 and all(own[0] == to[0] == HOST for own, to in found), f"the sockets are {found}")
    wants({(to, own) for own, to in found} == set(found), f"an end isn't joined to its other end: {found}")


# To be seen: sockets that are bound to all addresses of the machine before they are joined.
def wires_are_bound_to_this_machine(place):
    """Each socket of `live` is bound to 127.0.0.1 at once."""
    with recording(place, place.folder, "live", "--rounds", "1", "--workers", "1") as (process, calls_of):
        out, said = process.communicate(SCRIPT.format("616263"), timeout=10)
        wants((process.returncode, said) == (0, ""), f"it ends with {process.returncode} and {said}, and prints {out}")
        found = [given for word, *_, given in calls_of() if word == "bind"]
    # AF_INET is 2. A port is picked by the system.
    want = (2).to_bytes(2, "little") + bytes(2) + bytes([127, 0, 0, 1])
    wants([it[:8] for it in found] == 4 * [want], f"the sockets are bound to {[it.hex() for it in found]}")


# To be seen: a run without open files for its wires that doesn't say so.
def wires_want_open_files(place):
    """Where a process may have fewer open files than its links take, `live` says why, and how many it may have."""
    words = ["sh", "-c", 'ulimit -n 8 && exec "$@"', "", place.program, "live", "--rounds", "1", "--workers", "1"]
    made = subprocess.run(words, input=SCRIPT.format("616263"), capture_output=True, text=True, timeout=PATIENCE, check=False)
    why = "too many open files: each link takes two sockets; ulimit -n prints how many open files a process may have"
    wants((made.returncode, made.stdout, made.stderr.splitlines()) == (1, "", ["dlmsfw: Socket", why]), f"it ends with {made}")


# To be seen: workers that make four passes, or any fewer than a window needs; passes that end with a wire that brought something.
def slow_wires_are_waited_for(place):
    """If each wire brings one datagram a pass, a window of 15 blocks takes 17 passes of its round, and the campaign its nine rounds."""
    image = "61" * 30
    status, out, said = place.run("live", "--rounds", "9", "--workers", "1", text=SCRIPT.format(image), env=place.preloaded("slow"))
    rows = ["row 7 1 1 done", "row 7 1 2 done"]
    meters = [f"meter {number} status 6 active 7 1 size 30" for number in (1, 2)]
    want = [*rows, *meters, "activations 2", "board 2"]
    wants((status, out.splitlines(), said) == (0, want, []), f"it ends with {status} and {said}, and prints {out}")


# To be seen: a wire that sends a datagram twice.
def wires_send_once(place):
    """Wires repeat nothing: in `live` the meters reply at most as often as they are asked, and the campaign comes to its end."""
    status, out, said = place.run("live", "--rounds", "20", "--workers", "1", "--trace", text=SCRIPT.format("61" * 30))
    asked, replies = (sum(word in line for line in out.splitlines()) for word in (" -> meter ", " -> head "))
    wants((status, said) == (0, []) and "\nactivations 2\n" in out, f"it ends with {status} and {said}, and prints {out[-200:]}")
    wants(replies <= asked, f"there are {asked} requests, and {replies} replies")


# ---- captures


def packets_before(calls, path):
    """What is sent and what is written to files in the order of a record: of the capture and of a datagram the bytes, of any other file
    nothing."""
    names, acts = {}, []
    for word, file, _, given in calls:
        if word in ("open", "make"):
            names[file] = given.decode()
        elif word == "send":
            acts.append(("send", given))
        elif word == "write":
            # A new capture was opened under the name that it has while it is made.
            acts.append(("record", given) if names.get(file) in (path, f"{path}.new") else ("change", b""))
    return acts


def has_sent(calls):
    """Whether a datagram was sent."""
    return any(word == "send" for word, *_ in calls)


def is_record_of(record, data):
    """Whether bytes are one whole record of a capture, of a packet that ends with these bytes."""
    size = int.from_bytes(record[8:12], "little")
    return len(record) == 16 + size and record[12:16] == record[8:12] and record.endswith(data)


# To be seen: a capture that records after the send, or after the store was changed; one that writes a record in parts.
def records_come_first(place):
    """A meter records what comes before it is handled, and its reply before it is sent, each by one write; a head end what it sends."""
    asker, silent = bound(), bound()
    enable = bytes.fromhex(ASKS_ENABLE)
    words = ["meter", "--listen", f"{HOST}:0", "--store", "meter.fw", "--capture", "meter.pcap"]
    with recording(place, place.folder, *words) as (process, calls_of):
        port = int(process.stdout.readline().split(":")[1])
        begun = len(calls_of())
        asker.sendto(enable, (HOST, port))
        reply = bytes.fromhex(received(asker)[0])
        wait_for(lambda: has_sent(calls_of()), "what is sent has no line")
        names = [call for call in calls_of()[:begun] if call[0] in ("open", "make")]
        acts = packets_before([*names, *calls_of()[begun:]], "meter.pcap")
    kinds = [kind for kind, _ in acts]
    wants(kinds[0] == "record" and kinds[-2:] == ["record", "send"] and set(kinds[1:-2]) == {"change"}, f"the calls of a SET are {kinds}")
    wants(is_record_of(acts[0][1], enable), f"the record of a SET is {acts[0]}")
    wants(is_record_of(acts[-2][1], reply) and acts[-1][1] == reply, f"the record of its reply is {acts[-2:]}")
    listed(place.folder, [silent.getsockname()])
    words = ["head", "--head", "7", "--book", "head.book", "--meters", "meters.csv", "--listen", f"{HOST}:0", "--capture", "head.pcap"]
    with recording(place, place.folder, *words, *PATIENT, *opening(place.folder)) as (process, calls_of):
        asked = bytes.fromhex(received(silent)[0])
        wait_for(lambda: has_sent(calls_of()), "what is sent has no line")
        acts = packets_before(calls_of(), "head.pcap")
    wants(acts[-1] == ("send", asked) and acts[-2][0] == "record" and is_record_of(acts[-2][1], asked), f"the last calls are {acts[-2:]}")


def records_of(content):
    """The records of a capture: of each its time, in nanoseconds, and its packet. They are whole."""
    at = 24
    while at < len(content):
        seconds, part, size, again = (int.from_bytes(content[it : it + 4], "little") for it in range(at, at + 16, 4))
        wants(size == again and at + 16 + size <= len(content), f"at {at} the capture has {content[at:].hex()}")
        yield seconds * 1_000_000_000 + part, content[at + 16 : at + 16 + size]
        at += 16 + size


# To be seen: a capture that is gone on with at its front, or behind an end that is no whole record; times that aren't in nanoseconds.
def a_capture_is_gone_on_with(place):
    """A capture is gone on with behind its last whole record, and each record has the time at which it was made."""
    capture, asker = place.folder / "meter.pcap", bound()
    start = b"dlmsfw start meter " + bytes(12)
    content, ends, times = b"", (start, bytes.fromhex(GET_STATUS), bytes.fromhex(STATUS % 0)), [time.time_ns()]
    for starts in (1, 2):
        with Meter(place.folder / "meter.fw", "--capture", capture).killed() as meter:
            asker.sendto(bytes.fromhex(GET_STATUS), meter.address)
            received(asker)
        before, content = content, capture.read_bytes()
        wants(content.startswith(before), f"in place of {before.hex()} the capture has {content.hex()}")
        found = list(records_of(content))
        wants(len(found) == 3 * starts and all(packet.endswith(end) for (_, packet), end in zip(found, ends * starts)),
              f"the capture has {found}")
        times = [times[0], *(moment for moment, _ in found), time.time_ns()]
        wants(times == sorted(times), f"its times, and the one before and after them, are {times}")
        # What a cut may leave of a record: its sizes, four bytes of its packet, and zeros.
        capture.write_bytes(content + content[24:44] + bytes(7))


# To be seen: a capture that lacks strangers though they are asked for, or counts those that it has.
def strangers_are_captured(place):
    """With --capture-strangers a capture has what strangers send, and doesn't count them."""
    head, capture = Head(), place.folder / "meter.pcap"
    with Meter(place.folder / "meter.fw", "--head", head.address(), "--capture", capture, "--capture-strangers").killed() as meter:
        status_of_all([head], Head(), [meter])
    packets = [packet for _, packet in records_of(capture.read_bytes())]
    requests = [packet for packet in packets if packet.endswith(bytes.fromhex(GET_STATUS))]
    # A start, who may ask, what came, of which three are the stranger's, and a reply.
    wants((len(packets), len(requests)) == (7, 4), f"the capture has {packets}")


# To be seen: a capture whose end is told without its file, or for another cause.
def a_capture_that_fails_is_told(place):
    """A run, and a daemon, whose capture can't be written end with CaptureFault, and the second line has the file, and of a daemon why."""
    full, capture = "/dev/full", place.folder / "meter.pcap"
    said = place.run("replay", "--capture", full, text=SCRIPT.format("61") + "tick 7 1\n")
    wants(said == (1, "", ["dlmsfw: CaptureFault", f"--capture {full}"]), f"a run ends with {said}")
    signal.pthread_sigmask(signal.SIG_BLOCK, [signal.SIGXFSZ])
    meter = Meter(place.folder / "meter.fw", "--capture", capture)
    with full_disk(meter.process):
        bound().sendto(bytes.fromhex(GET_STATUS), meter.address)
        status, said = meter.process.wait(PATIENCE), meter.process.stderr.read().splitlines()
    want = f"--capture {capture}: {os.strerror(errno.EFBIG)} (os error {errno.EFBIG})"
    wants((status, said) == (1, ["dlmsfw: CaptureFault", want]), f"a meter ends with {status} and {said}")


# ---- verifications


def answered(head, meter, line, code):
    """Fails if the answer to an ACTION or a SET has another code."""
    got = head.ask_until(meter, line)
    wants(got[22:24] == f"{code:02x}", f"the answer to {line[:60]} is {got}")


def brought(head, meter, image, noise=None):
    """Brings an image of more than a slice to a meter, which then verifies it in turns, and has it activated."""
    for line in transfer(image):
        answered(head, meter, line, 0)
    # 2, temporary-failure: the result isn't known yet.
    answered(head, meter, action(3, "0f00"), 2)
    end, status = time.monotonic() + 5, STATUS % 2
    while status == STATUS % 2:
        wants(time.monotonic() < end, "it verifies for seconds")
        for _ in range(25):
            if noise:
                noise.sendto(b"noise", meter.address)
            time.sleep(0.002)
        status = head.ask_until(meter, GET_STATUS)
    wants(status == STATUS % 3, f"the status is {status}")
    answered(head, meter, action(4, "0f00"), 0)


# To be seen: a port that waits in place of a turn; a fleet whose meters take no turns, or of which one does alone; an image that isn't told
# of once it is verified or switched to.
def verifies_in_turns(place):
    """An image of 40 slices is verified if nothing comes, and by the second meter of a fleet among what strangers send."""
    image = bytes(range(256)) * 640
    digest = hashlib.sha256(image).hexdigest()
    told, head = [f"{word} 7 1 0 {digest}\n" for word in ("verified", "activated")], Head()
    with Meter(place.folder / "meter.fw", "--head", head.address()).killed() as meter:
        brought(head, meter, image)
        wait_for(lambda: meter.lines == told, f"the meter doesn't print {told}")
    fleet = Members(place.folder, 2, "--head", head.address())
    with fleet.meter.killed():
        brought(head, fleet.at[1], image, noise=bound())
        names = [head.ask_until(meter, GET_NAME) for meter in fleet.at]
    wants(names[0] == RUNS_ABC and names[1].endswith(digest), f"the meters of the fleet run {names}")
    wants(fleet.meter.lines[1:] == [f"meter 2 {line}" for line in told], f"the fleet prints {fleet.meter.lines}")


# ---- what a meter tells

SET_DISABLED = SET_ENABLED[:-2] + "00"
VERIFY, ACTIVATE = action(3, "0f00"), action(4, "0f00")


def offer(identifier, size):
    """The datagram that initiates a transfer under this identifier."""
    return action(1, f"020209{len(identifier) // 2:02x}{identifier}06{size:08x}")


def spelled(image, serial, release):
    """The name of an image of a release in a campaign of head end 7."""
    return f"02{7:08x}{serial:08x}{release:08x}{hashlib.sha256(image).hexdigest()}"


def block(image, number):
    """The datagram with the last block of an image, of less than 128 bytes."""
    part = image[1024 * number:1024 * number + 1024]
    return action(2, f"020206{number:08x}09{len(part):02x}{part.hex()}")


IMAGE, OTHER = b"an image", b"other im"
DIGESTS = [hashlib.sha256(image).hexdigest() for image in (IMAGE, OTHER)]
OFFER = offer(spelled(IMAGE, 1, 5), 8)
# What a meter is asked, the code of its answer, and what it tells of that.
TELLS = [
    (SET_DISABLED, 0, []),
    (OFFER, 3, ["refused 7 1 5 8: transfer is disabled"]),
    (VERIFY, 3, []),
    (SET_ENABLED, 0, []),
    (offer("6162", 8), 250, ["refused - - - 8: no name"]),
    (offer("01" + "00" * 8 + DIGESTS[0], 8), 250, ["refused 0 0 0 8: the name of a factory image"]),
    (offer(spelled(IMAGE, 1, 5), 0xffffffff), 250, ["refused 7 1 5 4294967295: not within the limits of the meter"]),
    (block(IMAGE, 0), 2, []),
    (OFFER, 0, []),
    (VERIFY, 2, []),
    (block(IMAGE + bytes(1024), 1), 250, []),
    (block(IMAGE, 0), 0, []),
    (VERIFY, 0, [f"verified 7 1 5 {DIGESTS[0]}"]),
    (VERIFY, 2, []),
    (ACTIVATE, 0, [f"activated 7 1 5 {DIGESTS[0]}"]),
    (offer(spelled(IMAGE, 1, 4), 8), 250, ["refused 7 1 4 8: release 4 is below the running 5"]),
    (offer(spelled(OTHER, 2, 5), 8), 0, []),
    (block(IMAGE, 0), 0, []),
    (VERIFY, 250, [f"differs 7 2 5 {DIGESTS[1]}"]),
]
# The same of one that can write to no file, once and then with room; the image is there already.
FAILS = [
    (SET_ENABLED, "enable", []),
    (OFFER, "initiate", []),
    (block(IMAGE, 0), "block 0", []),
    (VERIFY, "verify", [f"verified 7 1 5 {DIGESTS[0]}"]),
    (ACTIVATE, "activate", [f"activated 7 1 5 {DIGESTS[0]}"]),
]


# To be seen: a meter that tells nothing of what it refuses, of what its store can't do or of what it verified; one that tells of another answer,
# of what has no answer, or another cause.
def a_meter_tells_what_it_does(place):
    """A meter tells why it refuses an initiate, what becomes of an image, and at what its store fails; of anything else nothing."""
    signal.pthread_sigmask(signal.SIG_BLOCK, [signal.SIGXFSZ])
    head, want = Head(), []
    with Meter(place.folder / "meter.fw", "--head", head.address()).killed() as meter:
        for line, code, told in TELLS:
            answered(head, meter, line, code)
            want += told
        # An initiate that is refused, and for which no answer is wanted.
        head.socket.sendto(bytes.fromhex(offer(spelled(IMAGE, 1, 4), 8).replace("c301c1", "c30181")), meter.address)
        for line, work, told in FAILS:
            with full_disk(meter.process):
                answered(head, meter, line, 1)
            answered(head, meter, line, 0)
            want += [f"store failed at {work}", *told]
        wait_for(lambda: len(meter.lines) >= len(want), f"the meter prints {meter.lines}")
    wants(meter.lines == [f"{line}\n" for line in want], f"the meter prints {meter.lines}")


# To be seen: a turn in which the store fails that tells nothing, or that tells of an image that isn't verified.
def a_verification_that_fails_is_told(place):
    """If a store fails in a turn, the meter tells it, and gives the verification up; asked again it verifies the image, and tells that."""
    signal.pthread_sigmask(signal.SIG_BLOCK, [signal.SIGXFSZ])
    image, head = bytes(range(256)) * 48, Head()
    told = f"verified 7 1 0 {hashlib.sha256(image).hexdigest()}\n"
    with Meter(place.folder / "meter.fw", "--head", head.address()).killed() as meter:
        for line in transfer(image):
            answered(head, meter, line, 0)
        with full_disk(meter.process):
            answered(head, meter, VERIFY, 2)
            wait_for(lambda: meter.lines == ["store failed at verify\n"], f"the meter prints {meter.lines}")
        got = head.ask_until(meter, GET_STATUS)
        wants(got == STATUS % 1, f"then its status is {got}")
        answered(head, meter, VERIFY, 2)
        wait_for(lambda: meter.lines[1:] == [told], f"the meter prints {meter.lines}")


# To be seen: a meter that tells of each initiate that it refuses, however many come; one of several that tells another number, or none.
def lines_have_a_limit(place):
    """Of 100 initiates that are refused 60 are told, by a meter that is alone, and by several together. What is verified is told all the same."""
    head = Head()
    refused = "refused - - - 8: no name\n"
    with Meter(place.folder / "meter.fw", "--head", head.address()).killed() as meter:
        for line, code in (SET_ENABLED, 0), *(100 * [(offer("6162", 8), 250)]), (OFFER, 0), (block(IMAGE, 0), 0), (VERIFY, 0):
            answered(head, meter, line, code)
        want = [*(60 * [refused]), f"verified 7 1 5 {DIGESTS[0]}\n"]
        wait_for(lambda: len(meter.lines) >= len(want), f"the meter prints {meter.lines}")
    wants(meter.lines == want, f"the meter prints {meter.lines}")
    fleet = Members(place.folder, 2, "--head", head.address())
    with fleet.meter.killed():
        for meter in fleet.at:
            answered(head, meter, SET_ENABLED, 0)
        for _ in range(50):
            for meter in fleet.at:
                answered(head, meter, offer("6162", 8), 250)
        want = 30 * [f"meter 1 {refused}", f"meter 2 {refused}"]
        wait_for(lambda: len(fleet.meter.lines) > len(want), f"the fleet prints {fleet.meter.lines}")
    wants(fleet.meter.lines[1:] == want, f"the fleet prints {fleet.meter.lines}")


# ---- fleets


# To be seen: a fleet that waits after each pass, or after one in which the last meter alone heard nothing; one whose first meter has all turns
# as long as datagrams come to it.
def a_flooded_fleet_hears(place):
    """While a stranger's datagrams come to the first meter of a fleet without end, the others answer, and nothing is waited for."""
    head = Head()
    fleet = Members(place.folder, 3, "--head", head.address(), env=place.preloaded("flood"))
    with fleet.meter.killed() as meter:
        for asked in 2 * fleet.at[1:]:
            got = head.ask(asked, GET_STATUS)
            wants(got == STATUS % 0, f"beside a flooded meter it answers {got}, and ends with {meter.process.poll()}")


def rests_of(process):
    """How often a process has waited by itself."""
    return int(re.search(r"^voluntary_ctxt_switches:\s*(\d+)$", pathlib.Path(f"/proc/{process.pid}/status").read_text(), re.M)[1])


def waits_often(process):
    """Whether it waits more than a hundred times a second, in a silence."""
    before, began = rests_of(process), time.monotonic()
    time.sleep(SILENCE)
    return rests_of(process) - before > 100 * (time.monotonic() - began)


# To be seen: a fleet that never waits.
def a_quiet_fleet_rests(place):
    """A fleet to which nothing comes waits again and again, also after something came, and doesn't take the processor for itself."""
    head, fleet = Head(), Members(place.folder, 2)
    with fleet.meter.killed() as meter:
        for _ in range(2):
            # (other programs may have the processors in one silence, and hardly in ten)
            wants(any(waits_often(meter.process) for _ in range(10)), "in silence it doesn't wait a hundred times a second")
            got = head.ask(fleet.at[1], GET_STATUS)
            wants(got == STATUS % 0, f"then it answers {got}")


STEPS = [
    a_meter_replies_once,
    a_head_end_asks_once,
    a_row_that_gets_nowhere_rests,
    strangers_are_dropped,
    the_flight_is_kept,
    a_socket_may_fail,
    wires_stay_on_this_machine,
    wires_are_bound_to_this_machine,
    wires_want_open_files,
    slow_wires_are_waited_for,
    wires_send_once,
    records_come_first,
    a_capture_is_gone_on_with,
    strangers_are_captured,
    a_capture_that_fails_is_told,
    verifies_in_turns,
    a_meter_tells_what_it_does,
    a_verification_that_fails_is_told,
    lines_have_a_limit,
    a_flooded_fleet_hears,
    a_quiet_fleet_rests,
]
