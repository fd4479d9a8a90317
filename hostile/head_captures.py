"""Captures of head ends, as `hostile/audits` tries them: fields that agree, and captures that are changed, each with what an audit must say of it."""

import collections
import hashlib
import random
import re
import shutil
import struct
import time

from asks import octets
from changes import ROOM
from ends import Head, HeadEnd, Relay, opening, wants
from found import Journal, Taped, addresses_in, digest, offset, readdressed, recorded, records_of, with_byte
from judge import end_of, waiting
from packets import FRONT, RECORD, note


def free_address():
    """An address at which a head end can listen, and be started again."""
    head = Head()
    at = head.address()
    head.socket.close()
    return at


class Led:
    """A head end in a folder of its own, with a capture, at an address that it keeps."""

    def __init__(self, folder, number, meters):
        folder.mkdir()
        shutil.copy(meters, folder / "meters.csv")
        self.folder, self.number, self.at = folder, number, free_address()
        self.capture, self.book = folder / "head.pcap", folder / "head.book"
        self.start("--new").over()

    def start(self, *words):
        """Starts it."""
        return HeadEnd(self.folder, *words, "--resend", "50", "--capture", self.capture, head=str(self.number), listen=self.at)

    def opens(self, image, serial=1):
        """The words that open a campaign of an image."""
        return opening(self.folder, image, serial)

    def add_to(self, subjects):
        """Adds it to what is audited."""
        return subjects.led_by(self.at, self.capture, self.book)


def head_ends_fit(folder):
    """Two head ends and four meters agree, whose campaigns are led one after another and at once, where meters and head ends are killed and
    started again, so that datagrams are lost, and where another one reads."""
    chance = random.Random(78)
    with Taped(folder, words=ROOM).killed() as fleet:
        heads = [Led(folder / f"head{number}", number, folder / "meters.csv") for number in (7, 8)]
        led = heads[0].start(*heads[0].opens(chance.randbytes(1 << 15)))
        while led.process.poll() is None:
            time.sleep(chance.uniform(0, 0.05))
            fleet.restart(chance.randrange(1, fleet.count + 1))
        led.over()
        for led in [head.start(*head.opens(chance.randbytes(20000), 2)) for head in heads]:
            # Each takes the other's blocks away, and may say so.
            status, lines, said = led.end(120)
            wants(status in (0, 4) and all(" no progress: " in line for line in said), f"it ends with {status}, {lines} and {said}")
        image = chance.randbytes(1 << 15)
        words = heads[1].opens(image, 3)
        for _ in range(8):
            led = heads[1].start(*words)
            time.sleep(chance.uniform(0.01, 0.2))
            led.kill()
        heads[1].start(*words).over()
        fleet.run(image)
        fleet.stop()
    subjects = fleet.subjects()
    for head in heads:
        head.add_to(subjects)
    *_, first, second, order = subjects.fits("two head ends and their meters")
    starts = [sum(b"dlmsfw start" in record for record in records_of(head.capture)) for head in heads]
    for head, line, count in zip(heads, (first, second), starts):
        found = re.fullmatch(rf"head {head.number} ok (\d+) datagrams (\d+) starts", line)
        wants(found and int(found[1]) > 100 and int(found[2]) == count, f"of head end {head.number} with {count} starts it says {line}")
    wants(order == f"order ok 6 ends {fleet.count} others", f"it says {order}")
    # Without one of them nobody is asked what came from there.
    subjects = heads[0].add_to(fleet.subjects("--book", heads[1].book))
    *_, order = subjects.fits("one of two head ends")
    found = re.fullmatch(r"order ok 5 ends (\d+) others", order)
    wants(found and int(found[1]) > 100, f"of one of two head ends it says {order}")


class HeadTape:
    """A head end that led two meters, and the captures of all by their records."""

    def __init__(self, folder):
        self.folder, self.image = folder, random.Random(79).randbytes(9000)
        with Taped(folder, 2, words=ROOM).killed() as self.fleet:
            self.head = Led(folder / "head", 7, folder / "meters.csv")
            self.head.start(*self.head.opens(self.image)).over()
            self.fleet.stop()
        self.port = int(self.head.at.rsplit(":", 1)[1])
        self.front, self.records = self.head.capture.read_bytes()[:FRONT], records_of(self.head.capture)
        self.captures = {number: folder / f"{number}.pcap" for number in self.fleet.meters}
        self.meters = {number: records_of(capture) for number, capture in self.captures.items()}
        self.name = folder / "changed.pcap"
        # What was sent once, and came: the number of the record, and where it came.
        count = collections.Counter(record[8:] for record in self.records)
        self.once = [(number, *self.came(record)) for number, record in enumerate(self.records)
                     if self.is_sent(record) and count[record[8:]] == 1 and self.came(record)]
        wants(len(self.once) > 20, f"the tape has {self.once}")

    def is_sent(self, record):
        """Whether a record is that of a datagram from the head end."""
        ends = addresses_in(record)
        return ends is not None and ends[0][1] == self.port

    def came(self, record):
        """The meter to which a datagram came, and the number of its record there."""
        for meter, records in self.meters.items():
            for number, one in enumerate(records):
                if one[8:] == record[8:]:
                    return meter, number
        return None

    def place(self, meter, number):
        """The record of a meter, as a departure has it."""
        return f"{self.captures[meter]} {number} {offset(self.meters[meter], number)} meter {meter}"

    def having(self, records, *wanted):
        """Fails if an audit with these records of the head end doesn't depart so, or fit where nothing is wanted. Where a number is wanted behind
        a rule it is that of one of these records."""
        self.name.write_bytes(self.front + b"".join(records))
        subjects = self.fleet.subjects().led_by(self.head.at, self.name, self.head.book)
        told = [f"{it[0]} {self.name} {it[1]} {offset(records, it[1])} head 7" if isinstance(it, tuple) else it for it in wanted]
        subjects.departs(*told) if told else subjects.fits("a run")


def changed_head_captures_depart(folder):
    """A capture of a head end that is changed departs where it does: in the log of the head end, or where no order gets on."""
    tape = HeadTape(folder)
    records, book = tape.records, tape.head.book
    tape.having(records)
    for number, meter, came in tape.once[::4]:
        before, one, behind = records[:number], records[number], records[number + 1:]
        never = f"NeverSent {tape.place(meter, came)}"
        other = struct.unpack_from(">H", one, RECORD + 22)[0]
        ports = [int(at.rsplit(":", 1)[1]) for at in tape.fleet.addresses.values()]
        tape.having([*before, *behind], never)
        tape.having([*before, one, one, *behind])
        tape.having([*before, *behind[:1], one, *behind[1:]], *later(tape, [*before, *behind[:1], one, *behind[1:]], meter, came))
        tape.having([*before, *behind, one], *later(tape, [*before, *behind, one], meter, came))
        tape.having([*before, readdressed(one, {other: sum(ports) - other}), *behind], never)
        tape.having([*before, readdressed(one, {other: 9}), *behind], ("NotOffered", number), never)
        tape.having([*before, with_byte(one, RECORD + 36, 0x20), *behind], ("NotOffered", number), never)
    replies = [number for number, record in enumerate(records) if addresses_in(record) and not tape.is_sent(record) and not is_claim(record)]
    for number in replies[::9]:
        before, one, behind = records[:number], records[number], records[number + 1:]
        tape.having([*before, one, one, *behind])
        tape.having([*before, with_byte(one, RECORD + 36, 0x20), *behind], ("NeverSent", number))
        tape.having([*before, *behind])
    port = int(tape.fleet.addresses[1].rsplit(":", 1)[1])
    of_first = [record for record in records if not (is_claim(record) and addresses_in(record)[0][1] == port)]
    tape.having(of_first, f"NotClaimed {book} 7 1 1")
    tape.having([record for record in records if not is_claim(record)], f"NotClaimed {book} 7 1 1")


def random_orders_are_judged(folder):
    """Of records of a head end that are left out, doubled, moved and turned at random another judge says where ends wait for each other. The program
    tells one of these places, and one that was never sent if there is one."""
    tape, chance, told_rules = HeadTape(folder), random.Random(81), collections.Counter()
    meters = [(end_of(at), tape.meters[number]) for number, at in tape.fleet.addresses.items()]
    for change in range(200):
        records = changed(tape.records, chance)
        tape.name.write_bytes(tape.front + b"".join(records))
        logs = [(at, [item for item in (log_item(record, at) for record in all_of) if item]) for at, all_of in [*meters, (end_of(tape.head.at), records)]]
        places = {(number, item): rule for number, item, rule in waiting(logs)}
        subjects = tape.fleet.subjects().led_by(tape.head.at, tape.name, tape.head.book)
        _, lines, said = subjects.audit()
        found = [line.split(":")[0].split() for line in lines if re.match(r"departs (NeverSent|SentLater) ", line)]
        wants(not said and len(found) == bool(places), f"change {change}: it says {found} and {said}, the other judge {places}")
        wants(bool(places) != any(line.startswith("order ok ") for line in lines), f"change {change}: it says {lines}")
        rule = found[0][1] if found else "fits"
        told_rules[rule] += 1
        if found:
            files = [*map(str, tape.captures.values()), str(tape.name)]
            number, record = files.index(found[0][2]), int(found[0][3])
            all_of = meters[number][1] if number < len(meters) else records
            item = sum(log_item(it, logs[number][0]) is not None for it in all_of[:record])
            is_first = rule == "NeverSent" or "NeverSent" not in places.values()
            wants(places.get((number, item)) == rule and is_first, f"change {change}: it says {found}, the other judge {places}")
    wants(min(told_rules[rule] for rule in ("fits", "NeverSent", "SentLater")) > 5, f"it says {told_rules}")


def changed(records, chance):
    """The same records, of which one is left out, doubled, moved or turned."""
    number, to = (chance.randrange(2, len(records)) for _ in range(2))
    one, others = records[number], [*records[:number], *records[number + 1:]]
    match chance.randrange(4):
        case 0:
            return others
        case 1:
            return [*others[:to], one, *others[to:]]
        case 2:
            return [*records[:to], one, *records[to:]]
        case _:
            return [*records[:number], with_byte(one, len(one) - 1, 1 << chance.randrange(8)), *records[number + 1:]]


def log_item(record, at):
    """What a record says to the end at an address: a start, or a datagram that came or was sent; nothing, if it is another note."""
    ends = addresses_in(record)
    if ends is None:
        return ("start", None, b"") if b"dlmsfw start" in record else None
    source, dest = ((bytes(host), port) for host, port in ends)
    return ("sent", dest, record[RECORD + 28:]) if source == at else ("came", source, record[RECORD + 28:])


def is_claim(record):
    """Whether a record is that of a datagram with the name of an image: the answer to a GET, an octet-string of 45 bytes with a release."""
    data = record[RECORD + 28:]
    return addresses_in(record) is not None and data[8:10] == b"\xc4\x01" and data[11:14] == b"\0\x09\x2d"


def later(tape, records, meter, came):
    """How an audit departs if the head end has these records, of which one stands later than it was sent: at a reply that came before it and
    that its meter sent only after it, if there is one. Of ends that wait for each other the last one is told."""
    asked = tape.meters[meter][came]
    there = next(number for number, record in enumerate(records) if record[8:] == asked[8:])
    follow = {record[8:] for record in tape.meters[meter][came:]} - {record[8:] for record in tape.meters[meter][:came]}
    waits = next((number for number, record in enumerate(records[:there]) if record[8:] in follow and not tape.is_sent(record)), None)
    return [] if waits is None else [("SentLater", waits)]


def other_records_of_a_head_end_depart(folder):
    """What isn't a head end's is told as such, wherever it stands; so are another address, a meter that has no line, and another book."""
    tape = HeadTape(folder)
    records, head = tape.records, tape.head
    asked = next(number for number, record in enumerate(records) if addresses_in(record))
    for number in (0, 1, 5, len(records)):
        for rule, stray in (
            ("NoteOfMeter", recorded(note("turn"))),
            ("NoteOfMeter", recorded(note(f"turn {tape.port}"))),
            ("StartedAsMeter", tape.meters[1][0]),
            ("NoEntry", recorded(note("turns"))),
            ("Elsewhere", readdressed(records[asked], {tape.port: tape.port ^ 1})),
        ):
            tape.having([*records[:number], stray, *records[number:]], (rule, number))
        for word in "start", "strangers 9":
            tape.having([*records[:number], recorded(note(word)), *records[number:]])
    first = {port: next(number for number, record in enumerate(records) if addresses_in(record) and addresses_in(record)[1][1] == port)
             for port in (int(at.rsplit(":", 1)[1]) for at in tape.fleet.addresses.values())}
    subjects = head.add_to(tape.fleet.subjects())
    subjects.lines = subjects.lines[:1]
    number = first[int(tape.fleet.addresses[2].rsplit(":", 1)[1])]
    subjects.departs(f"NotAudited {head.book} 7 1 2", f"NotOffered {head.capture} {number} {offset(records, number)} head 7")
    subjects = tape.fleet.subjects().led_by("127.0.0.1:9", head.capture, head.book)
    subjects.departs(f"Elsewhere {head.capture} {asked} {offset(records, asked)} head 7")
    meter = tape.captures[1]
    tape.fleet.subjects().led_by(head.at, meter, head.book).departs(f"StartedAsMeter {meter} 0 {FRONT} head 7")
    # Of another head end's book the first initiate isn't offered.
    journal, other = Journal(head.book), folder / "other.book"
    journal.write(other, [record[:1] + struct.pack(">I", 9) + record[5:] for record in journal.records])
    number = next(number for number, record in enumerate(records) if tape.is_sent(record) and record[RECORD + 47:RECORD + 48] == b"\x01"
                  and record[RECORD + 36:RECORD + 38] == b"\xc3\x01")
    name = f"7 1 2 {digest(tape.image)}"
    tape.fleet.subjects().led_by(head.at, head.capture, other).departs(
        *(f"NotOffered {meter} {name}" for meter in tape.fleet.meters), f"DoneNotActivated {other} 9 1 1",
        f"NotOffered {head.capture} {number} {offset(records, number)} head 9")
    journal.write(other, [])
    unoffered = [f"NotOffered {number} {name}" for number in tape.fleet.meters]
    tape.fleet.subjects().led_by(head.at, head.capture, other).departs(*unoffered, f"NoBook {other}")


class ForgingRelay(Relay):
    """Passes all on but the activate: that it keeps, and from then on it answers for the meter, as one that runs the image."""

    def __init__(self, count, image):
        super().__init__(count, lambda *_: None)
        name = b"\2" + struct.pack(">III", 7, 1, 2) + hashlib.sha256(image).digest()
        self.runs, self.has_forged = octets(name), False

    def pass_on(self, number, data, is_asked):
        is_activate = data[8:11] == b"\xc3\x01" + data[10:11] and data[19:20] == b"\x04"
        if not is_asked or not (is_activate or self.has_forged):
            super().pass_on(number, data, is_asked)
            return
        self.has_forged = True
        answer = b"\xc7\x01" + data[10:11] + b"\0\0" if is_activate else b"\xc4\x01" + data[10:11] + b"\0" + self.value(data)
        self.fronts[number].sendto(struct.pack(">HHHH", 1, 1, 1, len(answer)) + answer, self.head)

    def value(self, data):
        """What a meter that switched answers to a GET."""
        return self.runs if data[11:13] == b"\0\x01" else b"\x16\x06"


def told(record):
    """The addresses and the bytes of the datagram of a record."""
    return addresses_in(record), record[RECORD + 28:]


def a_forged_claim_was_never_sent(folder):
    """Where a relay forges the claim of a meter, and shows each end the other's address, no meter sent what came to the head end."""
    image = random.Random(80).randbytes(5000)
    relay = ForgingRelay(1, image)
    with Taped(folder, 1, words=ROOM, heads=relay.heads()).killed() as fleet, relay.running(fleet):
        at, capture = free_address(), folder / "head.pcap"
        lines = HeadEnd(folder, "--new", *opening(folder, image), "--capture", capture, listen=at).over()
        wants(lines[-1] == "over done 1 failed 0" and relay.has_forged, f"it prints {lines}")
        fleet.stop()
    own, meter = int(at.rsplit(":", 1)[1]), fleet.meters[1].address[1]
    ports = {relay.fronts[1].getsockname()[1]: meter, relay.backs[1].getsockname()[1]: own}
    made = {}
    for path in capture, folder / "1.pcap":
        made[path] = [readdressed(record, ports) for record in records_of(path)]
        path.write_bytes(path.read_bytes()[:FRONT] + b"".join(made[path]))
    answered = [told(record) for record in made[folder / "1.pcap"]]
    number = next(number for number, record in enumerate(made[capture])
                  if addresses_in(record) and addresses_in(record)[0][1] == meter and told(record) not in answered)
    book = folder / "head.book"
    subjects = fleet.subjects("--head", at, "--head", fleet.asker.address()).led_by(at, capture, book)
    subjects.departs(f"DoneNotActivated {book} 7 1 1", f"NeverSent {capture} {number} {offset(made[capture], number)} head 7")


TRIES = [head_ends_fit, changed_head_captures_depart, random_orders_are_judged, other_records_of_a_head_end_depart, a_forged_claim_was_never_sent]
