"""Kinds of changed files of a meter and of head ends, each with what an audit must say of it: the rule, and the first record that nothing
explains, or the file. A kind that is a run all the same says so."""

import hashlib
import pathlib
import random
import shutil
import struct
import time

from ends import GET_NAME, GET_STATUS, STATUS, Head, Meter, action, transfer, wants
from found import Subjects, addresses_in, name_of, offset, recorded, records_of, with_byte
from packets import FRONT, LINKS, RECORD, note, udp

ROOM = ("--block-size", "1024", "--capacity", "65536")
CAPACITY, SLOTS, IP, UDP = 65536, 618, 20, 28
KINDS = []
# What the reply to a GET of the status ends with, once an image is verified; and the codes of an ACTION that was done, and of one that wasn't yet.
VERIFIED, DONE, NOT_YET = b"\x16\x03", 0, 2


def kind(made):
    """Adds a kind: it gives what is audited, and what it departs by; nothing, where all fits."""
    KINDS.append(made)
    return made


class Tape:
    """A meter that was led through a transfer, killed and started once: its capture by records, and its store. The records are: 0 the start,
    1 and 2 the SET and its reply, 3 and 4 the initiate, then blocks, the second start, the verify, .., the activate, and last a GET of the
    name."""

    def __init__(self, folder, size=20000):
        self.folder, self.image = folder, random.Random(67).randbytes(size)
        self.store, self.capture, self.head = folder / "meter.fw", folder / "meter.pcap", Head()
        words = [*ROOM, "--capture", self.capture]
        with Meter(self.store, *words).killed() as meter:
            for line in transfer(self.image):
                self.head.ask_until(meter, line)
        self.at, self.port = name_of(meter.address), meter.address[1]
        self.empty, self.half = folder / "empty.fw", folder / "half.fw"
        shutil.copy(self.store, self.half)
        with Meter(self.store, *words, listen=self.at).killed() as meter:
            self.head.ask_until(meter, action(3, "0f00"))
            while self.head.ask_until(meter, GET_STATUS) == STATUS % 2:
                time.sleep(0.005)
            self.head.ask_until(meter, action(4, "0f00"))
            self.head.ask_until(meter, GET_NAME)
        with Meter(self.empty, *ROOM).killed():
            pass
        self.finish()

    def finish(self):
        """Reads what was left."""
        self.records, self.whole = records_of(self.capture), self.store.read_bytes()
        self.front = self.capture.read_bytes()[:FRONT]
        self.sent = [number for number, record in enumerate(self.records) if self.is_sent(record)]
        self.starts, self.turns = (self.numbers(lambda it, text=text: text in it) for text in (b"dlmsfw start", b"dlmsfw turn "))
        self.blocks = [number for number in self.sent if 4 < number < self.starts[1]]
        self.verified = self.first(lambda it: it.endswith(VERIFIED))
        self.name, self.changed = self.folder / "changed.pcap", self.folder / "changed.fw"
        wants(len(self.sent) > 20 and len(self.starts) == 2 and len(self.turns) == 4, f"the tape has {self.starts}, {self.turns} and {self.sent}")

    def is_sent(self, record):
        """Whether a record is that of a datagram from this meter."""
        ends = addresses_in(record)
        return ends is not None and ends[0][1] == self.port

    def numbers(self, holds):
        """The numbers of the records of which this holds."""
        return [number for number, record in enumerate(self.records) if holds(record)]

    def first(self, holds, behind=0):
        """The first of these behind a record."""
        return next(number for number in self.numbers(holds) if number > behind)

    def asked(self, line):
        """The record of a request that comes as the initiate did."""
        data = bytes.fromhex(line)
        data = data[:10] + self.records[3][RECORD + UDP + 10:][:1] + data[11:]
        packet = bytearray(self.records[3][RECORD:RECORD + UDP] + data)
        packet[2:4], packet[24:26] = struct.pack(">H", len(packet)), struct.pack(">H", 8 + len(data))
        return recorded(bytes(packet))

    def having(self, records, rule="", number=None, rest=b"", front=None):
        """What is audited if the capture has these records, and the departure at one of them."""
        self.name.write_bytes((front or self.front) + b"".join(records) + rest)
        return self.audit(self.name, self.store), *([f"{rule} {self.name} {number} {offset(records, number)} meter 1"] if rule else [])

    def faulty(self, records, fault, at, rest=b"", front=None):
        """The same of a capture that can't be read on from a place."""
        subjects, *_ = self.having(records, rest=rest, front=front)
        return subjects, f"{fault} {self.name} {at} meter 1"

    def storing(self, data, rule="", journal=None):
        """What is audited if the store has these bytes, and how it departs."""
        self.changed.write_bytes(data)
        beside = pathlib.Path(f"{self.changed}.journal")
        beside.unlink(missing_ok=True)
        if journal is not None:
            beside.write_bytes(journal)
        return self.audit(self.capture, self.changed), *([f"{rule} {self.changed}"] if rule else [])

    def audit(self, capture, store, *words, at=None):
        """What is audited if these are its files."""
        return Subjects(self.folder, *ROOM, *words).add(1, at or self.at, capture, store)


def answers(record, code):
    """Whether a record is that of the reply to an ACTION with this code."""
    return record[-5:-3] == b"\xc7\x01" and record[-2:] == bytes((code, 0))


def edited(record, at, form, *values):
    """A record with numbers in place of those at an offset."""
    made = bytearray(record)
    struct.pack_into(form, made, at, *values)
    return bytes(made)


def framed(tape, link):
    """The records of a tape with the frames of a link, and their file header."""
    before = LINKS[link]
    records = [edited(one[:RECORD] + before + one[RECORD:], 8, "<I", len(before) + len(one) - RECORD) for one in tape.records]
    return records, tape.front[:20] + struct.pack("<I", link)


# ---- replies


def each_reply(tape):
    """Each reply, with the records before it and behind it."""
    for number in tape.sent:
        yield number, tape.records[number], tape.records[:number], tape.records[number + 1:]


@kind
def reply_turned(tape):
    """A bit of a reply is turned."""
    for number, one, before, behind in each_reply(tape):
        turned = with_byte(one, len(one) - 1 - number % (len(one) - RECORD - UDP), 1 << number % 8)
        yield tape.having([*before, turned, *behind], "OtherReply", number)


@kind
def reply_left_out(tape):
    """A reply is left out. Before a start, and last of all, the meter may have been killed before it was sent."""
    for number, _, before, behind in each_reply(tape):
        is_killed = not behind or number + 1 in tape.starts
        yield tape.having([*before, *behind], *([] if is_killed else ["ReplyMissing", number]))


@kind
def reply_doubled(tape):
    """A reply is sent twice."""
    for number, one, before, behind in each_reply(tape):
        yield tape.having([*before, one, one, *behind], "NothingOwed", number + 1)


@kind
def reply_sent_elsewhere(tape):
    """A reply goes to another port."""
    for number, one, before, behind in each_reply(tape):
        yield tape.having([*before, with_byte(one, RECORD + IP + 3, 0x80), *behind], "OtherReply", number)


@kind
def reply_of_another(tape):
    """The next reply stands in the place of one, if they aren't the same."""
    for (number, one, before, behind), later in zip(each_reply(tape), tape.sent[1:]):
        other = tape.records[later]
        if one[RECORD + UDP:] != other[RECORD + UDP:]:
            yield tape.having([*before, other, *behind], "OtherReply", number)


@kind
def reply_before_its_request(tape):
    """A reply stands before its request."""
    for number, one, before, behind in each_reply(tape):
        yield tape.having([*before[:-1], one, before[-1], *behind], "NothingOwed", number - 1)


# ---- requests


@kind
def request_left_out(tape):
    """A request is left out, and its reply stays."""
    for number, one, before, behind in each_reply(tape):
        yield tape.having([*before[:-1], one, *behind], "NothingOwed", number - 1)


@kind
def request_doubled(tape):
    """A request comes twice before its reply."""
    for number, one, before, behind in each_reply(tape):
        yield tape.having([*before, before[-1], one, *behind], "ReplyMissing", number)


@kind
def enabling_left_out(tape):
    """Without the SET the initiate is denied."""
    yield tape.having([tape.records[0], *tape.records[3:]], "OtherReply", 2)


@kind
def disabled(tape):
    """If the SET is one to false, the initiate is denied."""
    records = tape.records
    yield tape.having([records[0], with_byte(records[1], len(records[1]) - 1, 1), *records[2:]], "OtherReply", 4)


@kind
def initiate_left_out(tape):
    """Without the initiate the first block comes too early."""
    yield tape.having([*tape.records[:3], *tape.records[5:]], "OtherReply", 4)


@kind
def block_left_out(tape):
    """Without a block, and its reply, a verify comes too early. Its answer is the same, and then nothing goes on."""
    records = tape.records
    verify = tape.first(lambda it: answers(it, NOT_YET), tape.starts[1])
    next_one = min(number for number in (*tape.turns, *tape.sent) if number > verify)
    for number in tape.blocks:
        rule = "NothingVerified" if next_one in tape.turns else "OtherReply"
        yield tape.having([*records[:number - 1], *records[number + 1:]], rule, next_one - 2)


def verified_otherwise(tape, number, turned):
    """If another image came, its verification fails: the first status that says that it didn't is none of a meter's."""
    return tape.having([*tape.records[:number], turned, *tape.records[number + 1:]], "OtherReply", tape.verified)


@kind
def block_turned(tape):
    """A bit of a block is turned."""
    for number in tape.blocks:
        one = tape.records[number - 1]
        yield verified_otherwise(tape, number - 1, with_byte(one, len(one) - 7, 0x10))


@kind
def name_turned(tape):
    """A bit of the digest in the name is turned."""
    yield verified_otherwise(tape, 3, with_byte(tape.records[3], len(tape.records[3]) - 6, 1))


@kind
def blocks_exchanged(tape):
    """Two blocks come in the other order, which is a run."""
    records = tape.records
    yield tape.having([*records[:5], *records[7:9], *records[5:7], *records[9:]])


@kind
def stranger_who_asks(tape):
    """What a stranger asks, where any may ask, is answered."""
    stranger = with_byte(tape.asked(GET_STATUS), RECORD + IP + 1, 0x80)
    yield tape.having([*tape.records[:5], stranger, *tape.records[5:]], "ReplyMissing", 6)


# ---- starts and turns


@kind
def start_left_out(tape):
    """Without its first start a log doesn't begin. Without the second, between two datagrams, the meter just went on."""
    first, second = tape.starts
    yield tape.having(tape.records[1:], "NotStarted", first)
    yield tape.having(tape.records[:second] + tape.records[second + 1:])


@kind
def start_added(tape):
    """It is started again: between two datagrams, which is a run; before a reply, which is owed no more; and amid a verification."""
    records, began = tape.records, recorded(note("start"))
    yield tape.having([*records[:3], began, *records[3:]])
    for number, one, before, behind in each_reply(tape):
        yield tape.having([*before, began, one, *behind], "NothingOwed", number + 1)
    turn = tape.turns[0]
    later = min(number for number in (*tape.turns, *tape.sent) if number > turn)
    rule = "NothingVerified" if later in tape.turns else "OtherReply"
    yield tape.having([*records[:turn + 1], began, *records[turn + 1:]], rule, later + 1)


@kind
def turn_left_out(tape):
    """With a turn less the image is still verified where it was said that it is."""
    for turn in tape.turns:
        yield tape.having(tape.records[:turn] + tape.records[turn + 1:], "OtherReply", tape.verified - 1)


@kind
def turn_added(tape):
    """A turn stands where nothing is verified: while blocks come, and once all is verified. A turn before a reply is sent is none either."""
    records, turned = tape.records, recorded(note(f"turn {tape.port}"))
    for number in (1, 3, tape.turns[-1] + 1):
        yield tape.having([*records[:number], turned, *records[number:]], "NothingVerified", number)
    yield tape.having([*records[:4], turned, *records[4:]], "ReplyMissing", 4)


@kind
def turn_of_another(tape):
    """A turn has the port of no meter of the capture. One of an older capture has none, and is that of the only one."""
    for turn in tape.turns:
        before, behind = tape.records[:turn], tape.records[turn + 1:]
        yield tape.having([*before, recorded(note(f"turn {tape.port ^ 1}")), *behind], "Elsewhere", turn)
        yield tape.having([*before, recorded(note("turn")), *behind])


# ---- the end


@kind
def end_left_out(tape):
    """Without what doesn't change a meter all fits. Without its switch, or more, another store is left."""
    records, activated = tape.records, tape.first(lambda it: answers(it, DONE), tape.verified)
    yield tape.having(records[:activated + 1])
    yield tape.having(records[:activated])
    for count in (activated - 1, tape.starts[1], 5, 1, 0):
        subjects, *_ = tape.having(records[:count])
        yield subjects, f"OtherStore {tape.store}"


@kind
def end_cut(tape):
    """The capture ends within a record, as a power cut leaves it, perhaps with zeros behind. That record is left out: if it is the last nothing is
    lost by it, and if it is the activate another store is left. What no power cut leaves of this capture, or of another, can't be read on."""
    records, last = tape.records, len(tape.records) - 1
    activate = tape.first(lambda it: answers(it, DONE), tape.verified) - 1
    for number in (last, activate):
        departs = [f"OtherStore {tape.store}"] if number == activate else []
        for count, zeros in ((1, 0), (1, 8), (7, 0), (7, 8), (RECORD, 8), (RECORD + 1, 0), (RECORD + 1, 8), (len(records[number]) - 1, 0)):
            yield tape.having(records[:number], rest=records[number][:count] + bytes(zeros))[0], *departs
    yield tape.having(records, rest=bytes(600))
    yield tape.faulty(records, "CutPacket", offset(records, last + 1), edited(records[3], 12, "<I", 9)[:RECORD + 1])
    others, front = framed(tape, 1)
    yield tape.faulty(others, "ShortRecord", offset(others, last + 1), others[3][:7], front)


# ---- other records


@kind
def record_of_another(tape):
    """A record is none of the meter's: of another port or host, from its own address to it, of another protocol, a fragment, and another note."""
    one = tape.records[1]
    own = bytearray(one)
    own[RECORD + 12:RECORD + 16], own[RECORD + IP:RECORD + IP + 2] = own[RECORD + 16:RECORD + 20], own[RECORD + IP + 2:RECORD + IP + 4]
    for rule, stray in (
        ("Elsewhere", with_byte(one, RECORD + 19, 2)),
        ("Elsewhere", with_byte(one, RECORD + IP + 3, 0x80)),
        ("ToItself", bytes(own)),
        ("NoEntry", with_byte(one, RECORD + 9, 17 ^ 6)),
        ("NoEntry", with_byte(one, RECORD + 6, 0x60)),
        ("NoEntry", recorded(note("turns"))),
    ):
        yield tape.having([*tape.records[:3], stray, *tape.records[3:]], rule, 3)


@kind
def strangers_counted(tape):
    """A note that counts strangers says nothing, wherever it stands."""
    counted = recorded(note("strangers 9"))
    for number in (0, 1, 3, 4):
        yield tape.having([*tape.records[:number], counted, *tape.records[number:]])


@kind
def records_in_other_forms(tape):
    """Times, checksums, a second size, bytes behind a packet and other links say nothing of a meter."""
    records = tape.records
    yield tape.having([bytes(8) + one[8:] for one in records])
    yield tape.having([*records[:3], with_byte(records[3], RECORD + 10, 0xFF), *records[4:]])
    yield tape.having([*records[:3], edited(records[3], 12, "<I", 7), *records[4:]])
    padded = edited(records[3], 8, "<I", len(records[3]) - RECORD + 5) + b"bytes"
    yield tape.having([*records[:3], padded, *records[4:]])
    for link in LINKS:
        others, front = framed(tape, link)
        yield tape.having(others, front=front)


@kind
def other_file_headers(tape):
    """The file is no capture, or another one."""
    records, front = tape.records, tape.front
    for fault, header in (
        ("BadMagic", b"x" + front[1:]),
        ("BadVersion", edited(front, 4, "<H", 3)),
        ("UnknownLink", edited(front, 20, "<I", 102)),
        ("Pcapng", b"\x0a\x0d\x0d\x0a" + front[4:]),
    ):
        yield tape.faulty(records, fault, 0, front=header)
    yield tape.faulty([], "ShortHeader", 0, front=front[:23])
    tape.name.write_bytes(b"")
    yield tape.audit(tape.name, tape.store), f"ShortHeader {tape.name} 0 meter 1"


@kind
def records_that_are_none(tape):
    """A record can't be read, so nothing behind it can."""
    records, one, at = tape.records, tape.records[3], offset(tape.records, 3)
    for fault, changed in (
        ("BadFraction", edited(one, 4, "<I", 1_000_000_000)),
        ("BadIpVersion", with_byte(one, RECORD, 0x10)),
        ("BadIpHeader", with_byte(one, RECORD, 0x01)),
        ("BadIpLength", edited(one, RECORD + 2, ">H", len(one))),
        ("BadUdpLength", edited(one, RECORD + IP + 4, ">H", 9)),
        ("ShortIp", edited(one[:RECORD + 19], 8, "<I", 19)),
        ("ShortLink", edited(one[:RECORD], 8, "<I", 0)),
    ):
        yield tape.faulty([*records[:3], changed, *records[4:]], fault, at)
    yield tape.faulty([*records[:3], edited(one, 8, "<I", 1 << 30)], "CutPacket", at)


@kind
def two_captures_in_one(tape):
    """A second capture stands behind the first. Its file header reads as a record without a packet."""
    yield tape.faulty(tape.records, "ShortLink", offset(tape.records, len(tape.records)), tape.capture.read_bytes())


# ---- stores


@kind
def store_of_another_moment(tape):
    """The store is a new one, or that of before the second start."""
    for store in (tape.empty, tape.half):
        yield tape.audit(tape.capture, store), f"OtherStore {store}"


# Where the fields of a header stand in the file (docs/STORE.md).
ENABLED, STATUS_AT, BLOCK_SIZE, SIZE, SERIAL, SLOT = 8, 10, 12, 16, 28, 9


@kind
def store_with_another_header(tape):
    """One field of the header is another one. A meter may have each of these, but none that has this capture."""
    whole, release = tape.whole, SLOTS + 2 * CAPACITY
    for at, change in ((ENABLED, 1), (STATUS_AT, 6), (BLOCK_SIZE + 2, 6), (SERIAL, 2), (release + 3, 1)):
        yield tape.storing(with_byte(whole, at, change), "OtherStore")
    yield tape.storing(with_byte(whole[:release + 8], 7, 3), "OtherStore")


@kind
def store_that_is_none(tape):
    """The store has another image, a header that no meter writes, or another length."""
    whole, at = tape.whole, tape.whole.find(tape.image)
    wants(at in (SLOTS, SLOTS + CAPACITY), f"the image stands at {at}")
    for place, change, rule in ((at + 5, 1, "BadImage"), (SLOT, 1, "BadImage"), (SIZE + 3, 1, "BadImage"), (4, 1, "BadHeader"),
                                (STATUS_AT, 3, "BadHeader"), (2, 1, "BadFile")):
        yield tape.storing(with_byte(whole, place, change), rule)
    for data in (whole[:-1], whole + b"\0", b""):
        yield tape.storing(data, "BadFile")
    yield tape.storing(with_byte(whole, at + len(tape.image) + 5, 1))


def undo(whole, front, behind):
    """The undo file of a header write to these bytes before the slots and behind them."""
    last = SLOTS + 2 * CAPACITY
    data = b"FWU1" + struct.pack(">QQ", 4, last)
    for part in (whole[4:SLOTS], front, whole[last:], behind):
        data += struct.pack(">I", len(part)) + part
    return data + hashlib.sha256(data).digest()


@kind
def files_beside_the_store(tape):
    """What stands beside the store is another program's, or says how to take a header write back: one that is half done, or none."""
    whole, last = tape.whole, SLOTS + 2 * CAPACITY
    front, behind = with_byte(whole[4:SLOTS], 4, 1), with_byte(whole[last:], 3, 1)
    journal, new = undo(whole, front, behind), whole[:4] + front + whole[SLOTS:last] + behind
    torn = whole[:4] + front + whole[SLOTS:]
    for data, rule, beside in (
        (whole, "ForeignUndo", b"another program's"),
        (whole, "", b""),
        (whole, "", journal),
        (torn, "", journal),
        (torn, "OtherStore", b""),
        (torn, "OtherStore", journal[:-1]),
        (new, "OtherStore", journal),
    ):
        yield tape.storing(data, rule, beside)


# ---- any change


def random_capture(tape, chance):
    """The bytes of a capture, in which something is changed at random."""
    records, whole = list(tape.records), bytearray(tape.capture.read_bytes())
    one, other = chance.randrange(len(records)), chance.randrange(len(records))
    match chance.randrange(8):
        case 0:
            del records[one]
        case 1:
            records.insert(other, records[one])
        case 2:
            records[one], records[other] = records[other], records[one]
        case 3:
            at = chance.randrange(RECORD, len(records[one]))
            records[one] = with_byte(records[one], at, 1 << chance.randrange(8))
        case 4:
            data = chance.randbytes(chance.randrange(60))
            records[one] = recorded(udp(("127.0.0.1", 9), ("127.0.0.1", tape.port), data))
        case 5:
            return bytes(whole[:chance.randrange(len(whole))]) + bytes(chance.choice((0, 0, 3, 40)))
        case 6:
            at = chance.randrange(len(whole))
            del whole[at:at + chance.randrange(1, 200)]
            return bytes(whole)
        case 7:
            for _ in range(chance.randrange(1, 4)):
                whole[chance.randrange(len(whole))] ^= 1 << chance.randrange(8)
            return bytes(whole)
    return tape.front + b"".join(records)


def random_store(tape, chance):
    """The bytes of a store in which something is changed at random, and those of the undo file beside it."""
    whole, last = bytearray(tape.whole), SLOTS + 2 * CAPACITY
    journal = bytearray(undo(tape.whole, with_byte(tape.whole[4:SLOTS], chance.randrange(614), 1), with_byte(tape.whole[last:], 3, 1)))
    match chance.randrange(6):
        case 0:
            whole[chance.randrange(620)] ^= 1 << chance.randrange(8)
        case 1:
            whole[chance.randrange(last, len(whole))] ^= 1 << chance.randrange(8)
        case 2:
            whole[chance.randrange(len(whole))] ^= 1 << chance.randrange(8)
        case 3:
            del whole[chance.choice((0, 3, 617, last, last + 8, len(whole) - 1)):]
        case 4:
            journal[chance.randrange(len(journal))] ^= 1 << chance.randrange(8)
            return bytes(whole), bytes(journal)
        case 5:
            at = chance.choice((4, last))
            size = 614 if at == 4 else 1544
            place = journal.find(whole[at:at + size]) + size + 4
            whole[at:at + size] = journal[place:place + size]
    return bytes(whole), bytes(journal) if chance.random() < 0.5 else b""


# ---- lists and options


@kind
def another_list(tape):
    """The list has another address, or an option is another one."""
    records, own = tape.records, (tape.capture, tape.store)
    for at in (f"127.0.0.1:{tape.port ^ 0x80}", f"127.0.0.2:{tape.port}", f"[::1]:{tape.port}"):
        yield tape.audit(*own, at=at), f"Elsewhere {tape.capture} 1 {offset(records, 1)} meter 1"
    for words, number in ((("--block-size", "512", "--capacity", "65536"), 6), (("--block-size", "1024", "--capacity", "9999"), 4)):
        subjects = Subjects(tape.folder, *words).add(1, tape.at, *own)
        yield subjects, f"OtherReply {tape.capture} {number} {offset(records, number)} meter 1"
    yield Subjects(tape.folder, "--block-size", "1024", "--capacity", "65537").add(1, tape.at, *own), f"OtherStore {tape.store}"
    for head in ("127.0.0.1:1", tape.head.address()):
        yield tape.audit(*own, "--head", head), f"OtherHeads {tape.capture} 0 {offset(records, 0)} meter 1"
    # An older capture doesn't say who may ask.
    old = [recorded(note("start")) if number in tape.starts else record for number, record in enumerate(records)]
    tape.having(old)
    yield tape.audit(tape.name, tape.store, "--head", "127.0.0.1:1"), f"NothingOwed {tape.name} 2 {offset(old, 2)} meter 1"
    yield (tape.audit(tape.name, tape.store, "--head", tape.head.address()),)


@kind
def start_of_another(tape):
    """A start is that of a head end, or of a meter that other ones may ask; an older one, and one of several meters, may be this one's."""
    for at in tape.starts:
        for line, rule in (("start head 7", "StartedAsHead"), ("start meter count 0 heads 1", "OtherHeads")):
            yield tape.having([*tape.records[:at], recorded(note(line)), *tape.records[at + 1:]], rule, at)
        for line in ("start", "start meter count 9 heads 0"):
            yield tape.having([*tape.records[:at], recorded(note(line)), *tape.records[at + 1:]])
    asking = recorded(note("may ask 127.0.0.1:7"))
    yield tape.having([tape.records[0], asking, *tape.records[1:]], "OtherHeads", 1)


@kind
def memory_refused(tape):
    """Memory was refused for a datagram, so that no reply is owed any more. While an image is verified the audit has no place for that."""
    unserved = recorded(note(f"unserved {tape.port}"))
    for number, one, before, behind in each_reply(tape):
        if not tape.starts[1] < number < tape.verified:
            yield tape.having([*before, one, unserved, *behind])
        yield tape.having([*before, unserved, one, *behind], "NothingOwed", number + 1)
    stray = recorded(note(f"unserved {tape.port ^ 1}"))
    yield tape.having([*tape.records[:3], stray, *tape.records[3:]], "Elsewhere", 3)
