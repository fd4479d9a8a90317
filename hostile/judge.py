"""Another judge of what is found of a meter, made of the documents and of a stand-in for a meter, and of nothing of the program: docs/FORMATS.md
has captures and undo files, docs/STORE.md stores, docs/METER.md what a meter does, and docs/AUDIT.md what an audit asks."""

import copy
import hashlib
import ipaddress
import struct

from packets import FRONT, LINKS, RECORD, capture
from stand_ins import StandIn

LONGEST, MARK, MOST_UNDO = 65535, b"FWU1", 8260
# Where the type of a packet stands in the frame of each link, and those of IP.
TYPES, IPV4, IPV6 = {1: slice(12, 14), 113: slice(14, 16), 276: slice(0, 2)}, b"\x08\x00", b"\x86\xdd"
# What stands in a store before the slots, and behind them in each version of the header; the numbers of blocks that each has marks for.
SLOTS, BEHIND, LIMITS = 618, (0, 8, 1544), {b"FWH1": 4096, b"FWH2": 16384}


class Departs(Exception):
    """What departs: the rule, and where; of a capture the number of the record, if that can be read, and its offset."""


# ---- captures


def tells(packet, link):
    """What the packet of a frame tells; None, if it is passed over, and a fault by its name."""
    if len(packet) < len(LINKS[link]) or link == 101 and not packet:
        return "ShortLink"
    kind, packet = packet[TYPES[link]] if link in TYPES else None, packet[len(LINKS[link]):]
    if kind not in (None, IPV4, IPV6):
        return None
    version = packet[0] >> 4 if packet else 4
    is_six = kind == IPV6 if kind else version == 6
    if not kind and version not in (4, 6):
        return "BadIpVersion"
    if len(packet) < (40 if is_six else 20):
        return "ShortIp"
    if version != (6 if is_six else 4):
        return "BadIpVersion"
    header = 40 if is_six else 4 * (packet[0] & 15)
    if header < 20 or header > len(packet):
        return "BadIpHeader"
    protocol = packet[6] if is_six else packet[9]
    is_part = not is_six and struct.unpack_from(">H", packet, 6)[0] & 0x3FFF
    if protocol not in ((17,) if is_six else (17, 253)) or is_part:
        return None
    total = struct.unpack_from(">H", packet, 4 if is_six else 2)[0] + (40 if is_six else 0)
    if not header <= total <= len(packet):
        return "BadIpLength"
    ends, data = (packet[8:24], packet[24:40]) if is_six else (packet[12:16], packet[16:20]), packet[header:total]
    if protocol == 253:
        return noted(data)
    if len(data) < 8 or struct.unpack_from(">H", data, 4)[0] != len(data):
        return "BadUdpLength"
    return "datagram", *zip(ends, struct.unpack_from(">HH", data)), data[8:]


def noted(text):
    """What a note tells: a start, and how many may ask, if that is known; who may; a head end; a turn, or that memory was refused, and of
    which port; or strangers."""
    if text in (b"dlmsfw start", b"dlmsfw turn"):
        return text[7:].decode(), None
    if text.startswith(b"dlmsfw start meter ") and len(text) == 31:
        return "start", struct.unpack(">Q", text[23:])[0]
    if text.startswith(b"dlmsfw start head ") and len(text) == 22:
        return "head", None
    if text.startswith(b"dlmsfw may ask ") and len(text) in (21, 33):
        return "may ask", (text[15:-2], struct.unpack(">H", text[-2:])[0])
    if text.startswith(b"dlmsfw unserved ") and len(text) == 18:
        return "unserved", struct.unpack(">H", text[16:])[0]
    if text.startswith(b"dlmsfw turn ") and len(text) == 14:
        return "turn", struct.unpack(">H", text[12:])[0]
    return ("strangers", None) if text.startswith(b"dlmsfw strangers ") and len(text) == 25 else None


class Capture:
    """A capture that is read."""

    ORDERS = {struct.pack(order + "I", magic): (order, most) for order in "<>" for magic, most in ((0xA1B23C4D, 10**9), (0xA1B2C3D4, 10**6))}

    def __init__(self, data):
        self.data = data
        if len(data) < FRONT:
            raise Departs("ShortHeader", 0)
        if data[:4] == b"\x0a\x0d\x0d\x0a":
            raise Departs("Pcapng", 0)
        if data[:4] not in self.ORDERS:
            raise Departs("BadMagic", 0)
        self.order, self.most = self.ORDERS[data[:4]]
        if struct.unpack_from(self.order + "HH", data, 4) != (2, 4):
            raise Departs("BadVersion", 0)
        self.link = struct.unpack_from(self.order + "I", data, 20)[0]
        if self.link not in LINKS:
            raise Departs("UnknownLink", 0)

    def record(self, at):
        """What the record at an offset tells, and where the next one begins; or its fault."""
        if len(self.data) - at < RECORD:
            return "ShortRecord", at
        _, fraction, size, _ = struct.unpack_from(self.order + "IIII", self.data, at)
        if fraction >= self.most:
            return "BadFraction", at
        if len(self.data) - at - RECORD < size:
            return "CutPacket", at
        return tells(self.data[at + RECORD:at + RECORD + size], self.link), at + RECORD + size

    def records(self):
        """Each record: its number, its offset, and what it tells."""
        number, at = 0, FRONT
        while at < len(self.data):
            told, after = self.record(at)
            if isinstance(told, str):
                raise Departs(told, at)
            yield number, at, told
            number, at = number + 1, after


def whole(data):
    """A capture without what a power cut left of its last record."""
    if data[:FRONT] != capture([]):
        return data
    made, at = Capture(data), FRONT
    while at < len(data):
        told, after = made.record(at)
        sizes = struct.unpack_from("<II", data.ljust(at + RECORD, b"\0"), at + 8)
        if not isinstance(told, str) and sizes[0] == sizes[1] <= LONGEST:
            at = after
            continue
        left = data[at:].rstrip(b"\0")
        fraction, size, again = struct.unpack_from("<III", left.ljust(RECORD, b"\0"), 4)
        is_part = len(left) < RECORD or fraction < 10**9 and size == again <= LONGEST and len(left) < RECORD + size
        return data[:at] if is_part else data
    return data


def items_of(data, at, others, heads):
    """The items of the log of a meter: the number and the offset of the record, what it is, of whom, and the bytes."""
    items = []
    for number, place, told in Capture(data).records():
        found = item_of(told, at, others, heads)
        if isinstance(found, str):
            raise Departs(found, number, place)
        if found:
            items.append((number, place, *found))
    return items


def item_of(told, at, others, heads):
    """The item that a record is for the meter at an address; None if it is another one's; and a rule by its name."""
    if told is None:
        return "NoEntry"
    kind, *more = told
    if kind == "strangers":
        return None
    if kind == "start":
        return ("start", None, b"") if more[0] in (None, len(heads)) else "OtherHeads"
    if kind == "head":
        return "StartedAsHead"
    if kind == "may ask":
        return None if more[0] in heads else "OtherHeads"
    if kind in ("turn", "unserved"):
        item = "turn" if kind == "turn" else "start"
        if more[0] is None:
            return "UnnamedTurn" if others else (item, None, b"")
        if more[0] == at[1]:
            return item, None, b""
        return None if more[0] in [port for _, port in others] else "Elsewhere"
    source, dest, data = more
    ends = {source, dest}
    if at not in ends:
        return None if ends & {*others} else "Elsewhere"
    if source == dest or ends & {*others}:
        return "ToItself"
    return ("sent", dest, data) if source == at else ("came", source, data)


# ---- stores


def meter_in(store, undo=b""):
    """The meter in a store."""
    if len(undo) > MOST_UNDO or undo[:4] not in (MARK[:len(undo)], bytes(4)[:len(undo)]):
        raise Departs("ForeignUndo")
    data = mended(store, undo)
    capacity = int.from_bytes(data[:4].ljust(4, b"\0"), "big")
    count = len(data) - SLOTS - 2 * capacity
    if not 1 <= capacity <= 1 << 24 or count not in BEHIND:
        raise Departs("BadFile")
    behind = data[len(data) - count:] if count else bytes(8)
    header, slots = data[4:SLOTS], (data[SLOTS:SLOTS + capacity], data[SLOTS + capacity:SLOTS + 2 * capacity])
    meter = StandIn()
    if header[:4] != (b"FWH2" if count == BEHIND[-1] else b"FWH1") or not fills(meter, header, behind, capacity, slots):
        raise Departs("BadHeader")
    is_verified = meter.status != 3 or hashlib.sha256(meter.bytes()).digest() == meter.goal[0][3]
    if hashlib.sha256(meter.image).digest() != meter.name[3] or not is_verified:
        raise Departs("BadImage")
    return meter


def fills(meter, header, behind, capacity, slots):
    """Makes a meter what a header says, and gives whether a store of this capacity can have that."""
    enabled, slot, status, has_goal = header[4:8]
    block_size, size = struct.unpack_from(">II", header, 8)
    release, goal_release = struct.unpack_from(">II", behind)
    name, goal = name_at(header, 16, release), name_at(header, 61, goal_release)
    goal_size, marks = int.from_bytes(header[57:61], "big"), header[102:] + behind[8:]
    holds = enabled < 2 and slot < 2 and status in (0, 1, 3, 4, 6) and 1 <= block_size <= 1024 and 1 <= size <= capacity
    if not holds or has_goal != (status in (1, 3, 4)) or name is None or not name[0] and release:
        return False
    meter.enabled, meter.status, meter.block_size, meter.capacity = bool(enabled), status, block_size, capacity
    meter.name, meter.image, meter.limit = name, slots[slot][:size], LIMITS[header[:4]]
    if not has_goal:
        return not any(header[57:]) and not any(behind[4:])
    if goal is None or not goal[0] or goal_release < release or not 1 <= goal_size <= capacity:
        return False
    meter.goal = goal, goal_size
    count, bits = meter.count(), "".join(f"{byte:08b}" for byte in marks)
    meter.cells = {number: slots[1 - slot][number * block_size:min(goal_size, (number + 1) * block_size)]
                   for number in range(count) if bits[number:number + 1] == "1"}
    return count <= meter.limit and "1" not in bits[count:] and (status == 1 or len(meter.cells) == count)


def name_at(header, at, release):
    """The name at a place of a header, and None if there is none."""
    head, serial = struct.unpack_from(">II", header, at + 1)
    return (head, serial, release, header[at + 9:at + 41]) if header[at] == 1 and (head == 0) == (serial == 0) else None


def mended(data, undo):
    """A store in which a header write that is half done is taken back."""
    if undo[:4] != MARK or len(undo) < 68 or hashlib.sha256(undo[:-32]).digest() != undo[-32:]:
        return data
    at, last = struct.unpack_from(">QQ", undo, 4)
    parts, place = [], 20
    for _ in range(4):
        size = int.from_bytes(undo[place:place + 4], "big")
        parts.append(undo[place + 4:place + 4 + size])
        place += 4 + size
    before, after, last_before, last_after = parts
    front, behind = data[at:at + len(before)], data[last:]
    if len(data) < last or len(behind) not in (len(last_before), len(last_after)) or (front, behind) == (after, last_after):
        return data
    resized = (part[:len(behind)].ljust(len(behind), b"\0") for part in (last_before, last_after))
    if not (is_cut(at, front, before, after) and is_cut(last, behind, *resized)):
        return data
    return data[:at] + before + data[at + len(before):last] + last_before


def is_cut(at, now, before, after):
    """Whether each sector of the disk that bytes from an offset on stand in is as before or as after."""
    parts = [slice(max(0, start - at), max(0, start + 512 - at)) for start in range(at // 512 * 512, at + len(now), 512)]
    return all(now[part] in (before[part], after[part]) for part in parts)


# ---- logs


def state_of(meter):
    """A meter as a store holds it."""
    status = 1 if meter.status == 2 else meter.status
    return (meter.capacity, meter.block_size, meter.limit, meter.enabled, status, meter.goal, tuple(sorted(meter.cells.items())),
            meter.image, meter.name)


def lived(meter, items, heads):
    """What a process leaves that starts with a meter and does what items say: that of after the last one, and if it may have been killed before it
    did that, that of before it. Each has the images that it switched to."""
    meter, before, owed = copy.deepcopy(meter), None, None
    meter.limit, meter.status = LIMITS[b"FWH2"], 1 if meter.status == 2 else meter.status
    for left, (number, place, kind, end, data) in zip(range(len(items) - 1, -1, -1), items):
        if owed is not None:
            if kind != "sent" or (end, data) != owed:
                raise Departs("OtherReply" if kind == "sent" else "ReplyMissing", number, place)
            owed = None
            continue
        before = copy.deepcopy(meter) if not left else None
        if kind == "sent" or kind == "turn" and meter.status != 2:
            raise Departs("NothingOwed" if kind == "sent" else "NothingVerified", number, place)
        if kind == "turn":
            meter.digest()
        elif not heads or end in heads:
            owed = handled(meter, end, data)
    return [meter] + ([before] if before else [])


def handled(meter, end, data):
    """Has a meter handle a datagram. The reply that it owes, and to whom."""
    status = meter.status
    reply = meter.reply(data)
    if (status, meter.status) == (3, 6):
        meter.switches = [*meter.switches, meter.name]
    return None if reply is None else (end, reply)


def switches_of(begin, items, end, heads):
    """The names of the images that a meter switched to by its log."""
    begin.switches, lefts = [], [begin]
    if items and items[0][2] != "start":
        raise Departs("NotStarted", *items[0][:2])
    starts = [at for at, item in enumerate(items) if item[2] == "start"]
    for start, after in zip(starts, [*starts[1:], len(items)]):
        found, farthest = {}, Departs("", -1, 0)
        for left in lefts:
            try:
                found |= {state_of(it): it for it in reversed(lived(left, items[start + 1:after], heads))}
            except Departs as why:
                farthest = max(farthest, why, key=lambda it: it.args[1])
        if not found:
            raise farthest
        lefts = list(found.values())
    for left in lefts:
        if state_of(left) == state_of(end):
            return left.switches
    raise Departs("OtherStore")


# ---- orders


def waiting(logs):
    """Where ends wait for each other: the number of the end, that of its item, and the rule. Each log is that of an address, of items that are
    starts, or datagrams that came or were sent."""
    ends, done, told = {at for at, _ in logs}, [0] * len(logs), set()
    sent = {(at, end, data) for at, items in logs for kind, end, data in items if kind == "sent"}
    going = True
    while going:
        going = False
        for number, (at, items) in enumerate(logs):
            while done[number] < len(items):
                kind, end, data = items[done[number]]
                if kind == "came" and end in ends and (end, at, data) not in told:
                    break
                if kind == "sent":
                    told.add((at, end, data))
                done[number], going = done[number] + 1, True
    stuck = [(number, done[number], at, items) for number, (at, items) in enumerate(logs) if done[number] < len(items)]
    return [(number, item, "SentLater" if (items[item][1], at, items[item][2]) in sent else "NeverSent") for number, item, at, items in stuck]


# ---- what an audit says


def end_of(address):
    """An address as captures have it."""
    host, port = address.rsplit(":", 1)
    return ipaddress.ip_address(host.strip("[]")).packed, int(port)


def judged(number, address, captured, store, heads=(), others=(), began=None, **new):
    """What an audit says of a meter: the departure, up to its colon, or the line of the meter and those of its switches."""
    path = began
    try:
        begin = meter_in(read(began), read(f"{began}.journal")) if began else StandIn()
        for name, value in new.items():
            setattr(begin, name, value)
        path = store
        end = meter_in(read(store), read(f"{store}.journal"))
        heads = [end_of(it) for it in heads]
        items = items_of(whole(read(captured)), end_of(address), [end_of(it) for it in others], heads)
        switches = switches_of(begin, items, end, heads)
    except Departs as why:
        rule, *at = why.args
        where = (captured, *at, "meter", number) if at else (path,)
        return [" ".join(map(str, ("departs", rule, *where)))]
    kinds = [kind for _, _, kind, _, _ in items]
    return [f"meter {number} ok {kinds.count('came') + kinds.count('sent')} datagrams {kinds.count('start')} starts",
            *(f"activated {number} {head} {serial} {release} {digest.hex()}" for head, serial, release, digest in switches)]


def read(path):
    """The bytes of a file, and none if it isn't there."""
    try:
        with open(path, "rb") as file:
            return file.read()
    except FileNotFoundError:
        return b""
