"""Meters that a script stands for. Each answers, keeps a capture and leaves a store as a meter of the program does, and is wrong in one thing."""

import contextlib
import hashlib
import select
import socket
import struct
import threading

from asks import DENIED, GET, RUNNING, SET, TRANSFER, ask_in, length, octets, unwrapped
from ends import GET_NAME, GET_STATUS, SET_ENABLED, action, with_invoke_byte, wrapped
from packets import capture, note, udp

HEAD, STRANGER = ("127.0.0.1", 4058), ("127.0.0.1", 4057)
# The codes of a refusal: not now, and no such block or image.
TEMPORARY, OTHER = 2, 250
# The invoke byte of a request that wants no response.
UNCONFIRMED = "81"


def name_of(image, serial=1, release=0, head=7):
    """The name of an image: whose campaign offers it, its release, and its digest."""
    return head, serial, release, hashlib.sha256(image).digest()


def spelled(name):
    """A name as an identifier has it (docs/FORMATS.md)."""
    head, serial, release, digest = name
    numbers = struct.pack(">II", head, serial)
    return b"\2" + numbers + struct.pack(">I", release) + digest if release else b"\1" + numbers + digest


def read_name(data):
    """The name of a campaign's image that bytes spell, and None if they spell none."""
    has_release = data[:1] == b"\2"
    if len(data) != (45 if has_release else 41) or data[0] not in (1, 2):
        return None
    head, serial = struct.unpack_from(">II", data, 1)
    release = struct.unpack_from(">I", data, 9)[0] if has_release else 0
    return (head, serial, release, data[-32:]) if head and serial and (release or not has_release) else None


class StandIn:
    """A meter as docs/METER.md has it."""

    SLICE = 4096
    # The rule that it breaks, and whether that is seen in its store.
    rule, is_stored = "", False

    def __init__(self, address=("127.0.0.1", 4059), heads=(HEAD,)):
        self.address, self.heads = address, heads
        self.block_size, self.capacity, self.limit = 1024, 65536, 16384
        self.packets, self.place = [], None
        self.enabled, self.status, self.goal, self.cells = False, 0, None, {}
        self.image, self.digested = b"abc", 0
        self.name = name_of(self.image, 0, 0, 0)
        self.started()

    def mark(self, further=0):
        """The record that is made next, or one further on, is the first that nothing explains."""
        if self.place is None:
            self.place = len(self.packets) + further

    # ---- its process

    def started(self):
        """Its process is started."""
        self.packets.append(note("start"))

    def restart(self):
        """It is killed and started again. A verification that goes on is kept nowhere."""
        self.started()
        if self.status == 2:
            self.status = 1

    def turn(self):
        """It takes a turn."""
        self.packets.append(note(f"turn {self.address[1]}"))
        self.digest()

    def came(self, sender, data):
        """Records a datagram that came."""
        self.packets.append(udp(sender, self.address, data))

    def went(self, to, data):
        """Records one that is sent."""
        self.packets.append(udp(self.address, to, data))

    def take(self, sender, data):
        """Takes a datagram. What it sends, and to whom."""
        self.came(sender, data)
        sent = self.sends(sender, data, self.reply(data)) if self.may_ask(sender) else []
        for to, reply in sent:
            self.went(to, reply)
        return sent

    def may_ask(self, sender):
        """Whether an address may ask it."""
        return not self.heads or sender in self.heads

    def sends(self, sender, data, reply):
        """What it sends for a datagram to which this is the reply."""
        return [] if reply is None else [(sender, reply)]

    # ---- what it answers

    def reply(self, data):
        """The reply to a datagram, if there is one."""
        found = unwrapped(data, self.port(data))
        ask = found and ask_in(found[1])
        if not ask:
            return None
        response = self.response(ask)
        if not self.is_confirmed(ask):
            return None
        answer = bytes([response[0], 1, ask.invoke]) + response[1:]
        return struct.pack(">HHHH", 1, 1, found[0], len(answer)) + answer

    def port(self, _data):
        """The wPort that it serves."""
        return 1

    def is_confirmed(self, ask):
        """Whether a request wants a response."""
        return ask.is_confirmed()

    def response(self, ask):
        """The service of a response and what stands behind its invoke byte."""
        refusal = ask.refusal()
        if ask.service == GET:
            return b"\xc4" + (b"\1" + bytes([refusal]) if refusal is not None else b"\0" + self.value(ask.instance, ask.number))
        if ask.service == SET:
            return b"\xc5" + bytes([self.enable(ask.parameter[1] != b"\0") if refusal is None else refusal])
        return b"\xc7" + bytes([self.code(ask) if refusal is None else refusal, 0])

    def value(self, instance, attribute):
        """What a GET answers, as Data."""
        if attribute == 1:
            return octets(instance)
        if instance != TRANSFER:
            return octets(spelled(self.name) if instance == RUNNING else self.name[3])
        match attribute:
            case 2:
                return b"\x06" + struct.pack(">I", self.block_size)
            case 3:
                return b"\x04" + length(self.count()) + self.bits()
            case 4:
                return b"\x06" + struct.pack(">I", self.missing())
            case 5:
                return b"\x03" + bytes([self.enabled])
            case 6:
                return b"\x16" + bytes([self.status])
        return b"\x01" + (self.to_activate() if self.status == 3 else b"\0")

    def to_activate(self):
        """The image that would be activated: one structure."""
        name, size = self.goal
        return b"\x01\x02\x03\x06" + struct.pack(">I", size) + octets(spelled(name)) + octets(name[3])

    def count(self):
        """How many blocks its goal has."""
        return -(-self.goal[1] // self.block_size) if self.goal else 0

    def bits(self):
        """Which of them are there."""
        bits = "".join(str(int(number in self.cells)) for number in range(self.count()))
        return bytes(int(bits[at:at + 8].ljust(8, "0"), 2) for at in range(0, len(bits), 8))

    def missing(self):
        """The lowest number of a block that isn't there."""
        return next((number for number in range(self.count()) if number not in self.cells), self.count())

    # ---- what it does

    def enable(self, is_enabled):
        """The code of a SET."""
        self.enabled = is_enabled
        return 0

    def code(self, ask):
        """The code of an ACTION."""
        if not self.enabled:
            return DENIED
        match ask.number:
            case 1:
                identifier, size = ask.pair()
                return self.initiate(read_name(identifier), int.from_bytes(size, "big"))
            case 2:
                number, value = ask.pair()
                return self.block(int.from_bytes(number, "big"), value)
            case 3:
                return self.verify()
        return self.activate()

    def initiate(self, name, size):
        """The code of an image_transfer_initiate."""
        if name is None or name[2] < self.name[2] or not 1 <= size <= min(self.capacity, self.limit * self.block_size):
            return OTHER
        self.status, self.goal, self.cells = 1, (name, size), {}
        return 0

    def block(self, number, value):
        """The code of an image_block_transfer."""
        if self.status != 1:
            return TEMPORARY
        if number >= self.count() or len(value) != min(self.block_size, self.goal[1] - number * self.block_size):
            return OTHER
        self.cells[number] = value
        return 0

    def verify(self):
        """The code of an image_verify."""
        if self.status != 1 or self.missing() < self.count():
            return TEMPORARY
        self.status, self.digested = 2, 0
        self.digest()
        return {2: TEMPORARY, 3: 0, 4: OTHER}[self.status]

    def digest(self):
        """A slice more of its goal is digested."""
        self.digested += self.SLICE
        if self.digested >= self.goal[1]:
            self.status = 3 if hashlib.sha256(self.bytes()).digest() == self.goal[0][3] else 4

    def bytes(self):
        """The bytes of its goal, of which all blocks are there."""
        return b"".join(self.cells[number] for number in range(self.count()))

    def activate(self):
        """The code of an image_activate."""
        if self.status != 3:
            return TEMPORARY
        self.image, self.name = self.bytes(), self.goal[0]
        self.status, self.goal, self.cells = 6, None, {}
        return 0

    # ---- what it leaves

    def header(self, magic=b"FWH2"):
        """The header of its store, up to the slots and behind them."""
        (name, size), status = self.goal or (None, 0), 1 if self.status == 2 else self.status
        marks = self.bits() if status in (1, 3, 4) else b""
        front = magic + bytes([self.enabled, 0, status, name is not None]) + struct.pack(">II", self.block_size, len(self.image))
        front += spelled((*self.name[:2], 0, self.name[3])) + struct.pack(">I", size)
        front += spelled((*name[:2], 0, name[3])) if name else bytes(41)
        return front + marks.ljust(512, b"\0"), struct.pack(">II", self.name[2], name[2] if name else 0) + bytes(1536)

    def store(self):
        """Its store: the image that runs in the first slot, and the blocks of its goal in the second."""
        front, behind = self.header()
        spare = bytearray(self.capacity)
        for number, value in self.cells.items():
            spare[number * self.block_size:number * self.block_size + len(value)] = value
        return struct.pack(">I", self.capacity) + front + self.image.ljust(self.capacity, b"\0") + spare + behind

    def leave(self, folder):
        """Writes its capture and its store, and gives their paths."""
        paths = folder / "stand-in.pcap", folder / "stand-in.fw"
        for path, data in zip(paths, (capture(self.packets), self.store())):
            path.write_bytes(data)
        return paths


# ---- how it is led


def initiate(image, release=0, serial=1):
    """The datagram that begins the transfer of an image."""
    name = spelled(name_of(image, serial, release))
    return action(1, f"0202{octets(name).hex()}06{len(image):08x}")


def block(number, value):
    """The datagram that brings a block."""
    return action(2, f"020206{number:08x}{octets(value).hex()}")


def get(attribute):
    """The datagram that reads an attribute of Image transfer."""
    return wrapped(f"c001c1001200002c0000ff{attribute:02x}00")


VERIFY, ACTIVATE = action(3, "0f00"), action(4, "0f00")
IMAGE = bytes(range(256)) * 78 + b"the last block has fewer bytes"


def led(meter):
    """Leads a meter to an image of twenty blocks, with a restart amid these and one amid the verification, and asks what it must refuse."""
    def ask(*lines):
        for line in lines:
            meter.take(HEAD, bytes.fromhex(line))

    def verify(turns):
        ask(VERIFY)
        for _ in range(turns):
            if meter.status == 2:
                meter.turn()

    blocks = [block(number, IMAGE[at:at + 1024]) for number, at in enumerate(range(0, len(IMAGE), 1024))]
    meter.take(STRANGER, bytes.fromhex(GET_STATUS))
    ask(get(2), get(2).replace("00010001", "00010002", 1), get(2).replace("000100010001", "000100010002", 1))
    ask(get(5), with_invoke_byte(SET_ENABLED, UNCONFIRMED), get(5), SET_ENABLED)
    ask(initiate(IMAGE, 2), block(len(blocks), b"none"), block(0, b"short"), VERIFY, ACTIVATE, *blocks[:10])
    meter.restart()
    ask(get(4), get(3), *blocks[10:])
    verify(2)
    meter.restart()
    ask(GET_STATUS)
    verify(9)
    ask(GET_STATUS, get(7), ACTIVATE, GET_NAME, initiate(IMAGE, 1), action(1, "0202090161" + "0600000003"))
    meter.restart()
    ask(GET_NAME, SET_ENABLED.replace("0301", "0300"), ACTIVATE)
    return meter


class Served(threading.Thread):
    """A stand-in at a socket, for a head end that leads it."""

    def __init__(self, kind):
        super().__init__(daemon=True)
        self.socket = socket.socket(socket.AF_INET, socket.SOCK_DGRAM)
        self.socket.bind(("127.0.0.1", 0))
        self.meter, self.open = kind(self.socket.getsockname(), ()), True

    @contextlib.contextmanager
    def running(self):
        """Has it answer as long as it is needed."""
        self.start()
        try:
            yield self
        finally:
            self.open = False
            self.join()

    def run(self):
        while self.open:
            if select.select([self.socket], [], [], 0 if self.meter.status == 2 else 0.05)[0]:
                data, sender = self.socket.recvfrom(2313)
                for to, reply in self.meter.take(sender, data):
                    self.socket.sendto(reply, to)
            elif self.meter.status == 2:
                self.meter.turn()
