"""Requests to a meter and their Data, read apart from the program, as docs/FORMATS.md and docs/METER.md have them."""

import struct
import typing

GET, SET, ACTION = 0xC0, 0xC1, 0xC3
# The objects of a meter, with the class and the attributes of each.
TRANSFER, RUNNING, SIGNATURE = (bytes.fromhex(it) for it in ("00002c0000ff", "0100000200ff", "0100000208ff"))
OBJECTS = {TRANSFER: (18, 7), RUNNING: (1, 2), SIGNATURE: (1, 2)}
METHODS = 4
# Codes: success, no access, no such object, another class, a parameter of another type.
DONE, DENIED, UNDEFINED, INCONSISTENT, UNMATCHED = 0, 3, 4, 9, 12
# The bytes of the types of Data that have always as many.
SIZES = {0: 0, 3: 1, 5: 4, 6: 4, 15: 1, 16: 2, 17: 1, 18: 2, 20: 8, 21: 8, 22: 1}
ARRAY, STRUCTURE, BOOLEAN, BITS, NUMBER, OCTETS, VISIBLE, INTEGER = 1, 2, 3, 4, 6, 9, 10, 15
DEEPEST = 8


class Refused(Exception):
    """Bytes that are no request."""


class Bytes:
    """Bytes that are read from the front."""

    def __init__(self, data):
        self.data, self.at = data, 0

    def take(self, count):
        """The next bytes."""
        self.at += count
        if self.at > len(self.data):
            raise Refused
        return self.data[self.at - count:self.at]

    def number(self, count):
        """The next bytes as a number."""
        return int.from_bytes(self.take(count), "big")

    def length(self):
        """The length that stands next."""
        first = self.number(1)
        if first == 0x80 or first > 0x84:
            raise Refused
        return first if first < 0x80 else self.number(first - 0x80)

    def value(self, depth=1):
        """The Data that stands next: its tag, and what it is."""
        if depth > DEEPEST:
            raise Refused
        tag = self.number(1)
        if tag in SIZES:
            return tag, self.take(SIZES[tag])
        if tag in (ARRAY, STRUCTURE):
            return tag, [self.value(depth + 1) for _ in range(self.length())]
        if tag not in (BITS, OCTETS, VISIBLE):
            raise Refused
        count = self.length()
        return tag, self.take(-(-count // 8) if tag == BITS else count)


class Ask(typing.NamedTuple):
    """A request: its service, its invoke byte, whom it asks, the attribute or the method, and its parameter, or None."""

    service: int
    invoke: int
    kind: int
    instance: bytes
    number: int
    parameter: tuple | None

    def is_confirmed(self):
        """Whether it wants a response."""
        return bool(self.invoke & 0x40)

    def refusal(self):
        """The code by which it is refused whoever is asked, and None if it may be served."""
        if self.instance not in OBJECTS:
            return UNDEFINED
        kind, attributes = OBJECTS[self.instance]
        if self.kind != kind:
            return INCONSISTENT
        is_transfer = self.instance == TRANSFER
        if self.service == GET:
            return None if 1 <= self.number <= attributes else DENIED
        if self.service == SET:
            if not (is_transfer and self.number == 5):
                return DENIED
            return None if self.parameter[0] == BOOLEAN else UNMATCHED
        if not (is_transfer and 1 <= self.number <= METHODS):
            return DENIED
        return None if self.has_shape() else UNMATCHED

    def has_shape(self):
        """Whether the parameter of a method is of its shape."""
        if self.parameter is None:
            return False
        tag, value = self.parameter
        if self.number > 2:
            return tag == INTEGER
        return tag == STRUCTURE and [it for it, _ in value] == ([OCTETS, NUMBER] if self.number == 1 else [NUMBER, OCTETS])

    def pair(self):
        """The two elements of a structure."""
        (_, first), (_, second) = self.parameter[1]
        return first, second


def ask_in(apdu):
    """The request that an APDU is, and None if it is none."""
    bytes_in = Bytes(apdu)
    try:
        service, form, invoke = bytes_in.take(3)
        if service not in (GET, SET, ACTION) or form != 1:
            return None
        kind, instance, number, more = bytes_in.number(2), bytes_in.take(6), bytes_in.number(1), bytes_in.number(1)
        if service != ACTION and more:
            return None
        parameter = bytes_in.value() if service == SET or more and service == ACTION else None
    except Refused:
        return None
    return Ask(service, invoke, kind, instance, number, parameter) if bytes_in.at == len(apdu) else None


def length(count):
    """A length in A-XDR, in its shortest form."""
    if count < 0x80:
        return bytes([count])
    size = (count.bit_length() + 7) // 8
    return bytes([0x80 + size]) + count.to_bytes(size, "big")


def octets(data):
    """The Data of an octet-string."""
    return bytes([OCTETS]) + length(len(data)) + data


def unwrapped(datagram, port=1):
    """The source wPort and the APDU of a datagram to a wPort, and None if it is none."""
    if len(datagram) < 8:
        return None
    version, source, dest, size = struct.unpack_from(">HHHH", datagram)
    return (source, datagram[8:]) if (version, dest) == (1, port) and size == len(datagram) - 8 <= 2304 else None
