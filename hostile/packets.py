"""Captures and their packets, made and read apart from the program, as docs/FORMATS.md has them (pcap; RFC 768, RFC 791, RFC 8200)."""

import ipaddress
import socket
import struct
import typing

MILLISECOND = 1_000_000
# The bytes before the first record of a capture, and those of the header of a record.
FRONT, RECORD = 24, 16


def checksum(data):
    """The checksum of IP and UDP (RFC 1071)."""
    data += b"\0" * (len(data) % 2)
    total = sum(struct.unpack(f">{len(data) // 2}H", data))
    while total >> 16:
        total = (total & 0xFFFF) + (total >> 16)
    return 0xFFFF - total


def ipv4(protocol, ends, payload):
    """An IPv4 packet, between these two addresses."""
    header = struct.pack(">BBHHHBBH", 0x45, 0, 20 + len(payload), 0, 0x4000, 64, protocol, 0) + ends
    return header[:10] + struct.pack(">H", checksum(header)) + header[12:] + payload


def ipv6(protocol, ends, payload):
    """An IPv6 packet, between these two addresses."""
    return struct.pack(">IHBB", 6 << 28, len(payload), protocol, 64) + ends + payload


def udp(source, dest, data):
    """The IP packet of a UDP datagram."""
    ends = ipaddress.ip_address(source[0]).packed + ipaddress.ip_address(dest[0]).packed
    header = struct.pack(">HHHH", source[1], dest[1], 8 + len(data), 0)
    # The sum is the same over the two pseudo-headers.
    pseudo = ends + struct.pack(">II", len(header) + len(data), 17)
    total = checksum(pseudo + header + data) or 0xFFFF
    return (ipv4 if len(ends) == 8 else ipv6)(17, ends, header[:6] + struct.pack(">H", total) + data)


# How the numbers of a note stand behind its words. In a line of `trace` the two of a start of meters stand behind `count` and `heads`.
FORMS = {"strangers": ">Q", "turn": ">H", "unserved": ">H", "start head": ">I", "start meter": ">IQ"}


def note(line):
    """The packet of a note, by its line of `trace`: its words, and its numbers behind them. An address that may ask stands there as its bytes and
    its port."""
    words = line.replace(" count ", " ").replace(" heads ", " ").split(" ")
    name = " ".join(word for word in words if not word.isdigit())
    text = name.encode()
    if line.startswith("may ask "):
        host, _, port = words[2].rpartition(":")
        text = b"may ask " + ipaddress.ip_address(host.strip("[]")).packed + struct.pack(">H", int(port))
    elif name != line:
        text += b" " + struct.pack(FORMS[name], *(int(word) for word in words if word.isdigit()))
    return ipv4(253, 2 * socket.inet_aton("127.0.0.1"), b"dlmsfw " + text)


def line_of(text):
    """The line of `trace` of a note, by its text."""
    text = text.removeprefix(b"dlmsfw ")
    if text.startswith(b"may ask "):
        host, port = str(ipaddress.ip_address(text[8:-2])), int.from_bytes(text[-2:], "big")
        return f"may ask [{host}]:{port}" if ":" in host else f"may ask {host}:{port}"
    for name, form in FORMS.items():
        if text.startswith(f"{name} ".encode()):
            numbers = struct.unpack(form, text[len(name) + 1 :])
            return "{} count {} heads {}".format(name, *numbers) if len(numbers) == 2 else f"{name} {numbers[0]}"
    return text.decode()


# What stands before a packet of each link.
LINKS = {
    101: b"",
    1: bytes(12) + b"\x08\x00",
    113: bytes(14) + b"\x08\x00",
    276: b"\x08\x00" + bytes(18),
}


def capture(packets, link=101, order="<", nano=True):
    """The capture of packets, a millisecond apart."""
    parts = [struct.pack(order + "IHHIIII", 0xA1B23C4D if nano else 0xA1B2C3D4, 2, 4, 0, 0, 65535, link)]
    for number, packet in enumerate(packets):
        frame = LINKS[link] + packet
        seconds, part = divmod(number * MILLISECOND, 1_000_000_000)
        parts.append(struct.pack(order + "IIII", seconds, part if nano else part // 1000, len(frame), len(frame)) + frame)
    return b"".join(parts)


class Packet(typing.NamedTuple):
    """What a record tells: its time, in nanoseconds, and a note, or a datagram."""

    time: int
    note: str = ""
    source: tuple = ()
    dest: tuple = ()
    data: bytes = b""


def packet_of(moment, packet):
    """What a packet tells."""
    is_four = packet[0] >> 4 == 4
    if is_four and packet[9] == 253:
        return Packet(moment, line_of(packet[20:]))
    begin, size = (12, 4) if is_four else (8, 16)
    header = begin + 2 * size
    source, dest = (str(ipaddress.ip_address(packet[at : at + size])) for at in (begin, begin + size))
    ports = struct.unpack_from(">HH", packet, header)
    return Packet(moment, "", (source, ports[0]), (dest, ports[1]), packet[header + 8 :])


def ends_of(whole):
    """Where the file header of a capture ends, and each record."""
    ends = [FRONT]
    while ends[-1] + RECORD <= len(whole):
        ends.append(ends[-1] + RECORD + struct.unpack_from("<I", whole, ends[-1] + 8)[0])
    return ends
