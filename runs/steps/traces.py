"""Captures of sealed links, which `trace` opens with the keys of their links. They are sealed here, by another implementation."""

import os
import re
import resource
import stat
import struct
import subprocess

import suite0
from common import PATIENCE, ROOT, comes_in, free_address, wants
from sealing import HEAD_TITLE, IMAGE, KEYS, METER_TITLE, MISSING, OTHER_KEYS, activated, brings, head_keys, refused, starts

HEAD_AT, METER_AT = ("10.0.0.7", 4058), ("10.0.1.1", 4059)
# What a capture begins with: nanoseconds, version 2.4, raw IP.
HEADER = struct.pack("<IHHiIII", 0xA1B23C4D, 2, 4, 0, 0, 65535, 101)


def packet(at, source, dest, data):
    """The record of a datagram."""
    (from_ip, from_port), (to_ip, to_port) = source, dest
    ends = b"".join(bytes(map(int, ip.split("."))) for ip in (from_ip, to_ip))
    head = struct.pack(">BBHHHBBH", 0x45, 0, 28 + len(data), 0, 0x4000, 64, 17, 0) + ends
    total = sum(struct.unpack(">10H", head))
    total = (total & 0xFFFF) + (total >> 16)
    head = head[:10] + struct.pack(">H", ~((total & 0xFFFF) + (total >> 16)) & 0xFFFF) + head[12:]
    # A checksum of 0 says that there is none.
    whole = head + struct.pack(">HHHH", from_port, to_port, 8 + len(data), 0) + data
    return struct.pack("<IIII", at, 7, len(whole), len(whole)) + whole


def exchanged(place):
    """The datagrams of an example, each request with the answer of a meter, and whether it is a request."""
    lines = (ROOT / "examples" / "transfer.hex").read_text()
    status, out, said = place.run("answer", text=lines)
    wants((status, said) == (0, []), f"answer ends with {status} and {said}")
    both = zip(lines.split(), out.split())
    return [(bytes.fromhex(line), line is asked) for asked, told in both for line in (asked, told) if line != "-"]


def captured(datagrams, change):
    """The capture of datagrams, each changed so."""
    made = [HEADER]
    for number, (data, is_asked) in enumerate(datagrams):
        source, dest = (HEAD_AT, METER_AT) if is_asked else (METER_AT, HEAD_AT)
        made.append(packet(number, source, dest, change(number, data, is_asked)))
    return b"".join(made)


def sealed_as(keys):
    """What seals each datagram under these keys, by the end that sends it, with its number as the counter."""
    keys = tuple(bytes.fromhex(key) for key in keys)

    def change(number, data, is_asked):
        return suite0.sealed(keys, bytes.fromhex(HEAD_TITLE if is_asked else METER_TITLE), number, data[8:])

    return change


def key_words(place):
    """The key file of the head end, as options of `trace`."""
    return ["--keys", head_keys(place.folder), "--head", 7]


def traced(place, capture, *words):
    """The lines that `trace` prints of a capture."""
    file = place.folder / "capture"
    file.write_bytes(capture)
    status, out, said = place.run("trace", *words, file)
    wants((status, said) == (0, []), f"trace {words} ends with {status} and {said}")
    return out.splitlines()


def behind(line):
    """What stands before the words of a line, and the words."""
    return line.split("  ", 1)


def unopened(line, number, size):
    """Whether a line tells a sealed datagram of so many bytes that isn't opened."""
    return behind(line)[1] == f"sealed {number} unopened ({size} bytes)"


# To be seen: what one end of a link sealed isn't opened; a counter that isn't that of the datagram; OUT has what was sealed as it was, or lacks a
# datagram; others may read OUT.
def sealed_captures_are_opened(place):
    """What either end sealed is told as its plain datagram is, behind its counter, and OUT has the plain datagrams."""
    datagrams, words, out = exchanged(place), key_words(place), place.folder / "out.pcap"
    plain, sealed = captured(datagrams, lambda _, data, __: data), captured(datagrams, sealed_as(KEYS))
    without = traced(place, plain)
    wants(len(without) == len(datagrams) > 4, f"there are {len(without)} lines of {len(datagrams)} datagrams")
    lines = traced(place, sealed, *words, "--plain", out)
    for number, (line, told) in enumerate(zip(lines, without, strict=True)):
        ends, said = behind(told)
        wants(line == f"{ends}  sealed {number} {said}", f"it tells {line} of {told}")
    wants(stat.S_IMODE(out.stat().st_mode) == 0o600, f"OUT may be read by {out.stat().st_mode:o}")
    wants(traced(place, out.read_bytes()) == without, "OUT has other datagrams")
    wants(traced(place, plain, *words) == without, "with keys it tells something else of plain datagrams")


# To be seen: what was sealed is told as opened without keys, or as noise; what another one sealed is told as opened; OUT lacks it, or has it changed.
def what_does_not_open_is_told_as_sealed(place):
    """What was sealed is told so without keys, and with keys if it was sealed under others or changed; in OUT it stands as it is."""
    datagrams, words = exchanged(place), key_words(place)

    def turned(number, data, is_asked):
        made = bytearray(sealed_as(KEYS)(number, data, is_asked))
        made[-1 - number % 12] ^= 1
        return bytes(made)

    for name, change, given in (("no keys", sealed_as(KEYS), []), ("others", sealed_as(OTHER_KEYS), words), ("turned", turned, words)):
        capture, out = captured(datagrams, change), place.folder / f"{name}.pcap"
        lines = traced(place, capture, *given, *(["--plain", out] if given else []))
        for number, (line, (data, is_asked)) in enumerate(zip(lines, datagrams, strict=True)):
            wants(unopened(line, number, len(change(number, data, is_asked))), f"{name}: it tells {line}")
        if given:
            wants(traced(place, out.read_bytes()) == traced(place, capture), f"{name}: OUT has other datagrams")


# To be seen: what a daemon seals isn't opened with its own key file.
def a_sealed_session_is_opened(place):
    """The capture of a head end that led a campaign over sealed links: each datagram is opened, and what they say is a campaign."""
    folder, head, capture = place.folder, free_address(), place.folder / "head.pcap"
    with starts(folder, head, "--new-counter").killed() as meter:
        brings(folder, head, 1, IMAGE, "--new", "--new-counter", "--capture", capture)
        activated(meter, 1, IMAGE)
    words, out = key_words(place), folder / "out.pcap"
    notes = ("start", "may ask", "turn", "unserved", "strangers")
    sealed = [line for line in traced(place, capture.read_bytes()) if not line.startswith(notes)]
    lines = [line for line in traced(place, capture.read_bytes(), *words, "--plain", out) if not line.startswith(notes)]
    plain = [line for line in traced(place, out.read_bytes()) if not line.startswith(notes)]
    wants(len(sealed) == len(lines) == len(plain) > 30, f"there are {len(sealed)}, {len(lines)} and {len(plain)} lines")
    for shut, line, told in zip(sealed, lines, plain):
        counter = re.fullmatch(r"sealed (\d+) unopened \(\d+ bytes\)", behind(shut)[1])
        wants(counter, f"without keys it tells {shut}")
        ends, said = behind(told)
        wants(line == f"{ends}  sealed {counter[1]} {said}" and not said.startswith("?"), f"it tells {line} of {told}")
    wants(any("  initiate campaign 7 1 " in line for line in plain), "there is no initiate")
    wants(any("  block 0 (1024 bytes)" in line for line in plain), "there is no block")


# To be seen: OUT is written over, or made though nothing is told; a fault names another file.
def wrong_files_of_a_trace_are_told(place):
    """A key file that is none, and an OUT that is there, are told by their options, and no file is made or changed."""
    capture, none, out = place.folder / "sealed.pcap", place.folder / "none", place.folder / "out.pcap"
    capture.write_bytes(captured(exchanged(place), sealed_as(KEYS)))
    words = key_words(place)
    keys = words[1]
    refused(place, "KeysFault", f"--keys {none}: {MISSING}", "trace", "--keys", none, "--head", 7, capture)
    keys.chmod(0o640)
    refused(place, "KeysReadable", f"--keys {keys}", "trace", *words, "--plain", out, capture)
    keys.chmod(0o600)
    keys.write_text("none\n")
    refused(place, "BadKeys 1 BadFields", f"--keys {keys}", "trace", *words, "--plain", out, capture)
    key_words(place)
    refused(place, "CaptureFault", f"{none}: {MISSING}", "trace", *words, "--plain", out, none)
    refused(place, "Input", f"{place.folder}: it is a folder", "trace", *words, "--plain", out, place.folder)
    out.write_bytes(b"another")
    refused(place, "CaptureFault", f"--plain {out}: a file is there already", "trace", *words, "--plain", out, capture)
    refused(place, "CaptureFault", f"--plain {none}/x: {MISSING}", "trace", *words, "--plain", none / "x", capture)
    for wrong in (["--plain", out], ["--head", 7], words[:2], [*words[:3], 0]):
        status, said, _ = place.run("trace", *wrong, capture)
        wants((status, said) == (2, ""), f"trace {wrong} ends with {status}")


# How many bytes of memory `trace` may ask for, and how many each datagram of a long capture has.
MEMORY, LONG = 64 << 20, 40_000


# To be seen: a capture is read as a whole before anything is told, or more of it is kept the longer it is; what stands before the place where it
# is cut isn't told, or the place isn't.
def long_captures_take_little_memory(place):
    """A capture that is longer than the memory which the program may have is told up to its end, and up to where it is cut."""
    record, file = packet(0, HEAD_AT, METER_AT, bytes(LONG)), place.folder / "long.pcap"
    count = 2 * MEMORY // len(record)
    with file.open("wb") as made:
        made.write(HEADER)
        made.writelines(record for _ in range(count))
    limit = {"preexec_fn": lambda: resource.setrlimit(resource.RLIMIT_AS, (MEMORY, MEMORY))}
    lines = [f"{number} 10.0.0.7:4058 -> 10.0.1.1:4059  ? ({LONG} bytes), wrapper Version" for number in range(count)]
    status, out, said = place.run("trace", file, **limit)
    wants((status, said) == (0, []), f"trace ends with {status} and {said}")
    wants(out.splitlines() == lines, f"of {count} datagrams it tells {len(out.splitlines())}")
    os.truncate(file, file.stat().st_size - 1)
    status, out, said = place.run("trace", file, **limit)
    at = len(HEADER) + (count - 1) * len(record)
    wants((status, said) == (1, [f"dlmsfw: BadCapture CutPacket {at}"]), f"cut at its last byte, trace ends with {status} and {said}")
    wants(out.splitlines() == lines[:-1], f"cut at its last byte, it tells {len(out.splitlines())} of {count - 1} datagrams")


# To be seen: lines wait for further packets, or for the end.
def what_comes_over_a_pipe_is_told_as_it_comes(place):
    """Each packet that comes over a pipe is told before the next one comes."""
    with subprocess.Popen([place.program, "trace"], stdin=subprocess.PIPE, stdout=subprocess.PIPE) as made:
        made.stdin.write(HEADER)
        for number in range(3):
            made.stdin.write(packet(number, HEAD_AT, METER_AT, b"\0"))
            made.stdin.flush()
            wants(comes_in(made.stdout, PATIENCE), f"packet {number} isn't told")
            line = os.read(made.stdout.fileno(), 999).decode()
            wants(line == f"{number} 10.0.0.7:4058 -> 10.0.1.1:4059  ? (1 bytes), wrapper Short\n", f"of packet {number} it tells {line}")
        made.stdin.close()
        wants(made.wait(PATIENCE) == 0, f"trace ends with {made.returncode}")


STEPS = [
    a_sealed_session_is_opened,
    sealed_captures_are_opened,
    what_does_not_open_is_told_as_sealed,
    wrong_files_of_a_trace_are_told,
    long_captures_take_little_memory,
    what_comes_over_a_pipe_is_told_as_it_comes,
]
