"""What is found of meters, and audits of it, as `hostile/audits` tries them."""

import hashlib
import pathlib
import re
import shutil
import struct
import subprocess

from ends import Fleet, Killed, Meter, program, wants
from packets import FRONT, RECORD

# The options of a meter that an audit has too.
SHARED = ("--block-size", "--capacity", "--factory-file")


class Subjects:
    """What is audited: a line for each meter, with the options of the audit, of which some are head ends."""

    def __init__(self, folder, *words):
        self.file, self.words, self.lines = folder / "audited.csv", words, []

    def add(self, number, address, capture, store, *began):
        """Adds a meter."""
        self.lines.append(",".join(map(str, (number, address, capture, store, *began))))
        return self

    def led_by(self, address, capture, book):
        """Adds a head end with its capture and its book."""
        self.words = (*self.words, "--head-log", f"{address},{capture},{book}")
        return self

    def audit(self):
        """The status of an audit, its lines that are none of files, and those of standard error. Each file has its digest."""
        self.file.write_text("".join(f"{line}\n" for line in self.lines))
        made = subprocess.run([*program, "audit", "--audited", self.file, *self.words], capture_output=True, text=True, timeout=120, check=False)
        lines = []
        for line in made.stdout.splitlines():
            found = re.fullmatch(r"audited (book|capture|store|journal) (.*) ([0-9a-f]{64})", line)
            if found:
                digest = hashlib.sha256(pathlib.Path(found[2]).read_bytes()).hexdigest()
                wants(digest == found[3], f"{line}, and its digest is {digest}")
            else:
                lines.append(line)
        return made.returncode, lines, made.stderr.splitlines()

    def fits(self, why):
        """The lines of an audit in which all fits, without the last, and without those of an end that is cut."""
        status, lines, said = self.audit()
        wants((status, lines[-1:], said) == (0, ["ok"], []), f"{why}: the audit ends with {status}, {lines[-3:]} and {said}")
        return [line for line in lines[:-1] if not re.fullmatch(r"cut .* \d+ bytes", line)]

    def departs(self, *wanted):
        """Fails if the audit doesn't end with just these departures, each told up to its colon."""
        status, lines, said = self.audit()
        told = [line.split(":")[0] for line in lines if line.startswith("departs ")]
        wants((status, told, said) == (1, [f"departs {line}" for line in wanted] + [f"departs {len(wanted)}"], []),
              f"{wanted} are wanted: the audit ends with {status}, {lines[-3:]} and {said}")

    def is_refused(self, *wanted):
        """Fails if the audit doesn't end with this fault, and these lines behind it."""
        status, lines, said = self.audit()
        name, *more = map(str, wanted)
        wants((status, said) == (1, [f"dlmsfw: {name}", *more]), f"{wanted} are wanted: it ends with {status}, {lines} and {said}")


def shown(line):
    """The number of datagrams and of starts that the line of a meter shows."""
    found = re.fullmatch(r"meter \d+ ok (\d+) datagrams (\d+) starts", line)
    wants(found, f"the line is {line}")
    return int(found[1]), int(found[2])


def name_of(address):
    """An address, as a list has it."""
    host, port = address
    return f"[{host}]:{port}" if ":" in host else f"{host}:{port}"


def digest(image):
    """The SHA-256 of an image, as lines have it."""
    return hashlib.sha256(image).hexdigest()


class Taped(Fleet):
    """Meters in processes of their own, each with a capture."""

    def start(self, number, listen, env=None):
        head = ["--head", self.heads[number], "--head", self.asker.address()] if number in self.heads else []
        return Meter(self.folder / f"{number}.fw", *self.words, "--capture", self.folder / f"{number}.pcap", *head, listen=listen, env=env)

    def subjects(self, *words):
        """All of them."""
        subjects = Subjects(self.folder, *self.words, *words)
        for number, address in self.addresses.items():
            subjects.add(number, address, self.folder / f"{number}.pcap", self.folder / f"{number}.fw")
        return subjects

    def stop(self):
        """Kills all."""
        for meter in self.meters.values():
            meter.kill()


class Journal:
    """A book by its records (docs/BOOK.md, docs/FORMATS.md)."""

    def __init__(self, path):
        data, at = path.read_bytes(), 4
        wants(data[:4] == b"FWJ1", f"a book begins with {data[:4]}")
        self.records = []
        while at < len(data) and data[at] == 1:
            size = int.from_bytes(data[at + 1:at + 5], "big")
            self.records.append(data[at + 5:at + 5 + size])
            at += 37 + size

    def write(self, path, records):
        """Writes a book of these records."""
        data = b"FWJ1"
        for record in records:
            data += b"\1" + struct.pack(">I", len(record)) + record + hashlib.sha256(record).digest()
        path.write_bytes(data + b"\0")
        return path


# ---- captures by their records


def records_of(capture):
    """The records of a capture, each with its header."""
    data, at, records = capture.read_bytes(), FRONT, []
    while at < len(data):
        size = struct.unpack_from("<I", data, at + 8)[0]
        records.append(data[at:at + RECORD + size])
        at += RECORD + size
    return records


def offset(records, number):
    """Where the record of this number begins."""
    return FRONT + sum(map(len, records[:number]))


def recorded(packet):
    """The record of a packet, at the start of 1970."""
    return struct.pack("<IIII", 0, 0, len(packet), len(packet)) + packet


def with_byte(data, at, change):
    """The same with one byte changed."""
    made = bytearray(data)
    made[at] ^= change
    return bytes(made)


def addresses_in(record):
    """Where the datagram of a record came from, and where it went; None if it is a note."""
    packet = record[RECORD:]
    if packet[0] >> 4 == 6:
        ports = struct.unpack_from(">HH", packet, 40)
        return (packet[8:24], ports[0]), (packet[24:40], ports[1])
    if packet[9] != 17:
        return None
    ports = struct.unpack_from(">HH", packet, 20)
    return (packet[12:16], ports[0]), (packet[16:20], ports[1])


def readdressed(record, ports):
    """The same between other ports, by those that it has, and so is an address that may ask."""
    made, text = bytearray(record), record[RECORD + 20:]
    places = (RECORD + 20, RECORD + 22) if addresses_in(record) else (len(record) - 2,) if text.startswith(b"dlmsfw may ask ") else ()
    for at in places:
        (port,) = struct.unpack_from(">H", record, at)
        struct.pack_into(">H", made, at, ports.get(port, port))
    return bytes(made)


# ---- meters that others run


class Evidence:
    """What there is of a meter: its capture, the store that it began from, if it didn't begin new, and the store that it left last."""

    def __init__(self, folder, store, words):
        folder.mkdir()
        self.folder, self.store, self.words, self.address = folder, store, words, "127.0.0.1:1"
        given = dict(zip(words, words[1:]))
        self.capture = pathlib.Path(given.get("--capture", folder / "meter.pcap"))
        self.began, self.left = self.copy("began.fw"), None

    def copy(self, name):
        """Copies the store with what is beside it, if it is there."""
        if not self.store.exists():
            return None
        for ending in ("", ".journal"):
            file, to = pathlib.Path(f"{self.store}{ending}"), self.folder / f"{name}{ending}"
            to.unlink(missing_ok=True)
            if file.exists():
                shutil.copy(file, to)
        return self.folder / name

    def keep(self):
        """Keeps the store as it is now."""
        self.left = self.copy("left.fw") or self.left

    def heads(self):
        """The addresses that may ask it, as its capture has them."""
        mapped = "::ffff:" if self.address.startswith("[::]") else ""
        given = [value for word, value in zip(self.words, self.words[1:]) if word == "--head"]
        return [f"[{mapped}{at.rsplit(':', 1)[0]}]:{at.rsplit(':', 1)[1]}" if mapped else at for at in given]

    def options(self):
        """The options of an audit of it."""
        words = [it for word, value in zip(self.words, self.words[1:]) if word in SHARED for it in (word, value)]
        return words + [it for head in self.heads() for it in ("--head", head)]

    def is_there(self):
        """Whether it was begun: one that is killed before that leaves no capture, or no store."""
        return self.left is not None and self.capture.exists()

    def add_to(self, subjects, number):
        """Adds it to what is audited."""
        return subjects.add(number, self.address, self.capture, self.left, *([self.began] if self.began else []))


class Field:
    """All meters that a script runs, each with a capture from its beginning on. One that is started again at its address over its store goes on
    with its capture; at another one, or without a store, it begins anew."""

    def __init__(self, folder):
        self.folder, self.found, self.last = folder, [], {}

    def evidence(self, store, words, listen):
        """What there is of the meter that is started so."""
        last = self.last.get(store)
        if last and store.exists() and listen == last.address:
            return last
        made = Evidence(self.folder / str(len(self.found)), store, words)
        self.found.append(made)
        self.last[store] = made
        return made

    def meters(self):
        """A kind of meters that leave this."""
        field = self

        class Found(Meter):
            """A meter with a capture, if it is one of its process."""

            def __init__(self, store, *words, listen="127.0.0.1:0", env=None):
                words = [str(word) for word in words]
                self.evidence = None if "--count" in words else field.evidence(pathlib.Path(store), words, listen)
                if self.evidence and "--capture" not in words:
                    words += ["--capture", str(self.evidence.capture)]
                try:
                    super().__init__(store, *words, listen=listen, env=env)
                except Killed:
                    self.keep()
                    raise
                if self.evidence:
                    self.evidence.address = name_of(self.address)

            def keep(self):
                """Keeps what it leaves."""
                if self.evidence:
                    self.evidence.keep()

            def kill(self):
                is_first = not self.process.stdout.closed
                lines = super().kill()
                if is_first:
                    self.keep()
                return lines

        return Found

    def fits(self, why):
        """Audits each of them by itself: all fit. How many they are."""
        found = [one for one in self.found if one.is_there()]
        for one in found:
            one.add_to(Subjects(self.folder, *one.options()), 1).fits(f"{why}, {one.store.name}")
        return len(found)

    def fits_books(self, why):
        """Audits the meters of each folder that has a book, by their numbers, with that: all fit. How many books there are."""
        folders = {one.store.parent for one in self.found if (one.store.parent / "head.book").exists()}
        for folder in sorted(folders):
            found = {one.store.stem: one for one in self.found if one.store.parent == folder and one.is_there()}
            options = {word for one in found.values() for word in zip(one.options()[::2], one.options()[1::2])}
            subjects = Subjects(self.folder, *(it for pair in sorted(options) for it in pair), "--book", folder / "head.book")
            for number, one in found.items():
                one.add_to(subjects, number)
            subjects.fits(f"{why}, {folder.name}")
        return len(folders)
