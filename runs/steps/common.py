"""What the steps of runs/sessions share: where a step is made, and what hostile/ has to make it with."""

import pathlib
import re
import select
import socket
import subprocess
import sys
import time
from dataclasses import dataclass

ROOT = pathlib.Path(__file__).resolve().parents[2]
HOSTILE = ROOT / "hostile"
sys.path[:0] = [str(HOSTILE), str(ROOT / "bench")]

from ends import Failed, Head, Meter, preloaded, script, wants  # noqa: E402, F401

HOST = "127.0.0.1"
# How long it is looked whether something comes that must not, in seconds; and how long it may take that something comes which must.
SILENCE, PATIENCE = 0.15, 20
# How many seconds a run may take, and a step: runs/sessions sets this.
LONGEST = 60


class Skipped(Exception):
    """Why a step can't be made here."""


@dataclass(frozen=True)
class Place:
    """Where a step is made: the program, a folder of its own, and the folder of what was compiled from C."""

    program: pathlib.Path
    folder: pathlib.Path
    libraries: pathlib.Path

    def library(self, name):
        """What can be preloaded to the program."""
        library = self.libraries / f"{name}.so"
        if not library.exists():
            raise Skipped("there is no C compiler, cc")
        return library

    def preloaded(self, name, **settings):
        """The environment of a program that this is preloaded to, with its settings."""
        return preloaded(self.library(name), **settings)

    def sub(self, name):
        """A place for one part of a step."""
        folder = self.folder / name
        folder.mkdir()
        return Place(self.program, folder, self.libraries)

    def run(self, *words, text="", **how):
        """Runs a command to its end. Its status, what it printed, and its lines on standard error."""
        made = subprocess.run([self.program, *map(str, words)], input=text, capture_output=True, text=True, timeout=LONGEST,
                              cwd=self.folder, check=False, **how)
        return made.returncode, made.stdout, made.stderr.splitlines()


def wait_for(holds, why, seconds=PATIENCE):
    """Waits until something holds."""
    end = time.monotonic() + seconds
    while not holds():
        wants(time.monotonic() < end, why)
        time.sleep(0.002)


# ---- sockets


def bound():
    """A socket of this machine."""
    made = socket.socket(socket.AF_INET, socket.SOCK_DGRAM)
    made.bind((HOST, 0))
    return made


def free_address():
    """An address that is free now."""
    with bound() as free:
        return free.getsockname()


def has_ipv6():
    """Whether a socket can be bound at all IPv6 addresses here."""
    try:
        with socket.socket(socket.AF_INET6, socket.SOCK_DGRAM) as made:
            made.bind(("::", 0))
    except OSError:
        return False
    return True


def name_of(at):
    """An address as an option has it."""
    host, port = at
    return f"{host}:{port}"


def comes_in(sock, seconds):
    """Whether a datagram is there, or comes in this time."""
    return bool(select.select([sock], [], [], seconds)[0])


def received(sock):
    """The next datagram in hexadecimal, and where it came from."""
    wants(comes_in(sock, PATIENCE), f"nothing comes to {sock.getsockname()}")
    data, sender = sock.recvfrom(65535)
    return data.hex(), sender


def stays_silent(*socks, seconds=SILENCE):
    """Fails if a datagram comes to one of these."""
    for sock in select.select(socks, [], [], seconds)[0]:
        raise Failed(f"{sock.recv(65535).hex()} comes to {sock.getsockname()}")


def listed(folder, addresses):
    """Writes the list of a head end: meters with these addresses, from number 1 on."""
    (folder / "meters.csv").write_text("".join(f"{number},{name_of(at)}\n" for number, at in enumerate(addresses, 1)))


# ---- meters in one process


@dataclass(frozen=True)
class At:
    """A meter by its address, as who asks it wants it."""

    address: tuple


class Members:
    """Meters 1 to N in one process, with their files."""

    def __init__(self, folder, count, *words, env=None):
        self.store = folder / "fleet.fw"
        self.meter = Meter(self.store, "--count", str(count), *words, env=env)
        wait_for(lambda: len(self.meter.lines) >= count - 1, "not each meter tells where it listens")
        others = [re.fullmatch(r"listening 127\.0\.0\.1:(\d+)\n", line) for line in self.meter.lines]
        wants(all(others), f"the meters print {self.meter.lines}")
        self.at = [At(self.meter.address), *(At((HOST, int(other[1]))) for other in others)]

    def file(self, number):
        """The bytes of the file of a meter."""
        return pathlib.Path(f"{self.store}.{number}").read_bytes()
