"""The loads that the programs of bench/ measure, and how they are measured.

A load is a line of `bench/loads/src/loads.rt.txt`, whose test of the built program of tests does it. The bytes in it are spelled here as
docs/FORMATS.md says.
"""

import hashlib
import os
import pathlib
import re
import subprocess
import sys

BENCH = pathlib.Path(__file__).resolve().parent
sys.path.insert(0, str(BENCH.parent / "tools"))

from text_crate import TextCrate  # noqa: E402

LOADS = TextCrate(BENCH / "loads")
TEST = "loads::loads_of_standard_input"
# What a test that passed prints after its own lines.
PASSED = "\ntest result: ok\n"
OBJECT = bytes.fromhex("001200002c0000ff")


def length(n):
    """A length of A-XDR in its shortest form."""
    short = [bytes([n])] if n < 0x80 else []
    longer = [bytes([0x80 + k]) + n.to_bytes(k, "big") for k in (1, 2, 3, 4) if n < 256**k]
    return (short + longer)[0]


def octets(value):
    return b"\x09" + length(len(value)) + value


def number(n):
    return b"\x06" + n.to_bytes(4, "big")


def structure(*fields):
    return b"\x02" + length(len(fields)) + b"".join(fields)


def datagram(apdu):
    """An APDU from wPort 1 to wPort 1."""
    return bytes.fromhex("000100010001") + len(apdu).to_bytes(2, "big") + apdu


def action(method, parameter):
    """ACTION of a method of the Image transfer object."""
    return datagram(bytes.fromhex("c301c1") + OBJECT + bytes([method, 1]) + parameter)


def transfer(block_size, blocks):
    """What moves an image of `blocks` blocks of bytes `a`: an enable, an initiate, the blocks, a verify and an activate."""
    image = b"a" * (block_size * blocks)
    name = b"\x01" + (7).to_bytes(4, "big") + (1).to_bytes(4, "big") + hashlib.sha256(image).digest()
    yield datagram(bytes.fromhex("c101c1") + OBJECT + bytes.fromhex("05000301"))
    yield action(1, structure(octets(name), number(len(image))))
    for block in range(blocks):
        yield action(2, structure(number(block), octets(b"a" * block_size)))
    yield action(3, b"\x0f\x00")
    yield action(4, b"\x0f\x00")


def load(word, first, second, strings=()):
    """The line of a load."""
    return " ".join([word, str(first), str(second), *(s.hex() for s in strings)]) + "\n"


def build():
    """Proves and builds the program of the loads, and does those whose counts are known, if that was not done since a source changed."""
    LOADS.build()


# The C library copies and sets by one instruction from some 2,048 bytes on, if the processor has it, and callgrind counts that once a
# byte. So the figures would be those of the machine: under callgrind it goes on with its other instructions.
COUNTED = "glibc.cpu.x86_rep_movsb_threshold=1073741824:glibc.cpu.x86_rep_stosb_threshold=1073741824"


def run(line, folder, tool=()):
    """Runs the program on a load in a folder, and gives the lines that it printed and its standard error."""
    env = {**os.environ, "GLIBC_TUNABLES": COUNTED} if tool else None
    done = subprocess.run([*tool, LOADS.program, TEST], cwd=folder, env=env, input=line.encode(), capture_output=True, check=True)
    return done.stdout.decode().removesuffix(PASSED).splitlines(), done.stderr.decode()


def instructions(line, folder):
    """The instructions of the whole program on a load, which callgrind counts."""
    tool = ["valgrind", "--tool=callgrind", "--callgrind-out-file=/dev/null"]
    return int(re.search(r"Collected : (\d+)", run(line, folder, tool)[1]).group(1))
