"""Options of head ends and meters, each of which does what the help says. The datagrams are spelled by hand from docs/FORMATS.md."""

import hashlib
import socket
import struct
import time

from common import PATIENCE, SILENCE, Head, Members, Meter, bound, comes_in, listed, received, stays_silent, wants
from ends import GET_NAME, PROGRESS, HeadEnd, transfer, with_invoke_byte
from ports import PATIENT, listens_at, opening

GET_BLOCK_SIZE = "000100010001000dc001c1001200002c0000ff0200"


def replied(meter, at, tail):
    """Answers the next datagram of a head end, with its invoke byte. What it asked for."""
    asked, _ = received(meter)
    apdu = bytes.fromhex(asked)[8:]
    reply = bytes([apdu[0] + 4, 1, apdu[2]]) + bytes.fromhex(tail)
    meter.sendto(bytes.fromhex("000100010001") + len(reply).to_bytes(2, "big") + reply, at)
    return apdu


def blocks_at_once(folder, *words):
    """How many blocks come to a meter before it answers one, of an image of ten blocks of a byte."""
    meter = bound()
    listed(folder, [meter.getsockname()])
    with HeadEnd(folder, *opening(folder, image=b"ten blocks"), *PATIENT, *words).running() as head:
        at = listens_at(head)
        # The block size, the enable and the initiate: a GET answers with 00 and a Data, a SET with a code, an ACTION with a code and 00.
        asked = [replied(meter, at, tail)[:2] for tail in ("000600000001", "00", "0000")]
        wants(asked == [b"\xc0\x01", b"\xc1\x01", b"\xc3\x01"], f"it asks {asked}")
        count = 0
        while comes_in(meter, SILENCE):
            apdu = bytes.fromhex(received(meter)[0])[8:]
            # Method 2 of Image transfer, and in its parameter the number of the block.
            wants(apdu[11:14] == b"\x02\x01\x02" and apdu[16:20] == count.to_bytes(4, "big"), f"block {count} is {apdu.hex()}")
            count += 1
    return count


# To be seen: a head end that ignores --width, or sends its blocks in another order.
def the_width_is_kept(place):
    """So many blocks are sent to a meter at a time: 4, or those of --width."""
    for words, want in (((), 4), (("--width", "1"), 1), (("--width", "7"), 7)):
        count = blocks_at_once(place.sub(f"{want}").folder, *words)
        wants(count == want, f"with {words} it sends {count} blocks at a time")


# To be seen: a socket that sends less than a datagram has.
def a_block_comes_whole(place):
    """A block of the greatest size comes to its meter in one datagram."""
    meter, image = bound(), bytes(range(256)) * 4
    listed(place.folder, [meter.getsockname()])
    with HeadEnd(place.folder, *opening(place.folder, image=image), *PATIENT).running() as head:
        at = listens_at(head)
        for tail in ("000600000400", "00", "0000"):
            replied(meter, at, tail)
        got, _ = received(meter)
    *_, block = transfer(image)
    wants(got == with_invoke_byte(block, got[20:22]), f"in place of {block} it sends {got}")


# Linux: the system tells when a datagram came, in seconds and nanoseconds.
SO_TIMESTAMPNS = 35


def arrival(sock):
    """When the next datagram came, in seconds."""
    wants(comes_in(sock, PATIENCE), "nothing comes")
    _, [(_, _, stamp), *_], _, _ = sock.recvmsg(65535, 64)
    seconds, nanoseconds = struct.unpack("=qq", stamp[:16])
    return seconds + nanoseconds / 1e9


def asked_again(folder, resend):
    """The seconds after which a meter that doesn't answer is asked again."""
    with bound() as meter:
        meter.setsockopt(socket.SOL_SOCKET, SO_TIMESTAMPNS, 1)
        listed(folder, [meter.getsockname()])
        with HeadEnd(folder, *opening(folder), "--resend", resend).running():
            first, second = arrival(meter), arrival(meter)
    return second - first


# To be seen: a head end that ignores --resend, doesn't ask again, or waits too long at its socket; one that ends though it is to stay, or
# stays though it isn't.
def a_head_end_waits_and_stays(place):
    """A meter that doesn't answer is asked again after --resend, the first retry wait, and not before; and with --stay a head end without live
    rows goes on."""
    # It is waited for from when the head end was about to send.
    seconds = asked_again(place.sub("late").folder, "800")
    wants(seconds > 0.5, f"it is asked again after {seconds:.3f} s")
    # Each wait at the socket is of 5 ms at most. The machine may be late, but not each time.
    wants(any(asked_again(place.sub(f"soon{number}").folder, "100") < 0.25 for number in range(5)), "it is asked again late")
    meter = bound()
    folder = place.sub("staying").folder
    listed(folder, [])
    with HeadEnd(folder, "--new", "--stay").running() as head:
        listens_at(head)
        stays_silent(meter)
        wants(head.process.poll() is None, "with --stay it ends")
    lines = HeadEnd(folder).over(patience=PATIENCE)
    wants(lines[1:] == ["over done 0 failed 0"], f"without it it prints {lines}")


# To be seen: a head end that ignores --every.
def progress_is_told(place):
    """With --every 1 a head end tells how far it is in a progress line within seconds, and with --every 0 it doesn't."""
    meter = bound()
    heads = []
    for every in ("0", "1"):
        folder = place.sub(every).folder
        listed(folder, [meter.getsockname()])
        heads.append(HeadEnd(folder, *opening(folder), "--resend", "100", "--every", every))
    with heads[0].running() as silent, heads[1].running() as telling:
        line = telling.process.stderr.readline().rstrip("\n")
        wants(PROGRESS.fullmatch(line) and line.startswith("0/0 blocks, 1 live, 0 done, 0 failed, "), f"it tells {line}")
        silent.process.kill()
        said = silent.process.communicate()[1]
        wants(said == "", f"with --every 0 it tells {said}")


# To be seen: a head end that doesn't count blocks, or that tells no time for those that are left, or one that is far off.
def blocks_and_the_time_left_are_told(place):
    """While a meter takes 50 blocks a second at most, a head end tells how many it has. Its second line tells how long the others take."""
    meter, size = bound(), 200
    listed(place.folder, [meter.getsockname()])
    with HeadEnd(place.folder, *opening(place.folder, image=bytes(size)), *PATIENT, "--width", "1", "--every", "1").running() as head:
        at, end = listens_at(head), time.monotonic() + 2.6
        for tail in ("000600000001", "00", "0000"):
            replied(meter, at, tail)
        while time.monotonic() < end:
            replied(meter, at, "0000")
            time.sleep(0.02)
        head.process.kill()
        lines = head.process.communicate()[1].splitlines()
    found = [PROGRESS.fullmatch(line) for line in lines]
    wants(len(found) == 2 and all(found) and all(len(line) <= 80 for line in lines), f"it tells {lines}")
    known = [int(line["known"]) for line in found]
    wants(0 < known[0] < known[1] < size, f"it tells {lines}")
    wants(all((line["needed"], line["percent"]) == (f"{size}", f"{100 * count // size}") for line, count in zip(found, known)), f"it tells {lines}")
    wants([bool(line["left"]) for line in found] == [False, True], f"it tells {lines}")
    seconds, want = int(found[1]["left"].removesuffix("s")), (size - known[1]) / (known[1] - known[0])
    wants(want / 2 - 1 < seconds < 2 * want + 1, f"it tells {lines}")


# To be seen: a meter, or a fleet, that ignores --block-size, --capacity or --factory-file.
def a_new_meter_is_as_asked_for(place):
    """A new meter has the block size, the capacity and the image that its options say, alone and in a fleet, and keeps them."""
    factory = place.folder / "factory"
    factory.write_bytes(b"factory image")
    words = ["--block-size", "7", "--capacity", "100", "--factory-file", factory]
    name = "000100010001002fc401c1000929010000000000000000" + hashlib.sha256(b"factory image").hexdigest()
    head = Head()

    def asked(meter):
        wants(head.ask(meter, GET_BLOCK_SIZE) == "0001000100010009c401c1000600000007", "the block size isn't 7")
        wants(head.ask(meter, GET_NAME) == name, "another image runs")

    with Meter(place.folder / "meter.fw", *words).killed() as meter:
        asked(meter)
    fleet = Members(place.folder, 2, *words)
    with fleet.meter.killed():
        for meter in fleet.at:
            asked(meter)
    # A header of version 2 has 2,158 bytes; before it stand four, and in it two slots (docs/STORE.md).
    sizes = [(place.folder / it).stat().st_size for it in ("meter.fw", "fleet.fw.1", "fleet.fw.2")]
    wants(sizes == [2162 + 2 * 100] * 3, f"the stores have {sizes} bytes")
    with Meter(place.folder / "meter.fw", "--block-size", "9").killed() as meter:
        asked(meter)


STEPS = [the_width_is_kept, a_block_comes_whole, a_head_end_waits_and_stays, progress_is_told, blocks_and_the_time_left_are_told, a_new_meter_is_as_asked_for]
