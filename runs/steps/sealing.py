"""Sealed links of meters and head ends, from files of keys that are written by hand. Their form is that of docs/FORMATS.md."""

import hashlib
import os
import time

from common import (HOST, PATIENCE, SILENCE, Head, Meter, Skipped, bound, free_address, has_ipv6, listed, name_of, received, stays_silent,
                    wait_for, wants)
from ends import GET_STATUS, STATUS, HeadEnd, fields_of
from ports import records_of
from suite0 import opened, parts_of, sealed

# The titles of head end 7 and of the meter, and the two keys of their link.
HEAD_TITLE, METER_TITLE = "4b5a424800000007", "4b5a424d00000001"
KEYS = ("000102030405060708090a0b0c0d0e0f", "d0d1d2d3d4d5d6d7d8d9dadbdcdddedf")
OTHER_KEYS = ("ff0102030405060708090a0b0c0d0e0f", KEYS[1])
IMAGE = bytes(range(256)) * 40
MISSING = "there is no such file or folder"


def secret(file, text):
    """Writes a file of keys, which its owner alone may read."""
    file.touch(mode=0o600)
    file.write_text(text)
    return file


def head_keys(folder, keys=KEYS, name="head.keys"):
    """The keys of a head end with meter 1."""
    return secret(folder / name, f"1,{METER_TITLE},{','.join(keys)}\n")


def meter_keys(folder, head):
    """The keys of meter 1 with head end 7 at this address."""
    return secret(folder / "meter.keys", f"{METER_TITLE}\n{name_of(head)},{HEAD_TITLE},{','.join(KEYS)}\n")


def led(folder, head, *words):
    """A head end at this address."""
    return HeadEnd(folder, *words, listen=name_of(head))


def opening(folder, serial, image=IMAGE):
    """The words that open a campaign."""
    (folder / "image").write_bytes(image)
    return ["--open", str(serial), "--image", folder / "image"]


def starts(folder, head, *words):
    """The meter with its keys, and its line in the list of the head end."""
    meter = Meter(folder / "meter.fw", "--keys", meter_keys(folder, head), *words)
    (folder / "meters.csv").write_text(f"1,{name_of(meter.address)}\n")
    return meter


def rows(folder):
    """The rows of the book, by their campaigns."""
    return [[campaign, state] for _, campaign, _, state, *_ in fields_of(folder)]


def brings(folder, head, serial, image, *words):
    """Runs a head end with its keys to its end, after which this image was brought in this campaign."""
    lines = led(folder, head, "--keys", head_keys(folder), *opening(folder, serial, image), *words).over()
    wants(lines[-1] == "over done 1 failed 0", f"the head end prints {lines}")


def activated(meter, serial, image):
    """Waits until the meter told that it switched to this image."""
    line = f"activated 7 {serial} 0 {hashlib.sha256(image).hexdigest()}\n"
    wait_for(lambda: line in meter.lines, f"the meter prints {meter.lines}, and not {line}")


# To be seen: a meter that answers what isn't sealed though it has keys, or answers a head end in plain words; ends that don't find their
# counters once they are started again; a head end that ignores its keys; a meter that takes them for another meter's.
def images_go_over_sealed_links(place):
    """Images are brought over sealed links, also once both ends were killed and go on with their counters. What isn't sealed gets no answer."""
    folder, head = place.folder, free_address()
    with starts(folder, head, "--new-counter").killed() as meter:
        brings(folder, head, 1, IMAGE, "--new", "--new-counter")
        activated(meter, 1, IMAGE)
        asker = Head()
        got = asker.ask(meter, GET_STATUS, SILENCE)
        wants(got == "-", f"a plain datagram gets {got}")
    with starts(folder, head).killed() as meter:
        brings(folder, head, 2, IMAGE[1:])
        activated(meter, 2, IMAGE[1:])
        wants(rows(folder) == [["1", "done"], ["2", "done"]], f"the book has {rows(folder)}")


# To be seen: a meter that takes what a head end sends in plain words from the right address; one that takes what was sealed under other keys.
def others_bring_nothing(place):
    """A head end without keys, and one with others, bring nothing to a meter with keys, from whichever address."""
    folder, head = place.folder, free_address()
    with starts(folder, head, "--new-counter").killed() as meter:
        keyed = ["--keys", head_keys(folder, OTHER_KEYS, "other.keys"), "--new-counter"]
        for name, words in (("plain", []), ("other", keyed)):
            (folder / name).mkdir()
            (folder / name / "meters.csv").write_text(f"1,{name_of(meter.address)}\n")
            with led(folder / name, head, "--new", *opening(folder / name, 1), "--resend", "20", *words).running() as process:
                wait_for(lambda: "opened" in process.process.stdout.readline(), "no campaign is opened")
                with bound() as asker:
                    asker.sendto(bytes.fromhex(GET_STATUS), meter.address)
                    stays_silent(asker, seconds=4 * SILENCE)
                wants(process.process.poll() is None, f"the head end ended with {process.process.poll()}")
            wants(rows(folder / name) == [["1", "live"]], f"the book has {rows(folder / name)}")
        wants(meter.lines == [], f"the meter prints {meter.lines}")


# To be seen: a meter that counts anew once it is started again, or seals twice with one counter; one that takes a request twice; a counter's
# file that has a record more after each start.
def counters_go_on(place):
    """A meter that is killed and started again goes on above all counters that it used, and the file of its counter doesn't grow by that."""
    file, keys, seen = place.folder / "meter.keys.counter", tuple(map(bytes.fromhex, KEYS)), []
    with bound() as head:
        for start in range(6):
            words = ["--keys", meter_keys(place.folder, head.getsockname()), *(["--new-counter"] if start == 0 else [])]
            with Meter(place.folder / "meter.fw", *words).killed() as meter:
                for counter in (2 * start, 2 * start + 1):
                    request = sealed(keys, bytes.fromhex(HEAD_TITLE), counter, bytes.fromhex(GET_STATUS)[8:])
                    head.sendto(request, meter.address)
                    reply = bytes.fromhex(received(head)[0])
                    got = opened(keys, bytes.fromhex(METER_TITLE), reply)
                    wants(got == bytes.fromhex(STATUS % 0)[8:], f"the reply is {reply.hex()}")
                    seen.append(parts_of(reply)[1])
                    head.sendto(request, meter.address)
                    stays_silent(head)
            # Four bytes, two records of 41, and one byte (docs/BOOK.md): what was reserved before this start, and a range more.
            wants(file.stat().st_size <= 87, f"after {start + 1} starts the counter has {file.stat().st_size} bytes")
    wants(seen == sorted({*seen}), f"the counters are {seen}")


# To be seen: a head end that lets through what is plain, what was changed, or what came before; one that doesn't tell of it, or counts what it
# let through too.
def what_does_not_open_is_counted(place):
    """A head end with keys tells how many datagrams it didn't let through: plain, changed, those that came before, and a stranger's."""
    folder, head = place.folder, free_address()
    # An answer that nobody asked for, as the meter seals it; and the same with a bit turned.
    right = sealed(tuple(map(bytes.fromhex, KEYS)), bytes.fromhex(METER_TITLE), 5, bytes.fromhex("c501c100"))
    changed = right[:-1] + bytes([right[-1] ^ 1])
    with bound() as meter, bound() as stranger:
        listed(folder, [meter.getsockname()])
        words = ["--keys", head_keys(folder), "--new-counter", "--resend", "200", "--every", "1"]
        with led(folder, head, "--new", *opening(folder, 1), *words).running() as process:
            received(meter)
            for datagram in (bytes.fromhex(GET_STATUS), changed, right, right):
                meter.sendto(datagram, head)
            stranger.sendto(right, head)
            lines = []
            while not lines[-1:] or "unopened" not in lines[-1] and len(lines) < 5:
                lines.append(process.process.stderr.readline())
        wants(lines[-1].endswith(", 4 unopened\n") and "strangers" not in lines[-1] and "faults" not in lines[-1], f"it tells {lines}")


# To be seen: a sealing port that counts no fault of the one below it, or others.
def faults_are_counted(place):
    """A head end with keys whose socket failed three times tells that, beside what it didn't let through."""
    folder, head = place.folder, free_address()
    with bound() as meter:
        listed(folder, [meter.getsockname()])
        words = ["--keys", head_keys(folder), "--new-counter", "--resend", "200", "--every", "1"]
        faulty = HeadEnd(folder, "--new", *opening(folder, 1), *words, listen=name_of(head), env=place.preloaded("faulty", FAULTS=3))
        with faulty.running() as process:
            received(meter)
            meter.sendto(bytes.fromhex(GET_STATUS), head)
            lines = []
            while not lines[-1:] or "unopened" not in lines[-1] and len(lines) < 5:
                lines.append(process.process.stderr.readline())
    wants(lines[-1].endswith(", 3 faults, 1 unopened\n"), f"it tells {lines}")


def longest_front(capture, at):
    """Of a capture, how many datagrams in a row the end at this address sent at most. Each record is a packet of IPv4 (docs/FORMATS.md)."""
    now = most = 0
    for _, packet in records_of(capture.read_bytes()):
        if packet[9] != 17:
            continue  # a note
        now = now + 1 if int.from_bytes(packet[20:22], "big") == at[1] else 0
        most = max(most, now)
    return most


# To be seen: a head end that lets a block overtake another one though each has to be sealed after the one before.
def strict_links_have_a_block_at_a_time(place):
    """With --strict one datagram is out at a time, and without it as many blocks as the width says."""
    folder, head = place.folder, free_address()
    with starts(folder, head, "--new-counter", "--strict").killed() as meter:
        for serial, words, want in ((1, ["--new", "--new-counter", "--strict", "--width", "7"], 1), (2, ["--width", "7"], 7)):
            capture = folder / f"{serial}.pcap"
            brings(folder, head, serial, IMAGE[serial:], *words, "--resend", "60000", "--capture", capture)
            activated(meter, serial, IMAGE[serial:])
            got = longest_front(capture, head)
            wants(got == want, f"with {words} it sends {got} datagrams in a row")


def held(folder):
    """The files of a folder, with their bytes, or with where they link to."""
    return {file.name: os.readlink(file) if file.is_symlink() else file.read_bytes() for file in folder.iterdir()}


def refused(place, fault, second, *words):
    """A command is refused for this fault, with this second line, and leaves the files as they were."""
    before = held(place.folder)
    said = place.run(*words)
    wants(said == (1, "", [f"dlmsfw: {fault}", second]), f"{words} ends with {said}")
    after = held(place.folder)
    wants(after == before, f"{words} leaves {sorted(after)} in place of {sorted(before)}")


# To be seen: a second line with another option or another file, or without the cause; a file that is made before all is judged; a counter that
# is made where one is there, or where none is asked for; keys that others may read and are taken.
def keys_and_counters_are_refused(place):
    """What is wrong with keys and counters is told, with the file that it is about, and no file is made."""
    folder, head = place.folder, free_address()
    keys, mine, list_of = head_keys(folder), meter_keys(folder, head), folder / "meters.csv"
    store, book, none = folder / "meter.fw", folder / "head.book", folder / "none"
    captured = ["--capture", folder / "capture.pcap"]
    list_of.write_text("1,127.0.0.1:9\n")
    meter = ["meter", "--listen", f"{HOST}:0", "--store", store, "--keys"]
    led_by = ["head", "--head", 7, "--book", book, "--new", "--meters", list_of, "--listen", f"{HOST}:0", "--keys"]
    for words, own in ((meter, mine), (led_by, keys)):
        refused(place, "KeysFault", f"--keys {none}: {MISSING}", *words, none, "--new-counter")
        own.chmod(0o644)
        refused(place, "KeysReadable", f"--keys {own}", *words, own, "--new-counter")
        own.chmod(0o600)
    refused(place, "NoCounter", f"--keys {mine}: {mine}.counter: {MISSING}", *meter, mine)
    refused(place, "NoCounter", f"--keys {keys}: {keys}.counter: {MISSING}", *led_by, keys)
    refused(place, "BadKeys 1 BadTitle", f"--keys {keys}", *meter, keys, "--new-counter")
    refused(place, "BadKeys 1 BadFields", f"--keys {mine}", *led_by, mine, "--new-counter")
    list_of.write_text("1,127.0.0.1:9\n3,127.0.0.1:10\n")
    refused(place, "NoKey 3", f"--keys {keys}", *led_by, keys, "--new-counter")
    list_of.write_text("1,127.0.0.1:9\n")
    for words, own in ((meter, mine), (led_by, keys)):
        counter = own.with_name(f"{own.name}.counter")
        counter.write_text("another program's file")
        refused(place, "CounterExists", f"--keys {own}: {counter}: a file is there already", *words, own, "--new-counter", *captured)
        refused(place, "CounterFault", f"--keys {own}: {counter}", *words, own)
        counter.unlink()
        os.symlink(none, counter)
        refused(place, "CounterExists", f"--keys {own}: {counter}: a file is there already", *words, own, "--new-counter", *captured)
        counter.unlink()
    for words in ([*meter, mine, "--count", 2], [*meter[:-1], "--new-counter"], [*led_by[:-1], "--strict"]):
        status, out, said = place.run(*words)
        wants((status, out) == (2, "") and said[0].startswith("error: "), f"{words} ends with {status}, {out} and {said}")


# To be seen: a counter of its own for each book, or each store, under the same keys.
def keys_have_one_counter(place):
    """Under the keys of a file one process seals at a time, whatever its book or its store is, and a new counter is made once."""
    folder, head = place.folder, free_address()
    keys, mine = head_keys(folder), meter_keys(folder, head)
    counters = [f"--keys {own}: {own}.counter: " for own in (mine, keys)]
    second_meter = ["meter", "--listen", f"{HOST}:0", "--store", folder / "second.fw", "--keys", mine]
    with starts(folder, head, "--new-counter").killed() as meter:
        refused(place, "CounterLocked", f"{counters[0]}another process has it open", *second_meter)
        refused(place, "CounterExists", f"{counters[0]}a file is there already", *second_meter, "--new-counter")
        brings(folder, head, 1, IMAGE, "--new", "--new-counter")
        activated(meter, 1, IMAGE)
        second = ["head", "--head", 7, "--book", folder / "second.book", "--new", "--meters", folder / "meters.csv", "--listen", f"{HOST}:0",
                  "--keys", keys]
        refused(place, "CounterExists", f"{counters[1]}a file is there already", *second, "--new-counter")
        with led(folder, head, "--keys", keys, "--stay").running() as process:
            wait_for(lambda: "listening" in process.process.stdout.readline(), "the head end doesn't listen")
            refused(place, "CounterLocked", f"{counters[1]}another process has it open", *second)
            wants(process.process.poll() is None, f"the head end ended with {process.process.poll()}")
    # Once the first one has ended, another store goes on with its counter.
    with Meter(folder / "second.fw", "--keys", mine).killed() as meter:
        (folder / "meters.csv").write_text(f"1,{name_of(meter.address)}\n")
        brings(folder, head, 2, IMAGE[1:])
        activated(meter, 2, IMAGE[1:])
    made = sorted(file.name for file in folder.iterdir() if "counter" in file.name)
    wants(made == ["head.keys.counter", "meter.keys.counter"], f"the counters are {made}")


# To be seen: a meter at all IPv6 addresses that looks for an IPv4 head end under the address that its key file has, and not the one that
# comes.
def ipv4_head_ends_are_heard_at_all_addresses(place):
    """A meter at [::] takes an image of an IPv4 head end of its keys, whose address stands there as IPv4 or as IPv4-mapped."""
    if not has_ipv6():
        raise Skipped("there is no IPv6")
    for name, host in (("plain", HOST), ("mapped", f"[::ffff:{HOST}]")):
        part, head = place.sub(name), free_address()
        keys = secret(part.folder / "meter.keys", f"{METER_TITLE}\n{host}:{head[1]},{HEAD_TITLE},{','.join(KEYS)}\n")
        with Meter(part.folder / "meter.fw", "--keys", keys, "--new-counter", listen="[::]:0").killed() as meter:
            listed(part.folder, [(HOST, meter.address[1])])
            brings(part.folder, head, 1, IMAGE, "--new", "--new-counter")
            activated(meter, 1, IMAGE)


# To be seen: an end that waits for what nobody writes; one that takes keys by another name, beside which they would have another counter; one
# that gives no reason where the counter can't be made.
def what_is_no_key_file_is_refused(place):
    """Keys are a regular file with one name, and their counter stands beside them: anything else is refused at once, and says why."""
    folder, head = place.folder, free_address()
    keys, mine = head_keys(folder), meter_keys(folder, head)
    (folder / "meters.csv").write_text("1,127.0.0.1:9\n")
    meter = ["meter", "--listen", f"{HOST}:0", "--store", folder / "meter.fw", "--new-counter", "--keys"]
    led_by = ["head", "--head", 7, "--book", folder / "head.book", "--new", "--meters", folder / "meters.csv", "--listen", f"{HOST}:0",
              "--new-counter", "--keys"]
    why = "it is a link, or no regular file, or has another name as well"
    for words, own in ((meter, mine), (led_by, keys)):
        other = folder / "other"
        for make in (lambda: os.mkfifo(other, 0o600), other.mkdir, lambda: other.symlink_to(own), lambda: other.hardlink_to(own)):
            make()
            at_once(place, "KeysFault", f"--keys {other}: {why}", *words, other)
            if other.is_dir():
                other.rmdir()
            else:
                other.unlink()
    # Whoever may write anywhere isn't refused.
    if os.getuid():
        folder.chmod(0o500)
        for words, own in ((meter, mine), (led_by, keys)):
            at_once(place, "CounterFault", f"--keys {own}: {own}.counter.new: the right to do so is missing", *words, own)
        folder.chmod(0o700)


def at_once(place, fault, second, *words):
    """A command is refused for this fault, with this second line, before long."""
    start = time.monotonic()
    said = place.run(*words)
    wants(said == (1, "", [f"dlmsfw: {fault}", second]), f"{words} ends with {said}")
    wants(time.monotonic() < start + PATIENCE, f"{words} takes {time.monotonic() - start} s")


STEPS = [
    images_go_over_sealed_links,
    others_bring_nothing,
    counters_go_on,
    keys_have_one_counter,
    ipv4_head_ends_are_heard_at_all_addresses,
    what_is_no_key_file_is_refused,
    what_does_not_open_is_counted,
    faults_are_counted,
    strict_links_have_a_block_at_a_time,
    keys_and_counters_are_refused,
]
