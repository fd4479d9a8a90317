"""Audits of a meter and of a head end that are run here, by their captures, store and book as they are, and as they are not."""

import hashlib
import itertools
import json
import signal
import socket
import struct

from common import HOST, Head, Members, Meter, bound, listed, name_of, received, wants
from ends import GET_STATUS, STATUS, HeadEnd, action, opening, transfer, with_invoke_byte
from ports import records_of
from sealing import HEAD_TITLE, KEYS, METER_TITLE, OTHER_KEYS, head_keys, meter_keys, secret
from suite0 import opened, sealed

ROOM = ["--block-size", "1024", "--capacity", "8192"]
IMAGE = bytes(range(256)) * 8
# The bytes before the first record of a capture, those of the header of a record, and those before what a datagram of IPv4 has.
FRONT, RECORD, UDP = 24, 16, 28
# A book that has no record (docs/FORMATS.md).
NO_RECORD = b"FWJ1\0"


def led(place):
    """A meter that gets an image, is killed at the activate and started again: its address, its capture and its store."""
    capture, store, head = place.folder / "m.pcap", place.folder / "m.fw", Head()
    words = [*ROOM, "--capture", capture]
    with Meter(store, *words).killed() as meter:
        for line in (*transfer(IMAGE), action(3, "0f00")):
            head.ask(meter, line)
    at = "{}:{}".format(*meter.address)
    with Meter(store, *words, listen=at).killed() as meter:
        got = [head.ask(meter, line) for line in (GET_STATUS, action(4, "0f00"))]
    wants(got[0] == STATUS % 3, f"it says {got}")
    return at, capture, store


def places_of(capture):
    """Where each record of a capture begins, and where the last one ends."""
    sizes = (RECORD + len(packet) for _, packet in records_of(capture.read_bytes()))
    return [*itertools.accumulate(sizes, initial=FRONT)]


def audited(place, at, capture, store, *words):
    """The status of an audit, its lines that are none of files, and those of standard error."""
    (place.folder / "audited.csv").write_text(f"1,{at},{capture},{store}\n")
    status, out, said = place.run("audit", "--audited", "audited.csv", *ROOM, *words)
    return status, [line for line in out.splitlines() if not line.startswith("audited ")], said


# To be seen: an audit that takes a kill or a torn end for a departure, or tells another digest, or no image.
def what_a_meter_did_fits(place):
    """A capture and a store of a meter that was killed fit, also if a power cut took the end of its last reply, and each file has its digest."""
    at, capture, store = led(place)
    datagrams = len(places_of(capture)) - 3
    status, lines, said = audited(place, at, capture, store)
    digest = hashlib.sha256(IMAGE).hexdigest()
    wants((status, lines, said) == (0, [f"meter 1 ok {datagrams} datagrams 2 starts", f"activated 1 7 1 0 {digest}", "ok"], []),
          f"it ends with {status}, {lines} and {said}")
    _, out, _ = place.run("audit", "--audited", "audited.csv", *ROOM)
    whole, last = capture.read_bytes(), places_of(capture)[-2]
    torn = place.folder / "torn.pcap"
    torn.write_bytes(whole[:-1])
    status, lines, said = audited(place, at, torn, store)
    wanted = [f"cut {torn} {len(whole) - 1 - last} bytes", f"meter 1 ok {datagrams - 1} datagrams 2 starts", f"activated 1 7 1 0 {digest}", "ok"]
    wants((status, lines, said) == (0, wanted, []), f"without the end of its last record it ends with {status}, {lines} and {said}")
    for kind, file in (("capture", capture), ("store", store)):
        wants(f"audited {kind} {file} {hashlib.sha256(file.read_bytes()).hexdigest()}" in out.splitlines(), f"it prints {out}")


# To be seen: an audit that passes a reply that was changed, what is no capture, or the store of another meter; a departure without its record.
def what_it_did_not_departs(place):
    """A changed reply, what is no capture, and another store depart where they do."""
    at, capture, store = led(place)
    whole, places = capture.read_bytes(), places_of(capture)
    changed = place.folder / "changed.pcap"

    def departs(line, capture=changed, store=store):
        status, lines, said = audited(place, at, capture, store)
        told = [it.split(":")[0] for it in lines]
        wants((status, told, said) == (1, [f"departs {line}", "departs 1"], []), f"{line} is wanted: it ends with {status}, {lines} and {said}")

    for number in (2, len(places) - 2):
        turned = bytearray(whole)
        turned[places[number + 1] - 1] ^= 1
        changed.write_bytes(turned)
        departs(f"OtherReply {changed} {number} {places[number]} meter 1")
    changed.write_bytes(whole[:places[2]] + whole[places[3]:])
    departs(f"ReplyMissing {changed} 2 {places[2]} meter 1")
    changed.write_bytes(b"x" + whole[1:])
    departs(f"BadMagic {changed} 0 meter 1")
    changed.write_bytes(whole[:places[-3]])
    departs(f"OtherStore {store}")
    with Meter(place.folder / "new.fw", *ROOM).killed():
        pass
    departs(f"OtherStore {place.folder / 'new.fw'}", capture, place.folder / "new.fw")


# To be seen: a departure in the capture of several meters that doesn't say of which it is, or that names another.
def what_departs_names_its_meter(place):
    """Of two meters with one capture that one departs whose reply was changed, by its number; both, if the capture can't be read on."""
    head, capture, changed = Head(), place.folder / "m.pcap", place.folder / "changed.pcap"
    fleet = Members(place.folder, 2, *ROOM, "--capture", capture)
    with fleet.meter.killed():
        for at in fleet.at:
            wants(head.ask(at, GET_STATUS) == STATUS % 0, "a meter doesn't answer")
    whole, places = capture.read_bytes(), places_of(capture)
    wants(len(places) == 6, f"the capture has {len(places) - 1} records")
    lines = (f"{number},{{}}:{{}},{changed},{place.folder}/fleet.fw.{number}\n".format(*at.address) for number, at in enumerate(fleet.at, 1))
    (place.folder / "audited.csv").write_text("".join(lines))

    def told(data, *words):
        changed.write_bytes(data)
        status, out, said = place.run("audit", "--audited", "audited.csv", *ROOM, *words)
        wants((status, said) == (1, []), f"it ends with {status}, {out} and {said}")
        return [line for line in out.splitlines() if not line.startswith(("audited ", '{"audited":'))]

    # The last record is the second meter's reply.
    turned = whole[:-1] + bytes([whole[-1] ^ 1])
    fits, departs, last = told(turned)
    wants(fits == "meter 1 ok 2 datagrams 1 starts", f"of the first meter it says {fits}")
    wants(departs.startswith(f"departs OtherReply {changed} 4 {places[4]} meter 2: ") and last == "departs 1", f"it says {departs} and {last}")
    departs = json.loads(told(turned, "--report", "json")[1])
    wanted = {"departs": "OtherReply", "meter": 2, "offset": places[4], "path": str(changed), "record": 4}
    wants(wanted.items() < departs.items() and departs["why"], f"it says {departs}")
    for number, line in enumerate(told(b"x" + whole[1:])[:2], 1):
        wants(line == f"departs BadMagic {changed} 0 meter {number}: no record stands there", f"it says {line}")
    for number, line in enumerate(told(b"x" + whole[1:], "--report", "json")[:2], 1):
        wanted = {"departs": "BadMagic", "meter": number, "offset": 0, "path": str(changed), "why": "no record stands there"}
        wants(json.loads(line) == wanted, f"it says {line}")


# To be seen: an audit that doesn't look at rows or at switches, or takes any book for one that offers an image.
def rows_and_switches_are_borne_out(place):
    """With its book a meter fits that a head end led; without the meter the row departs, and with another book the switch."""
    capture, store, book = place.folder / "m.pcap", place.folder / "m.fw", place.folder / "head.book"
    with Meter(store, *ROOM, "--capture", capture).killed() as meter:
        listed(place.folder, [meter.address])
        HeadEnd(place.folder, "--new").over()
        none = book.read_bytes()
        HeadEnd(place.folder, *opening(place.folder, IMAGE)).over()
    at, digest = "{}:{}".format(*meter.address), hashlib.sha256(IMAGE).hexdigest()
    other = place.folder / "other.book"
    other.write_bytes(none)
    for lines, file, wanted in (
        (f"1,{at},{capture},{store}\n", book, {"departed": 0, "ok": True}),
        ("", book, {"departs": "NotAudited", "path": str(book), "row": {"campaign": 1, "head": 7, "meter": 1}}),
        (f"1,{at},{capture},{store}\n", other,
         {"departs": "NotOffered", "switch": {"activated": 1, "digest": digest, "head": 7, "release": 2, "serial": 1}}),
    ):
        (place.folder / "audited.csv").write_text(lines)
        status, out, said = place.run("audit", "--audited", "audited.csv", *ROOM, "--book", file, "--report", "json")
        told = [json.loads(line) for line in out.splitlines()]
        found = [{name: it[name] for name in wanted} for it in told if wanted.keys() <= it.keys()]
        wants((status, said, found) == (0 if "ok" in wanted else 1, [], [wanted]), f"{wanted} is wanted: it ends with {status}, {told} and {said}")
        wants(told[-1] == {"departed": status, "ok": not status}, f"the last line is {told[-1:]}")


# To be seen: a line that is taken though it is none of a list, another line that is told for it, or another cause, or none.
def a_bad_line_of_an_audit_is_told(place):
    """A line that is none of a list is told by its number, with what is wrong with it, and nothing is printed."""
    number, path = "the first field is no number from 0 to 4294967295", "a path is empty"
    for line, why in (
        ("2", "the line has fewer than four fields: a number, an address, a capture and a store"),
        ("2,127.0.0.1:9,a", "the line has fewer than four fields: a number, an address, a capture and a store"),
        ("2,127.0.0.1:9,a,b,c,d", "the line has more than five fields; no path has a comma"),
        ("second,127.0.0.1:9,a,b", number),
        ("-2,127.0.0.1:9,a,b", number),
        ("4294967296,127.0.0.1:9,a,b", number),
        ("2,localhost:9,a,b", "the second field is no address with a port, as 10.0.0.7:4059 or [fd00::7]:4059"),
        ("2,127.0.0.1:9,,b", path),
        ("2,127.0.0.1:9,a,", path),
        ("2,127.0.0.1:9,a,b,", path),
        ("1,127.0.0.1:10,a,b", "line 2 has the same meter"),
    ):
        (place.folder / "audited.csv").write_text(f"\n1,127.0.0.1:9,m.pcap,m.fw\n\n{line}\n")
        got = place.run("audit", "--audited", "audited.csv")
        wants(got == (1, "", ["dlmsfw: BadList 4", f"--audited audited.csv: {why}"]), f"at {line!r} it ends with {got}")


# ---- meters with keys


def led_with_keys(place):
    """A meter with keys that gets an image, each request twice. It is stopped until its verify, what doesn't open and a GET of the status wait for
    it: the turn that it takes in the middle ends the verification. Then a request comes that another one overtook. It is killed after the
    activate, started again, and asked with a counter that it had before. Its address, and that of its head end."""
    folder, image, head = place.folder, IMAGE * 4, bound()
    keys, titles = tuple(map(bytes.fromhex, KEYS)), (bytes.fromhex(HEAD_TITLE), bytes.fromhex(METER_TITLE))
    words = [*ROOM, "--capture", folder / "m.pcap", "--keys", meter_keys(folder, head.getsockname())]

    def send(meter, counter, line, keys=keys):
        head.sendto(sealed(keys, titles[0], counter, bytes.fromhex(line)[8:]), meter.address)

    def wants_status(status):
        reply = opened(keys, titles[1], bytes.fromhex(received(head)[0]))
        wants(reply == bytes.fromhex(STATUS % status)[8:], f"the reply to a GET of the status is {reply}")

    with Meter(folder / "m.fw", *words, "--new-counter").killed() as meter:
        for counter, line in enumerate(transfer(image)):
            send(meter, counter, line)
            send(meter, counter, line)
            received(head)
        meter.process.send_signal(signal.SIGSTOP)
        send(meter, 20, action(3, "0f00"))
        send(meter, 21, GET_STATUS, (bytes(16), bytes(16)))
        send(meter, 22, GET_STATUS)
        meter.process.send_signal(signal.SIGCONT)
        received(head)
        wants_status(3)
        for counter in (31, 30):
            send(meter, counter, GET_STATUS)
            wants_status(3)
        send(meter, 40, action(4, "0f00"))
        received(head)
    with Meter(folder / "m.fw", *words, listen=name_of(meter.address)).killed() as meter:
        send(meter, 0, GET_STATUS)
        received(head)
    return name_of(meter.address), name_of(head.getsockname())


# To be seen: a meter with keys that has no note of the turn that it takes where what came doesn't open; an audit that takes that, or what came
# again, for a request, or what came after a start for what came before; or that doesn't tell how much says nothing.
def what_a_meter_with_keys_did_fits(place):
    """A meter with keys fits by the key file of its head end, with all that it took."""
    at, head = led_with_keys(place)
    capture, digest = place.folder / "m.pcap", hashlib.sha256(IMAGE * 4).hexdigest()
    turns = capture.read_bytes().count(b"dlmsfw turn ")
    wants(turns == 1, f"its capture has {turns} turns")
    status, lines, said = audited(place, at, capture, place.folder / "m.fw", "--keys", f"{head},7,{head_keys(place.folder)}")
    # Ten requests of the transfer, the verify, four GET and the activate were taken, and each has its reply. Ten came again, and one didn't open.
    wanted = [f"passed {capture} 11 datagrams", "meter 1 ok 32 datagrams 2 starts", f"activated 1 7 1 0 {digest}", "ok"]
    wants((status, lines, said) == (0, wanted, []), f"it ends with {status}, {lines} and {said}")
    _, lines, _ = audited(place, at, capture, place.folder / "m.fw", "--keys", f"{head},7,{place.folder}/head.keys", "--report", "json")
    told = [it for it in map(json.loads, lines) if "passed" in it]
    wants(told == [{"datagrams": 11, "passed": str(capture)}], f"as JSON it tells {told}")


# To be seen: an audit that passes what a meter with keys didn't seal, or a counter that it used before; that opens with other keys, another title
# or another address, or what was overtaken though the meter was strict; that takes a meter without a link for one with keys.
def what_a_meter_with_keys_did_not_departs(place):
    """What a meter with keys didn't seal departs where it stands, and with another key, number or address, or none, its first reply does."""
    at, head = led_with_keys(place)
    folder, capture, changed = place.folder, place.folder / "m.pcap", place.folder / "changed.pcap"
    whole, places = capture.read_bytes(), places_of(capture)
    own, other = (f"{head},7,{file}" for file in (head_keys(folder), head_keys(folder, OTHER_KEYS, "other.keys")))
    secret(folder / "another.keys", f"2,{METER_TITLE},{','.join(KEYS)}\n")

    def departs(rule, number, keys, *words, data=whole):
        changed.write_bytes(data)
        status, lines, said = audited(place, at, changed, folder / "m.fw", *(["--keys", keys] if keys else []), *words)
        told = [it.split(":")[0] for it in lines if it.startswith("departs ")]
        wanted = [f"departs {rule} {changed} {number} {places_of(changed)[number]} meter 1", "departs 1"]
        wants((status, told, said) == (1, wanted, []), f"{wanted} are wanted: it ends with {status}, {lines} and {said}")

    # The records are the start, the first request, its reply, the request once more, ..; and last the reply to the one that was overtaken, the
    # activate and its reply, the second start, a request and its reply.
    for rule, keys in (("NothingOwed", None), ("NothingOwed", f"{head},7,{folder}/another.keys"), ("NotSealed", other),
                       ("NothingOwed", f"{head},8,{folder}/head.keys"), ("NoKey", f"{HOST}:9,7,{folder}/head.keys")):
        departs(rule, 2, keys)
    departs("NothingOwed", len(places) - 7, own, "--strict")
    turned = bytearray(whole)
    turned[places[3] - 1] ^= 1
    departs("NotSealed", 2, own, data=turned)
    departs("CounterUsed", 3, own, data=whole[:places[3]] + whole[places[2]:])
    departs("CounterUsed", len(places) - 1, own, data=whole + whole[places[2]:places[3]])
    changed.write_bytes(whole[:-1])
    for keys in (own, other):
        _, lines, _ = audited(place, at, changed, folder / "m.fw", "--keys", keys)
        wants(lines[0] == f"cut {changed} {len(whole) - 1 - places[-2]} bytes", f"of an end that is cut off it says {lines}")


# To be seen: a value that is taken though it is no head end with its keys; keys that are taken with captures of head ends; a key file that is none
# and has no name of a fault, or is told without its path.
def what_are_no_keys_of_an_audit_is_refused(place):
    """A value of --keys that is no address, number and path is a wrong command line, as keys with head ends are, and what is no key file a fault."""
    (place.folder / "audited.csv").write_text("")
    (place.folder / "head.book").write_bytes(NO_RECORD)
    right, run = f"--keys={HOST}:1,7,head.keys", ("audit", "--audited", "audited.csv")
    for text in ("", "head.keys", f"{HOST}:1", f"{HOST}:1,7", f"{HOST},7,a", f"{HOST}:65536,7,a", f"{HOST}:1,0,a", f"{HOST}:1,x,a",
                 f"{HOST}:1,4294967296,a", f"{HOST}:1,7,", f"{HOST}:1,7,a,b"):
        status, out, said = place.run(*run, f"--keys={text}")
        wants((status, out) == (2, "") and said[0].startswith("error: "), f"{text!r} ends with {status}, {out} and {said}")
    for words in (["--strict"], [right, "--head-log", f"{HOST}:1,a.pcap,head.book"]):
        status, out, said = place.run(*run, *words)
        wants((status, out) == (2, "") and said[0].startswith("error: "), f"{words} ends with {status}, {out} and {said}")
    got = place.run(*run, right)
    wants(got == (1, "", ["dlmsfw: KeysFault", "head.keys: there is no such file or folder"]), f"without the file it ends with {got}")
    keys = secret(place.folder / "head.keys", f"1,{METER_TITLE},{','.join(KEYS)},\n")
    got = place.run(*run, right)
    wants(got == (1, "", ["dlmsfw: BadKeys 1 BadFields", "head.keys"]), f"with a line that is none it ends with {got}")
    keys.chmod(0o644)
    got = place.run(*run, right)
    wants(got == (1, "", ["dlmsfw: KeysReadable", "head.keys"]), f"with a file for all it ends with {got}")


# ---- head ends


def led_by_a_head_end(place):
    """A meter that a head end led, of whose datagrams the first was lost: its address and that of the head end."""
    folder, silent = place.folder, bound()
    at = silent.getsockname()
    listed(folder, [at])
    head = HeadEnd(folder, "--new", *opening(folder, IMAGE), "--resend", "20", "--capture", folder / "head.pcap")
    with head.running():
        received(silent)
        silent.close()
        with Meter(folder / "m.fw", *ROOM, "--capture", folder / "m.pcap", listen=name_of(at)).killed():
            lines = head.over()
    (own,) = (line.split()[1] for line in lines if line.startswith("listening "))
    return name_of(at), own


def datagrams_of(capture):
    """The datagrams of a capture: the number of the record of each, where that begins, where it came from, and its bytes."""
    for number, (begin, (_, packet)) in enumerate(zip(places_of(capture), records_of(capture.read_bytes()))):
        if packet[9] == 17:
            source = f"{'.'.join(map(str, packet[12:16]))}:{struct.unpack_from('>H', packet, 20)[0]}"
            yield number, begin, source, packet[UDP:]


def field_audited(place, at, *heads, book=None, form="lines"):
    """The status of an audit of the meter with these head ends, and with a book, its lines that are none of files, and those of standard error."""
    (place.folder / "audited.csv").write_text(f"1,{at},m.pcap,m.fw\n")
    logs = [word for head in heads for word in ("--head-log", head)] + (["--book", book] if book else [])
    status, out, said = place.run("audit", "--audited", "audited.csv", *ROOM, *logs, "--report", form)
    return status, [line for line in out.splitlines() if not line.startswith(("audited ", '{"audited"'))], said


# To be seen: an audit that takes what was lost for a departure, asks a clock, counts other datagrams, or doesn't look for an order.
def what_a_head_end_did_fits(place):
    """A meter and the head end that led it agree, though a datagram was lost, and each has its line."""
    at, own = led_by_a_head_end(place)
    digest = hashlib.sha256(IMAGE).hexdigest()
    counts = [sum(1 for _ in datagrams_of(place.folder / name)) for name in ("m.pcap", "head.pcap")]
    status, lines, said = field_audited(place, at, f"{own},head.pcap,head.book")
    wanted = [f"meter 1 ok {counts[0]} datagrams 1 starts", f"activated 1 7 1 2 {digest}", f"head 7 ok {counts[1]} datagrams 1 starts",
              "order ok 2 ends 0 others", "ok"]
    wants((status, lines, said) == (0, wanted, []), f"it ends with {status}, {lines} and {said}")
    status, lines, said = field_audited(place, at, f"{own},head.pcap,head.book", form="json")
    told = [json.loads(line) for line in lines[2:]]
    wanted = [{"datagrams": counts[1], "head": 7, "ok": True, "starts": 1}, {"ends": 2, "ok": True, "others": 0}, {"departed": 0, "ok": True}]
    wants((status, told, said) == (0, wanted, []), f"as JSON it ends with {status}, {told} and {said}")
    _, lines, _ = field_audited(place, at)
    wants(lines[-1] == "ok" and len(lines) == 3, f"without the head end it says {lines}")


# To be seen: an order that passes what was never sent, or uses a datagram up; a head end that may send anything, or to anybody; a done row that
# nobody claimed; a capture of meters that is taken for one of a head end.
def what_a_head_end_did_not_departs(place):
    """What a head end didn't send, what it isn't offered to send, a claim that didn't come, and files that aren't its own depart where they do."""
    at, own = led_by_a_head_end(place)
    folder = place.folder
    sent, came = folder / "head.pcap", folder / "m.pcap"
    whole, places, ask = sent.read_bytes(), places_of(sent), f"{own},changed.pcap,head.book"

    def departs(head, *wanted, book=None):
        status, lines, said = field_audited(place, at, head, book=book)
        told = [line.split(":")[0] for line in lines if line.startswith("departs ")]
        wants((status, told, said) == (1, [*(f"departs {line}" for line in wanted), f"departs {len(wanted)}"], []),
              f"{wanted} are wanted: it ends with {status}, {lines} and {said}")

    def without(*numbers):
        kept = [whole[begin:end] for number, (begin, end) in enumerate(zip(places, places[1:])) if number not in numbers]
        (folder / "changed.pcap").write_bytes(whole[:FRONT] + b"".join(kept))

    asked = [(number, data) for number, _, source, data in datagrams_of(sent) if source == own]
    answered = {data: (number, begin) for number, begin, source, data in reversed([*datagrams_of(came)]) if source == own}
    # One that was sent once, and came.
    number, data = next((number, data) for number, data in asked if data in answered and [it for _, it in asked].count(data) == 1)
    record, begin = answered[data]
    without(number)
    departs(ask, f"NeverSent m.pcap {record} {begin} meter 1")
    turned = bytearray(whole)
    turned[places[number + 1] - 1] ^= 1
    (folder / "changed.pcap").write_bytes(turned)
    departs(ask, f"NotOffered changed.pcap {number} {places[number]} head 7", f"NeverSent m.pcap {record} {begin} meter 1")
    reply, at_reply = next((it, begin) for it, begin, source, _ in datagrams_of(sent) if source == at)
    turned = bytearray(whole)
    turned[places[reply + 1] - 1] ^= 1
    (folder / "changed.pcap").write_bytes(turned)
    departs(ask, f"NeverSent changed.pcap {reply} {at_reply} head 7")
    digest = hashlib.sha256(IMAGE).digest()
    without(*(it for it, _, source, data in datagrams_of(sent) if source == at and data.endswith(digest)))
    departs(ask, "NotClaimed head.book 7 1 1")
    departs(f"{own},m.pcap,head.book", f"StartedAsMeter m.pcap 0 {FRONT} head 7")
    (folder / "empty.book").write_bytes(NO_RECORD)
    departs(f"{own},head.pcap,empty.book", f"NotOffered 1 7 1 2 {digest.hex()}", "NoBook empty.book")
    departs(f"{own},head.pcap,empty.book", "NoBook empty.book", book="head.book")
    # Who has the address of the head end once that has ended asks the meter.
    with Meter(folder / "m.fw", *ROOM, "--capture", came, listen=at).killed() as meter, socket.socket(socket.AF_INET, socket.SOCK_DGRAM) as other:
        other.bind((HOST, int(own.rsplit(":", 1)[1])))
        # No head end sends this invoke byte.
        other.sendto(bytes.fromhex(with_invoke_byte(GET_STATUS, "41")), meter.address)
        received(other)
    *_, (last, begin, _, _), _ = datagrams_of(came)
    departs(f"{own},head.pcap,head.book", f"NeverSent m.pcap {last} {begin} meter 1")


# To be seen: a value that is taken though it is no head end; a file that isn't there and has no name of a fault.
def what_is_no_head_end_is_refused(place):
    """A value of --head-log that is no address with two paths is a wrong command line, and a capture that isn't there a fault."""
    (place.folder / "audited.csv").write_text("")
    (place.folder / "head.book").write_bytes(NO_RECORD)
    for text in ("", "head.pcap", f"{HOST}:1", f"{HOST}:1,a", f"{HOST}:1,a,b,c", f"{HOST},a,b", f"{HOST}:1,,b", f"{HOST}:1,a,", f"{HOST}:65536,a,b"):
        status, out, said = place.run("audit", "--audited", "audited.csv", f"--head-log={text}")
        wants((status, out) == (2, "") and said[0].startswith("error: "), f"{text!r} ends with {status}, {out} and {said}")
    status, out, said = place.run("audit", "--audited", "audited.csv", "--head-log", f"{HOST}:1,none.pcap,head.book")
    wanted = ["dlmsfw: CaptureFault", "none.pcap: there is no such file or folder"]
    wants((status, said) == (1, wanted), f"it ends with {status}, {out} and {said}")


STEPS = [
    what_a_meter_did_fits,
    what_it_did_not_departs,
    what_departs_names_its_meter,
    rows_and_switches_are_borne_out,
    a_bad_line_of_an_audit_is_told,
    what_a_meter_with_keys_did_fits,
    what_a_meter_with_keys_did_not_departs,
    what_are_no_keys_of_an_audit_is_refused,
    what_a_head_end_did_fits,
    what_a_head_end_did_not_departs,
    what_is_no_head_end_is_refused,
]
