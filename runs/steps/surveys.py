"""What `survey` asks and tells, over UDP: of meters of ours, and of sockets that answer in a meter's place."""

import csv
import io
import json
import re
import subprocess
import time

from common import HOST, PATIENCE, Members, bound, comes_in, listed, name_of, received, stays_silent, wants

# The questions by hand: the wrapper's header (IEC 62056-4-7), GET.request-normal with the invoke-ids 0 to 3, the object and its attribute
# (IEC 62056-5-3), no selective access.
HEADER = "000100010001000d"
QUESTIONS = [HEADER + rest for rest in (
    "c001c0" "0001" "0100000200ff" "02" "00",
    "c001c1" "0012" "00002c0000ff" "02" "00",
    "c001c2" "0012" "00002c0000ff" "05" "00",
    "c001c3" "0012" "00002c0000ff" "06" "00",
)]
HEADINGS = "meter,state,head,campaign,release,digest,status,enabled,block_size,round_trip_us,offer"
# The headings of the table.
TABLE = "meter state  head camp release digest   stat on  block trip us offer"
# The SHA-256 of `abc` (FIPS 180-4, its example).
DIGEST = "ba7816bf8f01cfea414140de5dae2223b00361a396177a9cb410ff61f20015ad"
# The name of the image `abc` as campaign 7 3 offers it as release 5, and as a meter is made with it.
RELEASED = "02" "00000007" "00000003" "00000005" + DIGEST
FACTORY = "01" "00000000" "00000000" + DIGEST


def answer(invoke, data):
    """A response to a GET with this invoke byte and this Get-Data-Result."""
    apdu = f"c401{invoke}{data}"
    return bytes.fromhex(f"000100010001{len(apdu) // 2:04x}{apdu}")


def begun(place, *words):
    """The command over the list of this folder, while it asks."""
    command = [place.program, "survey", "--meters", "meters.csv", "--listen", f"{HOST}:0", "--report", "csv", *words]
    return subprocess.Popen(command, stdout=subprocess.PIPE, stderr=subprocess.PIPE, text=True, cwd=place.folder)


def told(process):
    """The lines that it prints behind the headings, by the meter, once it has ended."""
    out, said = process.communicate(timeout=PATIENCE)
    wants((process.returncode, said) == (0, ""), f"it ends with {process.returncode} and {said!r}")
    return rows(out)


def survey(place, *words):
    """What `survey` prints of the list of this folder. A question is waited for longer than a meter takes on a busy machine."""
    status, out, said = place.run("survey", "--meters", "meters.csv", "--listen", f"{HOST}:0", "--resend", "200", "--tries", "4", *words)
    wants((status, said) == (0, []), f"it ends with {status} and {said}")
    return out


def columns(line):
    """Where the cells of a line begin, of which that of the round trip has two words in the headings."""
    return [word.start() for word in re.finditer(r"trip us|\S+", line)]


def rows(text):
    """The lines behind the headings, by the meter."""
    wants(text.startswith(f"{HEADINGS}\n"), f"it prints {text!r}")
    return {int(row["meter"]): row for row in csv.DictReader(io.StringIO(text))}


# To be seen: a meter that is told for another, a silent one that isn't told as silent, a cell that stands beside its heading, and a meter that
# was changed.
def survey_tells_what_meters_run(place):
    """Three meters of ours and one that nobody is: the first are told as heard, in all forms, and the last as silent."""
    members, nobody = Members(place.folder, 3), bound()
    with members.meter.killed():
        listed(place.folder, [*(at.address for at in members.at), nobody.getsockname()])
        before = [members.file(number) for number in (1, 2, 3)]
        found = rows(survey(place, "--report", "csv"))
        for number in (1, 2, 3):
            row = found[number]
            wants([row[it] for it in ("state", "head", "campaign", "release", "digest")] == ["heard", "0", "0", "0", DIGEST], f"meter {number} is {row}")
            wants([row[it] for it in ("status", "enabled", "block_size", "offer")] == ["0", "no", "1024", ""], f"meter {number} is {row}")
            wants(row["round_trip_us"].isdigit(), f"meter {number} is {row}")
        wants(list(found[4].values()) == ["4", "silent", *[""] * 9], f"the silent meter is {found[4]}")
        meters = json.loads(survey(place, "--report", "json"))["meters"]
        wants([meter["state"] for meter in meters] == ["heard", "heard", "heard", "silent"], f"the states are {meters}")
        image = {"campaign": 0, "digest": DIGEST, "head": 0, "release": 0}
        wants([meter["image"] for meter in meters] == [image, image, image, None], f"the images are {meters}")
        heading, *lines = survey(place).splitlines()
        wants(heading == TABLE, f"the headings of the table are {heading!r}")
        *heard, silent = [line.split() for line in lines]
        for number, cells in enumerate(heard, 1):
            wants(cells[:9] == [str(number), "heard", "0", "0", "0", DIGEST[:8], "0", "no", "1024"], f"meter {number} is {cells}")
            wants(cells[9].isdigit() and cells[10:] == ["-"], f"meter {number} is {cells}")
        wants(silent == ["4", "silent", *["-"] * 9], f"the silent meter is {silent}")
        wants(all(columns(line) == columns(TABLE) and line == line.rstrip() for line in lines), f"cells stand beside their headings in {lines}")
        wants(before == [members.file(number) for number in (1, 2, 3)], "a meter was changed")


# To be seen: another question or another order, a question that is asked again at once or once too often, an answer that is taken from
# elsewhere, with another invoke-id, or twice.
def survey_asks_by_get_alone(place):
    """What comes to a meter are the four questions, one after another, and what is taken are its answers alone."""
    meter, stranger = bound(), bound()
    listed(place.folder, [meter.getsockname()])
    process = begun(place, "--resend", "300", "--tries", "3")
    began = time.monotonic()
    data, to = received(meter)
    wants(data == QUESTIONS[0], f"the first question is {data}")
    stranger.sendto(answer("c0", "000929" + FACTORY), to)
    meter.sendto(answer("c1", "0006000003e7"), to)
    again, _ = received(meter)
    wants(again == QUESTIONS[0] and time.monotonic() - began > 0.25, "the question isn't asked again once its time is over")
    meter.sendto(answer("c0", "00092d" + RELEASED), to)
    for question, invoke, value in zip(QUESTIONS[1:], ("c1", "c2", "c3"), ("000600000400", "010b", "001600")):
        got, _ = received(meter)
        wants(got == question, f"{got} is asked in place of {question}")
        meter.sendto(answer(invoke, value), to)
        meter.sendto(answer(invoke, "001601"), to)
    row = told(process)[1]
    wants([row[it] for it in ("state", "head", "campaign", "release", "digest")] == ["heard", "7", "3", "5", DIGEST], f"the row is {row}")
    wants([row[it] for it in ("status", "enabled", "block_size")] == ["0", "code 11", "1024"], f"the row is {row}")
    stays_silent(meter)


# To be seen: one that is asked for ever, or not as often as it is to be.
def survey_gives_up(place):
    """A meter that answers its first question alone is asked the second as often as --tries says, and told as heard in part."""
    meter = bound()
    listed(place.folder, [meter.getsockname()])
    process = begun(place, "--resend", "300", "--tries", "3")
    _, to = received(meter)
    meter.sendto(answer("c0", "000929" + FACTORY), to)
    row = told(process)[1]
    wants([row[it] for it in ("state", "digest", "block_size", "status")] == ["partly", DIGEST, "", ""], f"the row is {row}")
    asked = []
    while comes_in(meter, 0):
        asked.append(received(meter)[0])
    # (the first question may have been asked again before its answer came)
    wants(asked[-3:] == [QUESTIONS[1]] * 3 and set(asked[:-3]) <= {QUESTIONS[0]}, f"it asks {asked}")


# To be seen: a refusal that isn't told, or told of a meter that takes the image.
def survey_tells_who_would_refuse(place):
    """A meter that runs release 5 refuses release 4, runs release 5, and takes release 6; with blocks of one byte it refuses 16,385 of them."""
    meter = bound()
    listed(place.folder, [meter.getsockname()])
    (place.folder / "image").write_bytes(b"abc")
    (place.folder / "large").write_bytes(bytes(16385))
    for image, release, want in (("image", 4, "refuses below 5"), ("image", 5, "runs"), ("image", 6, "takes"), ("large", 6, "refuses blocks of 1")):
        process = begun(place, "--image", image, "--release", str(release), "--resend", "10000")
        for invoke, value in zip(("c0", "c1", "c2", "c3"), ("00092d" + RELEASED, "000600000001", "000301", "001600")):
            _, to = received(meter)
            meter.sendto(answer(invoke, value), to)
        row = told(process)[1]
        wants(row["offer"] == want, f"{release} of {image} gives {row}")


# To be seen: a fault of another name, or without the option that it is about and its cause; and a meter that is asked first.
def survey_refuses(place):
    """What is wrong with a command is told before anything is asked."""
    meter = bound()
    at = name_of(meter.getsockname())
    listed(place.folder, [meter.getsockname()])
    (place.folder / "twice.csv").write_text("1,127.0.0.1:4059\n1,127.0.0.1:4060\n")
    (place.folder / "empty").write_bytes(b"")
    (place.folder / "long").write_bytes(bytes(16777217))
    free, missing = f"{HOST}:0", "there is no such file or folder"
    for meters, listen, words, want in (
        ("none.csv", free, [], ["ListFault", f"--meters none.csv: {missing}"]),
        ("twice.csv", free, [], ["BadList 2", "--meters twice.csv: line 1 has the same meter"]),
        ("meters.csv", free, ["--image", "none"], ["ImageFault", f"--image none: {missing}"]),
        ("meters.csv", free, ["--image", "empty"], ["EmptyImage", "--image empty"]),
        ("meters.csv", free, ["--image", "long"], ["ImageTooLong", "--image long"]),
        ("meters.csv", at, [], ["Socket", f"--listen {at}: it is in use"]),
    ):
        got = place.run("survey", "--meters", meters, "--listen", listen, *words)
        wants(got == (1, "", [f"dlmsfw: {want[0]}", *want[1:]]), f"{meters} {listen} {words} gives {got}")
    for words in (["--tries", "0"], ["--flight", "0"], ["--resend", "60001"], ["--release", "1"], ["--report", "html"]):
        status, out, _ = place.run("survey", "--meters", "meters.csv", "--listen", free, *words)
        wants((status, out) == (2, ""), f"{words} gives {status} and {out}")
    stays_silent(meter)


STEPS = [survey_tells_what_meters_run, survey_asks_by_get_alone, survey_gives_up, survey_tells_who_would_refuse, survey_refuses]
