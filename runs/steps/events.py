"""Events and metrics of head ends: what is in their files beside what is told and what the book has, and files that are others'."""

import json
import re
import shutil
import subprocess

from common import bound, name_of, wants
from ends import Fleet, HeadEnd, ended_rows, opening
from services import lines_until

TIME = re.compile(r"\d{4}-\d\d-\d\dT\d\d:\d\d:\d\d\.\d{6}Z")
# A line that a power cut tore, and other programs' files.
TORN = '{"campaign":1,"ended":17'
OTHERS = ("hello\n", '{"a":1}', "# HELP node_load1 1m load average.\n")


def events_of(folder):
    """The events of a file, each a JSON object on a line of its own, at a time of its own."""
    text = (folder / "events").read_text()
    wants(text.endswith("\n"), f"the file ends with {text[-40:]!r}")
    events = [json.loads(line) for line in text.splitlines()]
    for event in events:
        wants(TIME.fullmatch(event.pop("time")) and event.pop("head") == 7, f"{event} has no time, or no head end")
    return events


def told_in(events):
    """The lines that head ends print of these events."""
    lines = {
        "opened": "opened 7 {campaign} {release} {digest}",
        "cancelled": "cancelled 7 {campaign}",
        "row": "row 7 {campaign} {meter} {state}",
        "over": "over done {done} failed {failed}",
    }
    for event in events:
        if event["event"] in lines:
            why = f": {event['reason']}" if event.get("reason") else ""
            yield lines[event["event"]].format(**event) + why


def led(folder, words):
    """Leads a campaign to its end, with events and metrics, and returns its lines but the first."""
    return HeadEnd(folder, *words, "--events", folder / "events", "--metrics", folder / "metrics").over()[1:]


# To be seen: an event before its commit, in another order than the lines, without its reason, or at a start that another run told; a file
# that is gone on with in a torn line; a row that another command ended and of which no event tells; rows of one campaign alone that are made up
# for, or in another order than the book has them.
def events_are_told_with_the_lines(place):
    """Each line but the first has its event, in the same order. A torn line is cut off, and what the book has without one comes at the start,
    once."""
    with Fleet(place.folder / "fleet", 2).killed() as fleet:
        folder = fleet.folder
        lines = led(folder, ["--new", *opening(folder, b"newer")])
        events = events_of(folder)
        wants(events[0] == {"event": "started"} and [*told_in(events)] == lines, f"after {lines} the events are {events}")
        older = opening(folder, b"older", 2)
        older[older.index("--release") + 1] = "1"
        with (folder / "events").open("a") as file:
            file.write(TORN)
        lines += led(folder, older)
        wants([*told_in(events_of(folder))] == lines, f"after {lines} the events are {events_of(folder)}")
        # Those that ended without events have them in the next run, in the order of the book.
        kept = (folder / "events").read_text().splitlines(keepends=True)
        (folder / "events").write_text("".join(line for line in kept if '"event":"row"' not in line))
        led(folder, [])
        again = [*told_in(events_of(folder))]
        wants([line for line in again if line.startswith("row ")] == ended_rows(folder), f"at the next start {again} is told")
        led(folder, [])
        rows = [line for line in told_in(events_of(folder)) if line.startswith("row ")]
        wants(len(rows) == len({*rows}), f"{rows} are told twice")


# To be seen: a page that lacks a state or a campaign, has a count of another, or that promtool refuses.
def metrics_have_the_rows(place):
    """The page has the rows of each campaign by state, as the book has them at the end, and Prometheus reads it."""
    with Fleet(place.folder / "fleet", 2).killed() as fleet:
        led(fleet.folder, ["--new", *opening(fleet.folder, b"newer")])
        page = (fleet.folder / "metrics").read_text()
        rows = re.findall(r'^dlmsfw_rows\{head="7",campaign="1",state="(\w+)"\} (\d+)$', page, re.M)
        wants(rows == [("live", "0"), ("done", "2"), ("failed", "0"), ("cancelled", "0")], f"the rows are {rows}")
        wants(not (fleet.folder / "metrics.new").exists(), "metrics.new is left")
        promtool = shutil.which("promtool")
        if promtool:
            said = subprocess.run([promtool, "check", "metrics"], input=page, capture_output=True, text=True, check=False)
            wants(said.returncode == 0 and not said.stdout + said.stderr, f"promtool says {said.stdout}{said.stderr}")
        else:
            print("metrics_have_the_rows: promtool isn't here, so no Prometheus reads the page", flush=True)


# To be seen: a start that tells nothing of rows without an event, since it can't read which have one; a file that is cut where it can't be read.
def events_that_cant_be_read_are_told(place):
    """Whichever read of the file of events fails: the head end says so and leads nobody, or each row that ended has its event then."""
    folder, refused = place.folder, []
    path = folder / "events"
    with Fleet(folder, 2).killed():
        led(folder, ["--new", *opening(folder, b"newer")])
    kept = "".join(line for line in path.read_text().splitlines(keepends=True) if '"event":"row"' not in line)
    for number in range(1, 13):
        path.write_text(kept)
        head = HeadEnd(folder, "--events", path, env=place.preloaded("unread", UNREAD=number, NAME="/events"))
        status, lines, said = head.end()
        if status == 1:
            refused.append(number)
            told = len(said) == 2 and said[0] == "dlmsfw: Output" and said[1].startswith(f"--events {path}: ")
            wants(told and not lines, f"at read {number} it prints {lines} and says {said}")
            wants(path.read_text() == kept, f"at read {number} the file is {path.read_text()!r}")
        else:
            rows = [line for line in told_in(events_of(folder)) if line.startswith("row ")]
            wants((status, said, rows) == (0, [], ended_rows(folder)), f"at read {number} it ends with {status} and {said}, and tells {rows}")
    wants(refused and refused[-1] < 12, f"the reads {refused} are refused")


# To be seen: a file of another program that is gone on with or replaced, or that is told by the name of the one beside it.
def files_of_others_stay(place):
    """A file that isn't one of events, or of metrics, is left as it is, and the fault says so. So is one that is named as these are made."""
    (place.folder / "meters.csv").write_text("1,127.0.0.1:4059\n")
    words = ["head", "--head", "7", "--book", "head.book", "--new", "--meters", "meters.csv", "--listen", "127.0.0.1:0"]
    for name, told in (("events", ""), ("metrics", ""), ("events.new", "events.new: "), ("metrics.new", "metrics.new: ")):
        file, path = name.removesuffix(".new"), place.folder / name
        for text in OTHERS:
            path.write_text(text)
            status, out, said = place.run(*words, f"--{file}", file)
            want = ["dlmsfw: Output", f"--{file} {file}: {told}it is another program's file"]
            wants((status, out, said) == (1, "", want), f"over {text!r} it ends with {status} and {said}, and prints {out}")
            wants(path.read_text() == text and not (place.folder / "head.book").exists(), f"{name} is {path.read_text()!r}, or a book is made")
            path.unlink()


# To be seen: a file of events, or of metrics, that is made or begun though the other is refused.
def both_files_are_judged_first(place):
    """If the file of events is refused, or that of metrics, neither is made."""
    (place.folder / "meters.csv").write_text("1,127.0.0.1:4059\n")
    (place.folder / "other").write_text(OTHERS[0])
    before = sorted(place.folder.iterdir())
    words = ["head", "--head", "7", "--book", "head.book", "--new", "--meters", "meters.csv", "--listen", "127.0.0.1:0"]
    missing, others = "there is no such file or folder", "it is another program's file"
    for events, metrics, want in (
        ("events", "none/metrics", f"--metrics none/metrics: none/metrics.new: {missing}"),
        ("events", "other", f"--metrics other: {others}"),
        ("none/events", "metrics", f"--events none/events: none/events.new: {missing}"),
        ("other", "metrics", f"--events other: {others}"),
    ):
        got = place.run(*words, "--events", events, "--metrics", metrics)
        wants(got == (1, "", ["dlmsfw: Output", want]), f"with {events} and {metrics} it ends with {got}")
        wants(sorted(place.folder.iterdir()) == before, f"with {events} and {metrics} there are {sorted(place.folder.iterdir())}")


# To be seen: a file of events, or of metrics, that is made or gone on with though another input is refused.
def other_inputs_are_judged_first(place):
    """If a head end is refused for its list, image, keys, address or book, no file of events or of metrics is made, and one that is there is as
    it was."""
    folder, used, opened = place.folder, bound(), ["--open", "1", "--release", "2", "--image"]
    for name, text in (("meters.csv", "1,127.0.0.1:4059\n"), ("bad.csv", "1\n"), ("empty.bin", "")):
        (folder / name).write_text(text)
    refusals = (
        ("BadList 1", {"meters": "bad.csv"}, []),
        ("ListFault", {"meters": "none.csv"}, []),
        ("ImageFault", {}, [*opened, "none.bin"]),
        ("EmptyImage", {}, [*opened, "empty.bin"]),
        ("KeysFault", {}, ["--keys", "none.keys"]),
        ("Socket", {"listen": name_of(used.getsockname())}, []),
        ("NoSuchCampaign", {}, ["--cancel", "3"]),
    )

    def files():
        # (a book that is opened is written anew)
        return {it.name: it.read_bytes() for it in folder.iterdir() if it.name != "head.book"}

    def refused(fault, words, meters="meters.csv", listen="127.0.0.1:0"):
        before = files()
        got = place.run("head", "--head", "7", "--book", "head.book", "--meters", meters, "--listen", listen, "--events", "events",
                        "--metrics", "metrics", *words)
        wants((*got[:2], got[2][:1]) == (1, "", [f"dlmsfw: {fault}"]), f"for {fault} it ends with {got}")
        wants(files() == before, f"at {fault} the files are {files()}, and were {before}")

    for fault, inputs, words in refusals:
        refused(fault, [*words, "--new"], **inputs)
    refused("NoBook", [])
    led(folder, ["--new"])
    for fault, inputs, words in refusals:
        refused(fault, words, **inputs)
    refused("BookExists", ["--new"])


# To be seen: an event or a page that can't be written and of which nobody is told, or each; a head end that ends by that.
def what_cant_be_written_is_told_once(place):
    """If events can't be written any more, or a page of metrics, standard error says so, of each once, and the head end goes on."""
    folder = place.folder
    env = place.preloaded("unwritten", UNWRITTEN=2, NAME="/events")
    for every in ("0", "60"):
        files = [folder / f"{every}.prom", folder / "events"]
        with Fleet(folder / every, 1).killed() as fleet:
            # Until it is started again nothing ends, so the next page is the last one.
            fleet.meters[1].kill()
            words = ["--new", *opening(fleet.folder, b"newer"), "--every", every, "--resend", "100"]
            with HeadEnd(fleet.folder, *words, "--events", files[1], "--metrics", files[0], env=env).running() as head:
                lines_until(head, "opened ")
                files[0].write_text(OTHERS[0])
                fleet.restart(1)
                status, _, said = head.end()
            fleet.run(b"newer")
        want = ["an event can't be written: no space is left on the device", "a page of metrics can't be written: it is another program's file"]
        wants((status, said) == (0, want), f"with --every {every} it ends with {status}, and says {said}")
        wants(events_of(folder) == [{"event": "started"}], f"the events are {events_of(folder)}")
        wants(files[0].read_text() == OTHERS[0], "another program's file is replaced")
        files[1].unlink()


STEPS = [
    events_are_told_with_the_lines,
    metrics_have_the_rows,
    events_that_cant_be_read_are_told,
    what_cant_be_written_is_told_once,
    files_of_others_stay,
    both_files_are_judged_first,
    other_inputs_are_judged_first,
]
