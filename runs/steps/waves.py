"""Rollouts in waves, at a time, and to meters that are silent."""

import time

from common import HOST, PATIENCE, bound, name_of, received, stays_silent, wait_for, wants
from ends import GET_STATUS, STATUS, Fleet, HeadEnd, Meter, opening, rows_of
from services import lines_until, refused

# An image that a meter of 64 bytes refuses, and what its row says then.
IMAGE = bytes(range(256)) * 8
REFUSED = "start code 250 other-reason"


def planned(folder, meters):
    """Writes the list of a head end: each meter by its number, with its address, and with its wave if there is one."""
    (folder / "meters.csv").write_text("".join(f"{number},{','.join(map(str, fields))}\n" for number, fields in meters.items()))


# To be seen: waves that are led at once, or by the order of the lines; a meter without a third field that isn't of wave 0, and one of another
# wave that is.
def waves_follow_each_other(place):
    """The rows of a wave are asked once those of the earlier ones have ended, whatever the order of the lines."""
    folder, silent, *later = place.folder, bound(), bound(), bound()
    with Fleet(folder, 3).killed() as fleet:
        words, at = opening(folder, IMAGE, 5), fleet.addresses
        first, *others = (name_of(sock.getsockname()) for sock in (silent, *later))
        planned(folder, {1: (others[0], 255), 2: (first,), 3: (others[1], 1)})
        with HeadEnd(folder, "--new", *words, "--resend", "20").running():
            received(silent)
            stays_silent(*later)
        planned(folder, {1: (at[1], 255), 2: (at[2],), 3: (at[3], 1)})
        lines = HeadEnd(folder, *words).over()
        wants(lines[1:] == ["row 7 5 2 done", "row 7 5 3 done", "row 7 5 1 done", "over done 3 failed 0"], f"it prints {lines}")
        fleet.run(IMAGE)


# To be seen: a canary that fails and stops nothing, or a threshold that is another; a later row that is asked, or that ends; a status, or a
# name, of something else; a rollout that doesn't go on with a larger number.
def a_canary_that_fails_stops_the_rollout(place):
    """If more rows of the earlier waves failed than --max-failed allows, a head end ends as TooManyFailed and asks nobody of the next wave. With a
    larger number it goes on."""
    folder, later, last = place.folder, bound(), bound()
    with Fleet(folder, 3).killed() as fleet, Meter(folder / "4.fw", "--capacity", "64").killed() as small:
        words, at = opening(folder, IMAGE), {**fleet.addresses, 4: name_of(small.address)}
        planned(folder, {1: (at[1], 0), 2: (name_of(later.getsockname()), 1), 3: (name_of(last.getsockname()), 2), 4: (at[4],)})
        status, lines, said = HeadEnd(folder, "--new", *words).end(patience=PATIENCE)
        ended = ["row 7 1 1 done", f"row 7 1 4 failed: {REFUSED}"]
        stopped = ["dlmsfw: TooManyFailed 1", "--max-failed 0: 1 of 2 rows before wave 1 failed; it begins with --max-failed 1"]
        wants((status, sorted(lines[2:]), said) == (6, ended, stopped), f"it ends with {status}, {lines} and {said}")
        # Of two rows one failed.
        for few in ("0", "49%"):
            status, lines, said = HeadEnd(folder, *words, "--max-failed", few).end(patience=PATIENCE)
            stopped = ["dlmsfw: TooManyFailed 1", f"--max-failed {few}: 1 of 2 rows before wave 1 failed; it begins with --max-failed 1"]
            wants((status, lines[1:], said) == (6, [], stopped), f"at {few} it ends with {status}, {lines} and {said}")
        stays_silent(later, last)
        wants(rows_of(folder) == ["7,1,1,done", "7,1,2,live", "7,1,3,live", "7,1,4,failed"], f"the rows are {rows_of(folder)}")
        planned(folder, {number: (at[number], wave) for number, wave in ((1, 0), (2, 1), (3, 2), (4, 0))})
        lines = HeadEnd(folder, *words, "--max-failed", "50%").over()
        wants(lines[1:] == ["row 7 1 2 done", "row 7 1 3 done", "over done 2 failed 0"], f"at 50% it prints {lines}")
        fleet.run(IMAGE)


# To be seen: a field that is taken for a wave though it is none, or for one that a number of 8 bits leaves of it; a fault of another line; a
# book that is made.
def a_wave_is_a_number(place):
    """A third field that is no number from 0 to 255, or a fourth one, is none of a list, and nothing is made."""
    meters = place.folder / "meters.csv"
    for rest in ("", "256", "-1", "first", "1.0", " 1", "1 ", "0x1", "1,", "1,2"):
        meters.write_text(f"1,{HOST}:9,255\n2,{HOST}:10,{rest}\n3,{HOST}:11\n")
        refused(place, "BadList 2", f"--meters {meters}", "--new")
    wants({it.name for it in place.folder.iterdir()} == {"meters.csv"}, "a file is made")


# To be seen: a value that is taken though it is none of its option.
def what_is_no_plan_is_refused(place):
    """A threshold that is no number, or more than all, a time that is none, and hours of which there are none are a wrong command line."""
    planned(place.folder, {1: (f"{HOST}:9",)})
    wrong = {
        "max-failed": ("", "%", "101%", "256%", "-1", "1.5", "5 %", "%5", "5%%", "4294967296", "all"),
        "activate-from": ("", "-1", "tomorrow", "18446744073709551616"),
        "give-up-after": ("", "0", "87601", "1h"),
    }
    for option, texts in wrong.items():
        for text in texts:
            status, out, said = place.run("head", "--head", 7, "--book", "head.book", "--new", "--meters", "meters.csv", "--listen", f"{HOST}:0",
                                          f"--{option}={text}")
            wants((status, out) == (2, "") and said[0].startswith("error: "), f"--{option}={text} ends with {status}, {out} and {said}")
    wants(not (place.folder / "head.book").exists(), "a wrong command line makes a book")


# To be seen: a meter that is given up early, or never; one that answered which is given up; a row without its reason; a wave that doesn't begin
# behind one that was given up.
def a_silent_meter_is_given_up(place):
    """The row of a meter that doesn't answer for as many hours as --give-up-after says fails as silent, and the next wave begins."""
    folder, silent, later = place.folder, bound(), place.folder / "later"
    env = place.preloaded("hours", LATER=later)
    with Fleet(folder, 2).killed() as fleet:
        planned(folder, {1: (fleet.addresses[1], 0), 2: (name_of(silent.getsockname()), 0), 3: (fleet.addresses[2], 1)})
        words = [*opening(folder, IMAGE), "--resend", "20", "--max-failed", "1", "--give-up-after", "1"]
        with HeadEnd(folder, "--new", *words, env=env).running() as head:
            lines = lines_until(head, "row ")
            wants(lines[2:] == ["row 7 1 1 done"], f"at first it prints {lines}")
            for _ in range(3):
                received(silent)
            later.touch()
            lines = lines_until(head, "over ")
            status = head.process.wait(PATIENCE)
        wants(lines == ["row 7 1 2 failed: size silent", "row 7 1 3 done", "over done 2 failed 1"], f"an hour later it prints {lines}")
        wants(status == 4, f"it ends with {status}")
        fleet.run(IMAGE)


# To be seen: an image that is activated before its time, or never; one that isn't brought before.
def an_image_waits_for_its_time(place):
    """With --activate-from an image is brought to its meter and verified at once, and activated from that time on."""
    folder, later = place.folder, place.folder / "later"
    env = place.preloaded("hours", LATER=later)
    with Fleet(folder, 1).killed() as fleet:
        words = [*opening(folder, IMAGE), "--activate-from", str(int(time.time()) + 1800)]

        def is_verified():
            return fleet.asker.ask_until(fleet.meters[1], GET_STATUS) == STATUS % 3

        with HeadEnd(folder, "--new", *words, env=env).running() as head:
            lines_until(head, "opened ")
            wait_for(is_verified, "the image isn't verified")
            # (a row that waits is looked at again after half a second)
            time.sleep(0.6)
            wants(is_verified(), "the image is activated before its time")
            later.touch()
            lines = lines_until(head, "over ")
        wants(lines == ["row 7 1 1 done", "over done 1 failed 0"], f"an hour later it prints {lines}")
        fleet.run(IMAGE)


STEPS = [
    waves_follow_each_other,
    a_canary_that_fails_stops_the_rollout,
    a_wave_is_a_number,
    what_is_no_plan_is_refused,
    a_silent_meter_is_given_up,
    an_image_waits_for_its_time,
]
