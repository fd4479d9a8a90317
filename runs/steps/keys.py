"""Files of keys: made for both ends of links, for their owner alone, and never over another file. Their form is that of docs/FORMATS.md."""

import os
import re
import stat

from common import Place, wants
from cuts import lefts, power, recorded_run
from disk import key

LISTEN = "127.0.0.1:4058"
METERS = (1, 5, 4294967295)
# The titles that head end 7 and a meter get: four letters, and the number in eight digits.
HEAD_TITLE = "4b5a424800000007"
METER_TITLE = "4b5a424d{:08x}"
THERE = "a file is there already"


def listed(folder):
    """Writes the list of three meters."""
    (folder / "meters.csv").write_text("".join(f"{meter},127.0.0.1:{4059 + at}\n" for at, meter in enumerate(METERS)))


def made(place: Place, *words, status=0, **how):
    """Makes keys of head end 7 for these meters. What is printed, and the lines on standard error."""
    got, out, err = place.run("keys", "--meters", "meters.csv", "--head", "7", "--listen", LISTEN, *words, **how)
    wants(got == status, f"with {words} it ends with {got}, {out!r} and {err}")
    return out, err


def refused(place, *words, second):
    """The making of keys is refused with this second line, and prints nothing."""
    out, err = made(place, *words, status=1)
    wants((out, err) == ("", ["dlmsfw: KeysFault", second]), f"with {words} it prints {out!r} and {err}")


def held(folder):
    """The files of a folder, with their bytes."""
    return {file.name: file.read_bytes() for file in sorted(folder.iterdir())}


def links_of(folder):
    """The keys of each meter, as both ends have them. All files are in their owner's hands alone."""
    names = ["head.keys", *(f"meter.{meter}.keys" for meter in METERS)]
    files = {file.name: file.read_text() for file in folder.iterdir()}
    wants(sorted(files) == sorted(names), f"it makes {sorted(files)}")
    for name in names:
        mode = stat.S_IMODE((folder / name).stat().st_mode)
        wants(mode == 0o600, f"{name} has the mode {mode:o}")
    links = {}
    lines = files["head.keys"].splitlines(keepends=True)
    wants(len(lines) == len(METERS), f"the head end has {len(lines)} links")
    for meter, line in zip(METERS, lines):
        title = METER_TITLE.format(meter)
        found = re.fullmatch(rf"{meter},{title},([0-9a-f]{{32}}),([0-9a-f]{{32}})\n", line)
        wants(found, f"the head end's line of meter {meter} is {line!r}")
        links[meter] = found.groups()
        want = f"{title}\n{LISTEN},{HEAD_TITLE},{','.join(found.groups())}\n"
        wants(files[f"meter.{meter}.keys"] == want, f"meter {meter} has {files[f'meter.{meter}.keys']!r}, and the head end {line!r}")
    return links


# To be seen: a file that others may read, also where the umask lets them; ends that don't have the same keys; keys that aren't random, or are
# those of another link or another run.
def keys_are_made(place):
    """Both ends of a link have its keys, no key stands twice, and the owner alone may read and write the files."""
    listed(place.folder)
    keys = []
    for name, mask in (("one", 0), ("two", 0o022)):
        (place.folder / name).mkdir()
        out, err = made(place, "--out", name, umask=mask)
        want = "".join(f"made {name}/{file}\n" for file in ("head.keys", *(f"meter.{meter}.keys" for meter in METERS)))
        wants((out, err) == (want, []), f"it prints {out!r} and {err}")
        keys += [key for link in links_of(place.folder / name).values() for key in link]
    wants(len({*keys}) == 4 * len(METERS), f"a key stands twice in {keys}")
    wants(all(len({*bytes.fromhex(key)}) > 4 for key in keys), f"these aren't random: {keys}")


# To be seen: a file that is written over, emptied or removed though it is another; a link that is followed; files that are left where one
# couldn't be made.
def keys_are_written_over_no_file(place):
    """A second making is refused, and each file stays as it is. Where one of the files is there, no other is left."""
    listed(place.folder)
    keys = place.folder / "keys"
    keys.mkdir()
    made(place, "--out", "keys")
    before = held(keys)
    refused(place, "--out", "keys", second=f"--out keys: keys/head.keys: {THERE}")
    wants(held(keys) == before, "a second making changes a file")
    for name in ("meter.5.keys", "meter.4294967295.keys"):
        folder = place.folder / name[:-5]
        folder.mkdir()
        (folder / name).write_bytes(b"another's")
        refused(place, "--out", folder.name, second=f"--out {folder.name}: {folder.name}/{name}: {THERE}")
        wants(held(folder) == {name: b"another's"}, f"beside {name} there are {held(folder)}")
    linked = place.folder / "linked"
    linked.mkdir()
    (linked / "head.keys").symlink_to("nothing")
    refused(place, "--out", "linked", second=f"--out linked: linked/head.keys: {THERE}")
    wants(os.listdir(linked) == ["head.keys"], f"behind a link there are {os.listdir(linked)}")


# To be seen: a file of keys that a power cut may take away once it is told, or some of its bytes.
def keys_outlive_cuts(place):
    """Before the first file is told all are synced, with their names."""
    listed(place.folder)
    status, out, calls = recorded_run(place, place.folder, "keys", "--meters", "meters.csv", "--head", "7", "--listen", LISTEN)
    files = {f"./{name}": content for name, content in held(place.folder).items() if name.endswith(".keys")}
    wants((status, out) == (0, "".join(f"made ./{name}\n" for name in ("head.keys", *(f"meter.{meter}.keys" for meter in METERS)))),
          f"it ends with {status}, and prints {out!r}")
    disk, told = power.Sectors(), next(at for at, (word, *_) in enumerate(calls) if word == "print")
    for call in calls[:told]:
        disk.take(*call)
    wants(lefts(disk) == {key(files)}, f"a cut leaves one of {lefts(disk)}")


# To be seen: a fault without its place or cause, or with another; a making that takes an address which no meter sees.
def keys_are_refused(place):
    """A making that can't be is refused before any file, and says why."""
    listed(place.folder)
    missing = "there is no such file or folder"
    refused(place, "--out", "missing", second=f"--out missing: missing/head.keys: {missing}")
    refused(place, "--out", "meters.csv", second="--out meters.csv: meters.csv/head.keys: a part of the path is no folder")
    words = ("keys", "--head", "7", "--listen", LISTEN, "--meters")
    got = place.run(*words, "missing")
    wants(got == (1, "", ["dlmsfw: ListFault", f"--meters missing: {missing}"]), f"without a list it ends with {got}")
    (place.folder / "twice.csv").write_text("1,127.0.0.1:4059\n1,127.0.0.1:4060\n")
    got = place.run(*words, "twice.csv")
    wants(got == (1, "", ["dlmsfw: BadList 2", "--meters twice.csv: line 1 has the same meter"]), f"with a meter twice it ends with {got}")
    for listen in ("0.0.0.0:4058", "127.0.0.1:0", "224.0.0.1:4058", "[::]:4058", "localhost:4058"):
        status, out, err = place.run("keys", "--head", "7", "--meters", "meters.csv", "--listen", listen)
        wants((status, out) == (2, "") and err[0].startswith(f"error: invalid value '{listen}' for '--listen <ADDR:PORT>'"),
              f"with --listen {listen} it ends with {status}, {out!r} and {err}")
    wants(sorted(os.listdir(place.folder)) == ["meters.csv", "twice.csv"], f"it leaves {os.listdir(place.folder)}")
    out, _ = made(place)
    wants(out.splitlines()[0] == "made ./head.keys" and (place.folder / "head.keys").exists(), f"without --out it prints {out!r}")


# To be seen: an end that takes keys which others may read or write.
def keys_of_others_are_refused(place):
    """A file of keys of which others than its owner may do anything is refused, at both ends, before any file is made."""
    listed(place.folder)
    made(place)
    for end in ("head", "meter.1"):
        file = place.folder / f"{end}.keys"
        words = {
            "head": ("head", "--head", "7", "--book", "head.book", "--new", "--meters", "meters.csv", "--listen", "127.0.0.1:0"),
            "meter.1": ("meter", "--listen", "127.0.0.1:0", "--store", "meter.fw"),
        }[end]
        for mode in (0o640, 0o620, 0o610, 0o604, 0o602, 0o601):
            file.chmod(mode)
            got = place.run(*words, "--keys", file.name, "--new-counter")
            wants(got == (1, "", ["dlmsfw: KeysReadable", f"--keys {file.name}"]), f"{end} with the mode {mode:o} ends with {got}")
    made_files = [name for name in os.listdir(place.folder) if not name.endswith((".keys", ".csv"))]
    wants(not made_files, f"it leaves {made_files}")


STEPS = [keys_are_made, keys_are_written_over_no_file, keys_outlive_cuts, keys_are_refused, keys_of_others_are_refused]
