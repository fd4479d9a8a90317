"""What a disk has of the files of a folder while a program changes them, as `hostile/power` and `hostile/book` cut its power."""

import concurrent.futures
import contextlib
import os
import pathlib
import subprocess
import tempfile
from dataclasses import dataclass, field

from ends import PROVED, proved

HOSTILE = pathlib.Path(__file__).resolve().parent
# The program whose calls are recorded, which is the proved one if the environment has no PROGRAM.
PROGRAM = pathlib.Path(os.environ.get("PROGRAM", PROVED)).absolute()
# The calls that a disk may refuse.
CHANGES = ("make", "write", "size", "sync", "rename", "refused")


@dataclass
class File:
    """What a file has on the disk, and the changes since it was synced last: writes and lengths, in their order."""

    synced: bytes = b""
    changes: list = field(default_factory=list)


@dataclass
class Disk:
    """The files of a folder by their names, those of the disk and those of now, and the changes of names that aren't synced."""

    files: dict = field(default_factory=dict)
    names: dict = field(default_factory=dict)
    renamed: list = field(default_factory=list)
    open: dict = field(default_factory=dict)

    @classmethod
    def of(cls, files):
        """A disk on which all is synced."""
        disk = cls()
        for name, content in files.items():
            disk.files[name] = disk.names[name] = File(content)
        return disk

    def take(self, word, a, b, given):
        """Makes a call."""
        match word:
            case "open" | "make":
                # The folder has no file, and is synced by its names.
                name = given.decode()
                if word == "make":
                    self.names[name] = File()
                    self.renamed.append(("make", name, self.names[name]))
                self.open[a] = self.names.get(name)
            case "write":
                self.open[a].changes.append(("write", b, given))
            case "size":
                self.open[a].changes.append(("size", b, b""))
            case "sync" if self.open[a] is None:
                self.files, self.renamed = dict(self.names), []
            case "sync":
                it = self.open[a]
                it.synced, it.changes = self.whole(it), []
            case "rename":
                old, new = given.decode().split("/")
                self.renamed.append(("rename", old, new))
                rename(self.names, *self.renamed[-1])
            case "unlink":
                self.renamed.append(("unlink", given.decode(), None))
                rename(self.names, *self.renamed[-1])

    def whole(self, it):
        """What a file has where all changes since its last sync are on the disk."""
        return changed(it.synced, it.changes)

    def held(self):
        """The files that the disk has under a name, or would have if the first changes of names were on it."""
        made = [new for word, _, new in self.renamed if word == "make"]
        return list({id(it): it for it in (*self.files.values(), *self.names.values(), *made)}.values())

    def named(self, count):
        """The files by their names where the first `count` changes of names are on the disk."""
        names = dict(self.files)
        for change in self.renamed[:count]:
            rename(names, *change)
        return names


def rename(names, word, old, new):
    """Makes a change of names."""
    match word:
        case "make":
            names[old] = new
        case "rename":
            names[new] = names.pop(old)
        case "unlink":
            names.pop(old, None)


def changed(content, changes):
    """The bytes after these changes. What stands between the end and a write is zeros."""
    content = bytearray(content)
    for word, at, given in changes:
        content += bytes(max(0, at - len(content)))
        if word == "size":
            del content[at:]
        else:
            content[at : at + len(given)] = given
    return bytes(content)


# ---- programs whose calls are recorded


def build():
    """Has the proved program proved, if it is that and isn't there or is of other sources."""
    if "PROGRAM" not in os.environ:
        proved()


def library_of(folder, name):
    """What can be preloaded to a program, of a source file here."""
    made = folder / f"{name}.so"
    subprocess.run(["cc", "-O2", "-shared", "-fPIC", "-o", made, HOSTILE / f"{name}.c"], check=True)
    return made


def recorder(folder):
    """What records the calls of a program that it is preloaded to."""
    return library_of(folder, "record")


def recorded(record):
    """The calls that a run made to files of its folder."""
    for text in pathlib.Path(record).read_text().splitlines():
        word, a, b, given = text.split(" ")
        call = word, int(a), int(b), bytes.fromhex(given)
        if not (word in ("open", "make") and call[3].startswith(b"/")):
            yield call


@contextlib.contextmanager
def folder_of(where, files):
    """A folder with these files, as long as it is needed."""
    with tempfile.TemporaryDirectory(dir=where) as at:
        for name, content in files:
            pathlib.Path(at, name).write_bytes(content)
        yield at


def at_once(work, cases):
    """What comes of each case, of which some are worked on at once."""
    with concurrent.futures.ThreadPoolExecutor(max_workers=os.cpu_count()) as pool:
        return list(pool.map(work, cases))


def key(files):
    """A state as a value."""
    return tuple(sorted(files.items()))
