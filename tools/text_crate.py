"""Crates that the gate doesn't prove: each is kept as text, and is proved when its program of tests is first wanted.

The folder of such a crate has `crate.txt`, its line of crates.txt, and its sources with `.txt` after the names that they have in the crate.
The gate refuses a `.rt` file outside `crates/`, and proves each crate there.
"""

import os
import pathlib
import shutil
import subprocess
import sys
import tempfile
import time

ROOT = pathlib.Path(__file__).resolve().parent.parent


def name_of(line):
    """The name in a line of crates.txt."""
    return line.split(":")[0].split()[0]


def uses_of(line):
    """The libraries in a line of crates.txt."""
    return line.split(":")[1].split()


class TextCrate:
    """The crate of a folder. Its program of tests is kept in `out`, beside that folder."""

    def __init__(self, folder):
        self.folder = folder
        self.line = (folder / "crate.txt").read_text()
        self.name = name_of(self.line)
        self.sources = sorted(it for it in folder.rglob("*.txt") if it.name != "crate.txt")
        self.program = folder.parent / "out" / f"{self.name}_tests"

    def build(self):
        """Proves and builds the program, and runs its tests, if that was not done since a source changed.

        `rt ci` does it in a copy, which is removed. Of the crates below it takes what it proved on this machine before, as in the gate.
        """
        below, texts = self._below()
        made_from = [ROOT / "crates.txt", *ROOT.glob("crates/*/src/**/*.rt")]
        made_from += [source for it in [self, *texts] for source in [it.folder / "crate.txt", *it.sources]]
        if self.program.exists() and self.program.stat().st_mtime > max(source.stat().st_mtime for source in made_from):
            return
        with tempfile.TemporaryDirectory() as copy:
            began = time.time()
            self._copy(pathlib.Path(copy), below, texts)
            self._prove(copy)
            self.program.parent.mkdir(exist_ok=True)
            shutil.copy(pathlib.Path(copy) / "crates" / self.name / "out" / self.program.name, self.program)
            # (what was changed since isn't in it)
            os.utime(self.program, (began, began))

    def put(self, to):
        """Makes a crate of the text, in the repository `to`."""
        for source in self.sources:
            place = to / "crates" / self.name / source.relative_to(self.folder).with_suffix("")
            place.parent.mkdir(parents=True, exist_ok=True)
            shutil.copyfile(source, place)

    def _prove(self, copy):
        """Proves all crates of a copy. Where that fails, what was printed is shown, and all ends."""
        how = {"stdin": subprocess.DEVNULL, "stdout": subprocess.PIPE, "stderr": subprocess.STDOUT}
        done = subprocess.run(["rt", "ci"], cwd=copy, text=True, **how)
        if done.returncode != 0:
            sys.exit(f"{done.stdout}{self.folder.parent.name}: rt ci of {self.name} failed")

    def _below(self):
        """What it stands on: the lines of the repository's crates, by their names, and its crates of tests."""
        lines = {name_of(line): line for line in (ROOT / "crates.txt").read_text().splitlines() if ":" in line and line[0] != "#"}
        tests = {it.parent.name: it.parent for it in ROOT.glob("tests/*/crate.txt")}
        below, texts, names = {}, {}, uses_of(self.line)
        while names:
            name = names.pop()
            if name in lines and name not in below:
                below[name] = lines[name]
                names += uses_of(lines[name])
            elif name in tests and name not in texts:
                texts[name] = TextCrate(tests[name])
                names += uses_of(texts[name].line)
        return below, [*texts.values()]

    def _copy(self, to, below, texts):
        """Makes a repository of this crate and those below it."""
        for name in below:
            for part in ("src", "specs", "proofs"):
                if (ROOT / "crates" / name / part).is_dir():
                    shutil.copytree(ROOT / "crates" / name / part, to / "crates" / name / part)
        for it in [self, *texts]:
            it.put(to)
        (to / ".git").mkdir()
        shutil.copy(ROOT / "HANDLES", to)
        (to / "crates.txt").write_text("\n".join([*below.values(), *(it.line.strip() for it in texts), self.line]))
