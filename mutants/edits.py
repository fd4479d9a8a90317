"""Edits that make a body wrong, and the sources to which they are applied."""
import os
import subprocess
import sys

ROOT = os.path.dirname(os.path.dirname(os.path.realpath(__file__)))
# The folders in mutants/ whose edits tests see, and runs of the program; each other one has the edits of a crate, which the prover refuses.
TRIED_BY_TESTS = "by_tests"
TRIED_BY_RUNS = "by_runs"
# The folder of the crates of tests.
TESTS = "tests"


class Unfit(Exception):
    """Why an edit can't be applied."""


# The line of an edit that says what refused it when it was last tried.
REFUSED_BY = "refused-by"
# What the line of an edit that must not compile begins with.
ERROR = "error"


class Edit:
    """One edit: its name, its file, its text without the line of what refused it, that line, the test or the step of a run that it
    names, if it names one, what has to be checked beside the functions that it changes, the pairs of it by file, and a line that is none of
    these."""

    def __init__(self, name, path):
        self.name, self.path, self.test, self.seen_by, self.refused_by = name, path, None, None, None
        self.checks, self.pairs, self.unread = [], [], None
        with open(path, encoding="utf-8") as it:
            lines = it.read().split("\n")
        self.text = "\n".join(line for line in lines if not line.startswith(f"{REFUSED_BY}:"))
        file = old = None
        for line in lines:
            word, _, rest = line.partition(":")
            rest = rest[1:] if rest.startswith(" ") else rest
            if word == "test":
                self.test = rest.strip()
            elif word == "seen-by":
                self.seen_by = rest.strip()
            elif word == REFUSED_BY:
                self.refused_by = rest.strip()
            elif word == "checks":
                self.checks.append(rest.strip())
            elif word == "file":
                file = rest.strip()
            elif word == "old":
                old = rest
            elif word == "new":
                self.pairs.append((file, old, rest))
            elif line and word != ERROR:
                self.unread = line

    def note(self, refused_by):
        """Writes into the file what refused the edit, or takes that line out of it."""
        if refused_by == self.refused_by:
            return
        self.refused_by = refused_by
        line = f"{REFUSED_BY}: {refused_by}\n" if refused_by else ""
        write(self.path, (line + self.text).encode())

    def applied(self, texts):
        """The texts of the files with this edit in them, of those that it changes, and each place by file and line.
        `Unfit` where it can't be applied."""
        made, places = {}, []
        if not self.pairs:
            raise Unfit("it has no 'old:' and 'new:' pair")
        if self.unread:
            raise Unfit(f"a line of it is none of an edit: {self.unread.strip()}")
        for file, old, new in self.pairs:
            if file not in texts:
                raise Unfit(f"there is no file {file}")
            text = made.get(file, texts[file])
            if old == new:
                raise Unfit(f"an 'old:' text of {file} is its 'new:' text too")
            if not old or text.count(old) != 1:
                raise Unfit(f"an 'old:' text is in {file} {text.count(old) if old else 0} times, and not once")
            places.append((file, text[: text.index(old)].count("\n")))
            made[file] = text.replace(old, new)
        return made, places


def listed(folder):
    """The edits of a folder, by file."""
    return sorted(it for it in os.listdir(folder) if it.endswith(".edit")) if os.path.isdir(folder) else []


def edits_asked(folder, words):
    """The edits of a folder of mutants/ that these words name, or all of them."""
    made = {it.removesuffix(".edit"): f"{ROOT}/mutants/{folder}/{it}" for it in listed(f"{ROOT}/mutants/{folder}")}
    names = [it.removesuffix(".edit").rpartition("/")[2] for it in words] or list(made)
    for name in names:
        if name not in made:
            sys.exit(f"mutants/{folder}: there is no edit {name}")
    return [Edit(name, made[name]) for name in names]


def sources():
    """The bytes of each file of a crate that git has or would have, by its path in the repository. Crates of tests are kept as text: of these it
    is the path in a copy in which they are crates as all others."""
    words = ["git", "ls-files", "-z", "-c", "-o", "--exclude-standard"]
    listed = subprocess.run(words, cwd=ROOT, stdout=subprocess.PIPE, check=True).stdout.decode().split("\0")
    found, lines = {}, []
    for path in filter(lambda it: os.path.isfile(f"{ROOT}/{it}"), listed):
        top, _, inner = path.partition("/")
        if top not in ("crates", "crates.txt", "HANDLES", TESTS) or path == f"{TESTS}/run":
            continue
        with open(f"{ROOT}/{path}", "rb") as it:
            text = it.read()
        if path.endswith("/crate.txt"):
            lines.append(text)
        else:
            found[f"crates/{inner.removesuffix('.txt')}" if top == TESTS else path] = text
    found["crates.txt"] += b"".join(lines)
    return found


def write(path, text):
    """Writes a file where it hasn't these bytes."""
    os.makedirs(os.path.dirname(path), exist_ok=True)
    if os.path.isfile(path):
        with open(path, "rb") as it:
            if it.read() == text:
                return
    with open(path, "wb") as it:
        it.write(text)
