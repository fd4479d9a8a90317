"""Edits in copies, over contracts. The body that an edit makes wrong stands in a copy of its function, right behind it, with a copy of what was
written of its proof. Whatever calls the function goes on calling it as it stands: so edits of one function, of its callers and of what it
calls are tried in one check, and none hides what comes of another. A function is proved against the contracts of those that it calls: so
a hole can stand for a proof of these, where it is known that they are proved."""
import collections
import re

from prover import functions_of

# What a copy has behind its function's name, before the number of its edit.
MARK = "_edit"
# A proof of a function that is one hole, and where it stands in the function's folder.
HOLE_FILE = "/Proof.antt"
HOLE = """\
use Rattle.{crate}.proofs.{path}.Statement.{{statement}}

pub {name}_spec : {{M : Type 1}} → statement M
{name}_spec = ?
"""
# A body that never ends: it has each type, and calls nothing.
ENDLESS = "loop {}"
# How the head of a function begins, before its name.
HEAD = r"( *(?:pub(?:\([a-z ]+\))? )?(?:final )?(?:const )?(?:unsafe )?fn )"


def can_copy(crate, functions):
    """Whether these functions of a crate can have copies. A trait has each method once, functions that call each other have one proof, and a
    lemma that names the goals of a function says nothing of those of its copy."""
    return bool(functions) and not any(it.of_trait or it.unit.startswith("cycle ") or is_named(crate, it) for it in functions)


def is_named(crate, function):
    """Whether a text of the crate that isn't of the proof of a function names what that has."""
    folder = f"proofs/{function.path.replace('::', '/')}/"
    name = f"Rattle.{crate.name}.{folder.replace('/', '.')}"
    return any(name in text for path, text in crate.texts.items() if not path.startswith(folder))


def with_copies(crate, edits):
    """The texts that copies for these edits change or add in a crate, and for each edit the paths of its copies."""
    texts, behind, paths = dict(crate.texts), collections.defaultdict(list), []
    for number, edit in enumerate(edits):
        edited = {**crate.texts, **edit.applied(crate.texts)[0]}
        bodies = {(it.file, it.path): it for it in functions_of(edited)}
        functions = dict.fromkeys(crate.changed_by(edit))
        for it in functions:
            made = bodies[it.file, it.path]
            lines = edited[it.file].split("\n")[made.start : made.end + 1]
            behind[it.file].append((it.end + 1, ["", *renamed(lines, name_of(it), number)]))
            texts.update(proofs_of_copy(crate, it, number))
        paths.append([f"{it.path}{MARK}{number}" for it in functions])
    for file, copies in behind.items():
        lines = texts[file].split("\n")
        for at, copy in sorted(copies, key=lambda it: it[0], reverse=True):
            lines[at:at] = copy
        texts[file] = "\n".join(lines)
    return {path: text for path, text in texts.items() if text != crate.texts.get(path)}, paths


def holes(crate, paths, with_bodies=False):
    """The texts by which a check takes each function of a crate by its contract, but those at these paths: a hole stands for its proof, and
    what was written of that, here None, goes. So does its body, in place of which one stands that never ends, unless it is asked for: what
    only it calls isn't looked at then."""
    texts, files = {}, {}
    for it in crate.functions:
        if it.path in paths or it.name == "main" or it.unit.startswith("cycle "):
            continue
        folder = f"proofs/{it.path.replace('::', '/')}"
        written = [f"{folder}/Answers.antt", f"{folder}/Invariants.antt"]
        # (that of a `Drop` takes its value apart)
        if not with_bodies and name_of(it) != "drop" and it.end > it.body + 1:
            lines = files.setdefault(it.file, crate.texts[it.file].split("\n"))
            lines[it.body + 1 : it.end] = [ENDLESS, *[""] * (it.end - it.body - 2)]
            of_closures = f"{folder.rpartition('/')[0]}/fn/{name_of(it)}/"
            written += [path for path in crate.texts if path.startswith(of_closures)]
        texts.update({path: None for path in written if path in crate.texts})
        texts[f"{folder}{HOLE_FILE}"] = HOLE.format(path=it.path.replace("::", "."), crate=crate.name, name=name_of(it))
    return {**texts, **{file: "\n".join(lines) for file, lines in files.items()}}


def name_of(function):
    """A function's own name."""
    return function.path.rpartition("::")[2]


def renamed(lines, name, number):
    """The lines of a function, as those of its copy."""
    at = next(it for it, line in enumerate(lines) if re.match(rf"{HEAD}{name}\b", line))
    return [*lines[:at], re.sub(rf"{HEAD}{name}\b", rf"\g<1>{name}{MARK}{number}", lines[at], count=1), *lines[at + 1 :]]


def proofs_of_copy(crate, function, number):
    """What was written of a function's proof, as that of its copy. What stands in a function, as the body of a scope, has a folder below `fn`."""
    above, name = "/".join(["proofs", *function.path.split("::")[:-1]]), name_of(function)
    moves = [(f"{above}/{inner}{name}/", f"{above}/{inner}{name}{MARK}{number}/") for inner in ("", "fn/")]
    made = {}
    for path, text in crate.texts.items():
        to = next((new + path[len(old) :] for old, new in moves if path.startswith(old)), None)
        if to:
            for old, new in moves:
                text = text.replace(*(f"Rattle.{crate.name}.{it.replace('/', '.')}" for it in (old, new)))
            made[to] = text
    return made


def unmarked(text):
    """A text that names copies, by the names of their functions."""
    return re.sub(rf"{MARK}\d+\b", "", text)
