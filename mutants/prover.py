"""What the scripts of this folder know of a crate and of what the prover says of it: its functions, and what comes of an edit."""
import collections
import copy
import hashlib
import json
import os
import re

from edits import Unfit

PARTS = ("src", "specs", "proofs")
# What the prover says at a place: an error, or a goal that is not proved.
TOLD = re.compile(r"(?P<note>note: )?(?:\./)?(?P<file>(?:src|specs|proofs)/\S+?):(?P<line>\d+):\d+: (?P<error>error)?")
# A proof file that names what the edit took away, and what cites that proof.
LOST = re.compile(r"(\./)?proofs/.*(has no field|is not in scope|has no `|was not admitted)")
# A text that the prover cannot read, where an edit that only makes a statement false reads well.
UNREAD = re.compile(r"is not in scope|has no field|is no name|operand is missing|expected the end|cannot continue")

Function = collections.namedtuple("Function", "file start body end name path unit of_trait")
Result = collections.namedtuple("Result", "kind text")
# What a check says: of all edits at once, of places, first of all, and of functions, by their paths.
Check = collections.namedtuple("Check", "kind told first functions", defaults=(None,))

REFUSED, LOST_NAME, THROUGH = "refused", "REFUSED ONLY BY A LOST NAME", "LET THROUGH"
NOT_APPLIED, NOT_COMPILED, NO_VERDICT, NOT_TRIED = "DOES NOT APPLY", "DOES NOT COMPILE", "NO VERDICT", "NOT TRIED"


def functions_of(texts):
    """The functions of a crate, by the texts of its files."""
    files = [path for path in sorted(texts) if path.endswith(".rt")]
    declared = re.compile(r"^(?:pub(?:\([a-z]+\))? )?(?:struct|enum) (\w+)", re.M)
    homes = {name: module_of(path) for path in files for name in declared.findall(texts[path])}
    return [it for path in files for it in functions_in(path, texts[path], homes)]


def functions_in(file, text, homes):
    """The functions of a file that rt fmt laid out, each with its lines, where its body begins, how it is called for
    short, its path as the prover prints it, the unit in which it is proved: itself, or the cycle of calls that it is in,
    and whether it is a method of a trait."""
    lines, found, block, cycle, module = text.split("\n"), [], "", None, module_of(file)
    for at, line in enumerate(lines):
        if re.match(r"(?:unsafe )?(?:impl|(?:pub )?trait)\b", line):
            block = " ".join(lines[at : at + 12]).partition("{")[0]
        elif line == "}":
            block = ""
        if not re.match(r" *(#|//|$)", lines[at - 1]):
            cycle = None
        cycle = re.match(r" *#\[cycle\((\w+)\)\]", line) or cycle
        head = re.match(r"( *)(?:pub(?:\([a-z ]+\))? )?(?:final )?(?:const )?(?:unsafe )?fn (\w+)", line)
        lasts = body_of(lines, at, head[1]) if head else None
        if lasts:
            owner, above = owners_of(block, module, homes) if head[1] and block else ("", module)
            name, path = f"{owner}::{head[2]}" if owner else head[2], f"{above}::{head[2]}".removeprefix("::")
            unit = f"cycle {cycle[1]}" if cycle else f"{file}:{at}"
            of_trait = bool(head[1] and re.match(r"(?:pub )?trait\b|.*\bfor (?!<)", block.partition(" where ")[0]))
            found.append(Function(file, attributes_above(lines, at), *lasts, name, path, unit, of_trait))
    return found


def body_of(lines, at, indent):
    """Where the body of the function at a line with this indentation begins, and where it ends. None if it has no body."""
    if lines[at].endswith("}") and lines[at].count("{") == lines[at].count("}"):
        return at, at
    # (a method that a trait only names can end in a clause: then the next item comes first, or what closes the trait)
    next_item = re.compile(rf"(?!{indent})|{indent}(\}}|///|#|ghost |(pub |final |const |unsafe )*fn )")
    ends = next((it for it in range(at + 1, len(lines)) if lines[it] and next_item.match(lines[it])), len(lines))
    # (an edit can put the body's first statement behind the brace)
    opens = next((it for it in range(at, ends) if is_at(lines[it], indent) and (is_open(lines[it]) or lines[it].endswith(("{}", ";")))), None)
    if opens is None or lines[opens].endswith(";") and not is_open(lines[opens]):
        return None
    if lines[opens].endswith("{}"):
        return opens, opens
    return opens, next((it for it in range(opens, len(lines)) if lines[it] == f"{indent}}}"), opens)


def is_open(line):
    """Whether a line leaves a brace open."""
    return line.count("{") > line.count("}")


def attributes_above(lines, at):
    """Where the attributes of a function begin. The prover reports at the first of them what it did not prove of the function."""
    while at and re.match(r" *(#\[|//)", lines[at - 1]):
        at -= 1
    return at


def is_at(line, indent):
    """Whether a line has just this indentation."""
    return line.startswith(indent) and not line.startswith(f"{indent} ")


def module_of(file):
    """The path of a file's module below its crate."""
    return re.sub(r"^(lib|main|mod)$|/mod$", "", file[len("src/") : -len(".rt")]).replace("/", "::")


def owners_of(head, module, homes):
    """The type of an impl's head or the name of a trait, and the path of that block as the prover prints it: of a type that has traits
    there after its name, with the types that it and they are passed, and without a trait where the type is declared."""
    head = re.sub(r"^(unsafe )?(impl|pub trait|trait)\b", "", head).strip()
    params, head = bracketed(head) if head.startswith("<") else ("", head)
    own = re.findall(r"(?:^<|, ?)(?:const )?(\w+)", params)
    of_trait, _, of_type = head.partition(" where ")[0].rpartition(" for ")
    of_trait = re.sub(r"^(\w+::)+", "", of_trait)
    owner, passed = last_name(of_type), of_type.partition("<")[2]
    if of_trait in ("", "Drop"):
        # (an alias is printed with what it is passed)
        is_whole = owner in homes and not words_in(passed, own)
        at = homes[owner] if is_whole and not of_trait else module
        return owner, f"{at}::{owner if is_whole else '+'.join([owner, *words_in(passed, [])])}"
    name = "Any" if owner in own else owner
    return owner, f"{module}::{name}{''.join(words_in(passed, own) + words_in(of_trait, own))}"


def words_in(text, own):
    """The names of types in a text, as the prover joins them, without parameters of the block's own."""
    names = re.findall(r"\(\)|[\w:]+", re.sub(r"'\w+", "", text))
    return ["Unit" if it == "()" else word_of(it) for it in names if it not in own]


def word_of(path):
    """The parts of a path as one word, each with a capital."""
    return "".join(it[:1].upper() + it[1:] for it in path.split("::"))


def bracketed(text):
    """A text's front that begins with `<`, up to where that closes, and the rest."""
    depth = 0
    for at, sign in enumerate(text):
        depth += (sign == "<") - (sign == ">" and text[at - 1] not in "-=")
        if not depth:
            return text[: at + 1], text[at + 1 :].strip()
    return text, ""


def last_name(text):
    """The last name of the path that a text begins with."""
    return (re.match(r"[&\s]*([\w:]+)", text) or ["", ""])[1].rpartition("::")[2]


class Crate:
    """A crate of the repository: its sources, its functions, the libraries that crates.txt has for it, the crates below it, and a sum
    of its sources and of theirs."""

    def __init__(self, name, files, uses, below, sums):
        self.name, self.uses, self.below = name, uses, below
        own = {path.split("/", 2)[2]: text for path, text in files.items() if path.startswith(f"crates/{name}/")}
        self.texts = {path: text.decode("utf-8") for path, text in own.items() if path.split("/")[0] in PARTS}
        self.functions = functions_of(self.texts)
        self.sum = sum_of(sorted(self.texts.items()), [sums[it] for it in below])

    def edited(self, changed):
        """The crate with these texts in place of its own."""
        made = copy.copy(self)
        made.texts = {**self.texts, **changed}
        made.functions = functions_of(made.texts)
        return made

    def function_at(self, file, line):
        """The function at a line, counted from 0, or None."""
        found = [it for it in self.functions if it.file == file and it.start <= line <= it.end]
        return found[-1] if found else None

    def changed_by(self, edit):
        """The functions in whose bodies the edit's places are, or none if one of them is in no body."""
        try:
            _, places = edit.applied(self.texts)
        except Unfit:
            return []
        found = [self.function_at(*it) for it in places]
        if any(it is None or line < it.body for it, (_, line) in zip(found, places)):
            return []
        return found

    def units_of(self, edit):
        """The units in which the functions of an edit are proved."""
        return {it.unit for it in self.changed_by(edit)}

    def function_of_proof(self, file):
        """The name of the function whose written answers a file of proofs/ has, or of the file's lemmas."""
        parts = file.split("/")[1:-1]
        if not parts:
            return os.path.basename(file).partition(".")[0]
        if parts[-1].startswith("+"):
            return parts[-1][1:]
        return "::".join(parts[-2:]) if len(parts) > 1 and parts[-2][:1].isupper() else parts[-1]

    def told(self, line):
        """What a line of a check says of a place: the unit that it is in, whether it only names what is lost, and the
        function and goal for people. None for another line."""
        at = TOLD.match(line)
        if not at or not (at["note"] or at["error"]):
            return None
        rest, file = line[at.end() :], at["file"]
        goal = re.search(r"\(`([^`]*)`\)", rest) if at["note"] else re.match(r": `([^`]*)`", rest)
        if at["note"] and not goal:
            return None
        if file.startswith("src/"):
            function = self.function_at(file, int(at["line"]) - 1)
            unit, by = (function.unit, f"`{function.name}`") if function else (None, f"{file}:{at['line']}")
        else:
            name = self.function_of_proof(file)
            unit, by = self.unit_of_proof(file), f"the proof of `{name}`"
        if not goal:
            return unit, bool(LOST.match(line)), f"{by}: {rest[2:][:120]}"
        # (of a cycle of calls a goal begins with the function that it is of)
        first, _, more = goal[1].partition("-")
        member = more and any(it.unit == unit and it.name.rpartition("::")[2] == first for it in self.functions)
        if member and str(unit).startswith("cycle "):
            by, goal = re.sub(r"`.*`", f"`{first}`", by), more
        else:
            goal = goal[1]
        said = "the invariant of its type" if goal.startswith("invariant_of-") else f"`{goal}`"
        return unit, bool(LOST.match(line)), f"{by}: {said}"

    def unit_of_proof(self, file):
        """The unit of the function whose answers a file of proofs/ has, or None if that isn't plain."""
        *folders, last = file.split("/")[1:-1] or [""]
        if last.startswith("+"):
            return f"cycle {last[1:]}"
        owner = next((it for it in folders if it[:1].isupper()), "")
        module = "/".join(it for it in folders if it != owner)
        found = set()
        for it in self.functions:
            of_type, _, name = it.name.rpartition("::")
            if name == last and bool(of_type) == bool(owner) and owner.startswith(of_type):
                if re.sub(r"^(lib|main)$", "", it.file[len("src/") : -len(".rt")]) == module:
                    found.add(it.unit)
        return found.pop() if len(found) == 1 else None


def sum_of(*values):
    """A sum of some values."""
    return hashlib.sha256(json.dumps(values).encode()).hexdigest()


def crates_of(files):
    """The repository's crates by name, each with all of its libraries below it, lowest first."""
    uses = {}
    for line in files["crates.txt"].decode().split("\n"):
        head, colon, deps = line.partition("#")[0].partition(":")
        if colon:
            uses[head.split()[0]] = deps.split()
    found = {}

    def add(name):
        if name not in found:
            deps = [it for it in uses[name] if it in uses]
            for it in deps:
                add(it)
            below = []
            for it in deps:
                below += [up for up in [*found[it].below, it] if up not in below]
            found[name] = Crate(name, files, uses[name], below, {it: found[it].sum for it in below})

    for name in uses:
        add(name)
    return found


def judged(crate, changed, status, lines):
    """What a check with some edits says: a kind if it says the same of all of them (that they don't compile, have no
    verdict, or are let through), otherwise each thing that it says of a place."""
    last = next((it for it in reversed(lines) if it.startswith(("logic=", "only=", "holes=", "rattle: no verdict"))), "")
    if status == 0 and re.match(r"logic=proved |only=(\d+) proved=\1$", last):
        return Check(THROUGH, [], "")
    errors = [it for it in lines if re.match(r"\S+:\d+:\d+: error|error", it)]
    bad = next((it for it in errors if unread(it, changed)), "")
    if bad:
        return Check(NOT_COMPILED, [], bad)
    if last.startswith(("logic=not-proved", "only=", "holes=")) and status == 1:
        told = [it for it in map(crate.told, lines) if it]
        functions = dict(it.groups() for it in (re.match(rf"fn {crate.name}::(\S+): (.*)", it) for it in lines) if it)
        return Check(None, told, unproved_in(lines), functions)
    if last or status not in (1, 2):
        return Check(NO_VERDICT, [], last or "\n".join(lines[-3:]))
    return Check(NOT_COMPILED, [], (errors or [it for it in lines if it] or [""])[0])


def unproved_in(lines):
    """The first line that reports something that is not proved."""
    return next((it for it in lines if re.match(r"(fn|impl|struct|enum) \S+: (?!proved)", it)), "")


def unread(line, changed):
    """Whether the prover could not read a text of src/, of specs/ or of an edited file."""
    at = re.match(r"(?:\./)?(\S+?):\d+:\d+: error: (?:(`[^`]*`): )?(.*)", line)
    if not at or at[1] not in changed and not at[1].startswith(("src/", "specs/")):
        return False
    return not at[2] or bool(UNREAD.search(re.sub(r"`[^`]*`", "", at[3])))


def alone(check):
    """What comes of an edit that was tried alone."""
    if check.kind:
        return Result(check.kind, check.first)
    for _, is_lost, text in check.told:
        if not is_lost:
            return Result(REFUSED, text)
    if check.told:
        return Result(LOST_NAME, check.told[0][2])
    return Result(REFUSED, check.first)


def next_batch(crate, edits, most):
    """Edits that can be tried at once, each of other functions, at most so many, and the rest."""
    batch, used, texts, rest = [], set(), dict(crate.texts), []
    for edit in edits:
        units = crate.units_of(edit)
        try:
            made, _ = edit.applied(texts)
        except Unfit:
            made = None
        if made is None or units & used or len(batch) == most:
            rest.append(edit)
            continue
        batch.append(edit)
        used |= units
        texts.update(made)
    return batch, rest


def texts_with(crate, batch):
    """The texts of the files that some edits of a crate change, with all of them in place."""
    texts = dict(crate.texts)
    for edit in batch:
        texts.update(edit.applied(texts)[0])
    return {path: text for path, text in texts.items() if text != crate.texts[path]}
