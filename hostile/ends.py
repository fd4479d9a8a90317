"""Meters and head ends in processes of their own, and what they are asked, as `hostile/daemons` tries them."""

import contextlib
import hashlib
import importlib.machinery
import importlib.util
import os
import pathlib
import re
import select
import signal
import socket
import subprocess
import sys
import tempfile
import textwrap
import threading
import time

ROOT = pathlib.Path(__file__).resolve().parent.parent
# The proved program.
PROVED = ROOT / "crates" / "dlmsfw" / "out" / "dlmsfw"
# The options of the meter that the examples are for, as `answer` has them where none are given.
SMALL = ["--block-size", "2", "--capacity", "64"]
# A GET of the status, and one of the name of the running image.
GET_STATUS = "000100010001000dc001c1001200002c0000ff0600"
GET_NAME = "000100010001000dc001c100010100000200ff0200"
STATUS = "0001000100010006c401c10016%02x"
# A SET of image_transfer_enabled to true, and the reply to it that the store failed.
SET_ENABLED = "000100010001000fc101c1001200002c0000ff05000301"
ANSWERS_FAULT = "0001000100010004c501c101"
# How long a reply may take, and how long none is waited for.
LONG, SHORT = 20, 0.3
# The seconds between two lines of a meter about what it dropped, and some more.
MINUTE = 65

program = []


class Failed(Exception):
    """What a try found wrong."""


class Killed(Exception):
    """A process was killed before it was ready."""


def wants(holds, why):
    """Fails a try if something doesn't hold."""
    if not holds:
        raise Failed(why)


def proved():
    """The words that start the proved program, which is proved first if it isn't there or is of other sources."""
    subprocess.run([ROOT / "dlmsfw", "answer"], stdin=subprocess.DEVNULL, stdout=subprocess.DEVNULL, check=True)
    return [PROVED]


def is_good(test, *given):
    """Makes a try in a folder of its own, and prints what came of it."""
    try:
        with tempfile.TemporaryDirectory() as folder:
            test(pathlib.Path(folder), *given)
    except (Failed, subprocess.SubprocessError, OSError) as why:
        print(f"{test.__name__}: FAILED: {textwrap.shorten(str(why), 600)}", flush=True)
        return False
    print(f"{test.__name__}: ok", flush=True)
    return True


def with_invoke_byte(line, byte):
    """A datagram with this byte in the place of its invoke byte, which has the invoke-id."""
    return line[:20] + byte + line[22:]


def title(kind, number):
    """The system title of an end: `H`, a head end, or `M`, a meter."""
    return b"KZB" + kind + number.to_bytes(4, "big")


def write_keys(path, text, mode=0o600):
    """Writes a file of keys, which no one but its owner may read."""
    path.write_text("")
    path.chmod(mode)
    path.write_text(text)


class Head:
    """A socket that asks a meter."""

    def __init__(self, host="127.0.0.1"):
        self.socket = socket.socket(socket.AF_INET6 if ":" in host else socket.AF_INET, socket.SOCK_DGRAM)
        self.socket.bind((host, 0))
        self.invoke = 0

    def address(self):
        """The address that it asks from, as an option has it."""
        host, port = self.socket.getsockname()[:2]
        return f"[{host}]:{port}" if ":" in host else f"{host}:{port}"

    def ask(self, meter, line, patience=LONG):
        """The reply to a datagram, and `-` where none comes in this time."""
        self.socket.sendto(bytes.fromhex(line), meter.address)
        return self.hear(patience)

    def ask_until(self, meter, line):
        """The reply to a datagram, which is sent again where it or its reply is lost in the noise. A late reply has another invoke-id."""
        self.invoke = (self.invoke + 1) % 16
        byte = f"{0xc0 | self.invoke:02x}"
        line = with_invoke_byte(line, byte)
        for _ in range(20):
            got = self.ask(meter, line, 2)
            while got not in ("-", with_invoke_byte(got, byte)):
                got = self.hear(2)
            if got != "-":
                return with_invoke_byte(got, "c1")
        raise Failed(f"{line[:60]} gets no reply")

    def hear(self, patience):
        """The next reply, and `-` where none comes in this time."""
        if not select.select([self.socket], [], [], patience)[0]:
            return "-"
        return self.socket.recv(65535).hex()


def script(name):
    """A script of hostile/ as a module."""
    loader = importlib.machinery.SourceFileLoader(name, str(pathlib.Path(__file__).with_name(name)))
    module = importlib.util.module_from_spec(importlib.util.spec_from_loader(name, loader))
    sys.modules[name] = module
    loader.exec_module(module)
    return module


def preloaded(library, **settings):
    """The environment of a program that this library is preloaded to, with its settings."""
    return {**os.environ, "LD_PRELOAD": str(library), **{name: str(value) for name, value in settings.items()}}


class Meter:
    """A meter in a process of its own."""

    def __init__(self, store, *words, listen="127.0.0.1:0", env=None):
        self.process = subprocess.Popen([*program, "meter", "--listen", listen, "--store", store, *words], env=env,
                                        stdin=subprocess.DEVNULL, stdout=subprocess.PIPE, stderr=subprocess.PIPE, text=True)
        self.lines = []
        self.reader = threading.Thread(target=lambda: self.lines.extend(self.process.stdout), daemon=True)
        first = self.process.stdout.readline()
        found = re.fullmatch(r"listening (?:\[(.*)\]|(.*)):(\d+)\n", first)
        if not found:
            status = self.process.wait(LONG) if not first else None
            self.process.kill()
            said = self.process.communicate()[1]
            if (status, said) == (-signal.SIGKILL, ""):
                raise Killed
            raise Failed(f"the first line is {first!r}, it ended with {status}, and it says {said!r}")
        self.address = (found[1] or found[2], int(found[3]))
        self.reader.start()

    def kill(self):
        """Kills it, at whatever it does, and returns the lines that it printed after the first. It may not have ended by itself."""
        if self.process.stdout.closed:
            return self.lines
        self.process.kill()
        status = self.process.wait()
        self.reader.join()
        said = self.process.stderr.read()
        self.process.stdout.close()
        self.process.stderr.close()
        wants((status, said) == (-signal.SIGKILL, ""), f"the meter ended with {status} and {said!r}")
        return self.lines

    @contextlib.contextmanager
    def killed(self):
        """Kills it at the end."""
        try:
            yield self
        finally:
            self.kill()


def wrapped(apdu):
    """A datagram with an APDU from wPort 1 to wPort 1."""
    return f"000100010001{len(apdu) // 2:04x}{apdu}"


def action(method, parameter):
    """The datagram that invokes a method of Image transfer."""
    return wrapped(f"c301c1001200002c0000ff{method:02x}01{parameter}")


def transfer(image, serial=1):
    """The datagrams that bring an image in blocks of 1024 bytes, up to the last block."""
    name = f"01{7:08x}{serial:08x}{hashlib.sha256(image).hexdigest()}"
    yield SET_ENABLED
    yield action(1, f"02020929{name}06{len(image):08x}")
    for at in range(0, len(image), 1024):
        block = image[at:at + 1024]
        yield action(2, f"020206{at // 1024:08x}0982{len(block):04x}{block.hex()}")


def receive(head, meter, image):
    """Brings an image to a meter, and lets it verify and activate it."""
    for line in transfer(image):
        got = head.ask_until(meter, line)
        wants(got.endswith("00"), f"the reply to {line[:60]} is {got}")
    head.ask_until(meter, action(3, "0f00"))
    for _ in range(1000):
        status = head.ask_until(meter, GET_STATUS)
        if status != STATUS % 2:
            break
        # As a head end does: a meter takes a turn if nothing comes.
        time.sleep(0.005)
    wants(status == STATUS % 3, f"the status is {status}")
    got = head.ask_until(meter, action(4, "0f00"))
    wants(got.endswith("00"), f"the reply to an activate is {got}")


# Lines of how far a head end is, and of what it goes on with.
GOING_ON = re.compile(r"going on with campaign \d+ \d+: \d+ live, \d+ done, \d+ failed")
PROGRESS = re.compile(r"(?P<known>\d{1,4}|\d{1,3}[kM])/(?P<needed>\d{1,4}|\d{1,3}[kM]) blocks(?: (?P<percent>\d+)%)?, "
                      r"(?P<live>\d+) live, (?P<done>\d+) done, (?P<failed>\d+) failed, (?P<rate>\d{1,4}|\d{1,3}[kM])/s"
                      r"(?:, (?P<again>\d+)% again)?(?:, ~(?P<left>\d+[smhd]))?"
                      r"(?:, (?P<strangers>\d+) strangers)?(?:, (?P<faults>\d+) faults)?(?:, (?P<unopened>\d+) unopened)?")


def without_notes(said):
    """The lines of standard error, except those of progress, one each minute, of what a head end goes on with, and of records behind a shut
    gate: a head end that is killed in a commit leaves such records."""
    return [line for line in (said or "").splitlines()
            if "behind a shut gate" not in line and not PROGRESS.fullmatch(line) and not GOING_ON.fullmatch(line)]


class HeadEnd:
    """A head end in a process of its own."""

    def __init__(self, folder, *words, head="7", listen="127.0.0.1:0", env=None, terminal=subprocess.PIPE,
                 out=subprocess.PIPE):
        self.process = subprocess.Popen([*program, "head", "--head", head, "--book", folder / "head.book", "--meters",
                                         folder / "meters.csv", "--listen", listen, *words], env=env,
                                        stdin=subprocess.DEVNULL, stdout=out, stderr=terminal, text=True)

    def kill(self):
        """Kills it, at whatever it does, and returns the lines that it printed. Before that it may have ended well, or with a row that failed."""
        self.process.kill()
        out, said = self.process.communicate()
        status = self.process.returncode
        wants(status in (0, 4, -signal.SIGKILL) and not without_notes(said), f"the head end ended with {status} and {said!r}")
        return out.splitlines()

    def end(self, patience=60):
        """Waits until it ends by itself, and returns its status, the lines that it printed, and those of standard error without notes."""
        try:
            out, said = self.process.communicate(timeout=patience)
        except subprocess.TimeoutExpired:
            lines = self.kill()
            raise Failed(f"it doesn't end, and printed {lines[-3:]}") from None
        return self.process.returncode, out.splitlines(), without_notes(said)

    def over(self, patience=60):
        """Waits until it ends by itself, with nothing on standard error and status 0, or 4 where a row failed, and returns the lines that it
        printed."""
        status, lines, said = self.end(patience)
        failed = re.fullmatch(r"over done \d+ failed (\d+)", lines[-1] if lines else "")
        wants(failed and (status, said) == (4 if int(failed[1]) else 0, []), f"the head end ends with {status} and {said}, and printed {lines[-3:]}")
        return lines

    @contextlib.contextmanager
    def running(self):
        """Has it run no longer than it is needed."""
        try:
            yield self
        finally:
            self.process.kill()
            self.process.wait()


def status_of(folder, form):
    """What `status` prints of the book in a folder."""
    made = subprocess.run([*program, "status", "--book", folder / "head.book", "--report", form], capture_output=True, text=True,
                          timeout=60, check=False)
    wants(made.returncode == 0, f"status ends with {made}")
    return made.stdout


def fields_of(folder):
    """The rows that `status` prints of the book in a folder, by their columns. Each has the time of its opening, one that is done or failed that
    of its end, both of the last day, and a failed one its reason."""
    headings, *lines = status_of(folder, "csv").splitlines()
    wants(headings == "head,campaign,meter,state,opened,ended,reason", f"status has the headings {headings}")
    rows = [line.split(",") for line in lines]
    for *_, state, opened, ended, reason in rows:
        told = opened.isdigit(), ended.isdigit(), reason != ""
        wants(told == (True, state in ("done", "failed"), state == "failed"), f"status prints {lines}")
        wants(time.time() - 86400 < int(opened) <= int(ended or opened) <= time.time(), f"status prints {lines}")
    return rows


def rows_of(folder):
    """The rows of the book in a folder with their states, as `7,1,1,done`."""
    return [",".join(row[:4]) for row in fields_of(folder)]


def ended_rows(folder):
    """The rows of the book in a folder that are done or failed, as a head end tells them: `row 7 1 1 failed: start code 250 other-reason`."""
    rows = [(" ".join(["row", *row[:4]]), row[3], row[6]) for row in fields_of(folder)]
    return [f"{line}: {reason}" if reason else line for line, state, reason in rows if state in ("done", "failed")]


class Fleet:
    """Meters in processes of their own, and the list of them. Each has an address of its own, which it keeps if it is killed."""

    def __init__(self, folder, count=4, host="127.0.0.1", words=("--block-size", "1024", "--capacity", "65536"), heads=None):
        folder.mkdir(exist_ok=True)
        self.folder, self.count, self.words = folder, count, words
        # The address that may ask each besides who asks here, where not any may.
        self.asker, self.heads = Head(host.strip("[]")), heads or {}
        self.meters = {number: self.start(number, f"{host}:0") for number in range(1, count + 1)}
        self.addresses = {number: f"{host}:{meter.address[1]}" for number, meter in self.meters.items()}
        self.list(self.addresses)

    def list(self, addresses):
        """Writes the list of the head end, with these addresses."""
        (self.folder / "meters.csv").write_text("".join(f"{number},{at}\n" for number, at in addresses.items()))

    def start(self, number, listen, env=None):
        """Starts a meter."""
        head = ["--head", self.heads[number], "--head", self.asker.address()] if number in self.heads else []
        return Meter(self.folder / f"{number}.fw", *self.words, *head, listen=listen, env=env)

    def restart(self, number, env=None):
        """Kills a meter and starts it again."""
        self.meters[number].kill()
        self.meters[number] = self.start(number, self.addresses[number], env)

    def replace(self, number, env=None):
        """Kills a meter, and puts a new one in its place, at the same address."""
        self.meters[number].kill()
        for name in (f"{number}.fw", f"{number}.fw.journal"):
            (self.folder / name).unlink()
        self.restart(number, env)

    def running(self, number):
        """The name of the image that a meter runs, as its answer has it."""
        return self.asker.ask_until(self.meters[number], GET_NAME)

    def run(self, image):
        """Whether each meter runs this image."""
        digest = hashlib.sha256(image).hexdigest()
        for number in self.meters:
            name = self.running(number)
            wants(name.endswith(digest), f"meter {number} runs {name}")

    @contextlib.contextmanager
    def killed(self):
        """Kills all at the end."""
        try:
            yield self
        finally:
            for meter in self.meters.values():
                meter.process.kill()
            for meter in self.meters.values():
                meter.kill()


class Relay(threading.Thread):
    """Stands between a head end and the meters of a fleet, and has two sockets for each of these: at the front one it is the meter, and at the
    back one the head end. It calls what it is given with each datagram that it passed on."""

    def __init__(self, count, passed):
        super().__init__(daemon=True)
        self.fronts, self.backs = ({number: Head().socket for number in range(1, count + 1)} for _ in range(2))
        self.passed, self.meters, self.head, self.open = passed, {}, None, True
        # The meter on whose link the last one went.
        self.number = None

    def heads(self):
        """The address that asks each meter."""
        return {number: f"127.0.0.1:{back.getsockname()[1]}" for number, back in self.backs.items()}

    @contextlib.contextmanager
    def running(self, fleet):
        """Passes datagrams between the meters of a fleet and its head end, which gets the list of the relay's addresses."""
        self.meters = {number: meter.address for number, meter in fleet.meters.items()}
        fleet.list({number: f"127.0.0.1:{front.getsockname()[1]}" for number, front in self.fronts.items()})
        self.start()
        try:
            yield self
        finally:
            self.open = False
            self.join()

    def pass_on(self, number, data, is_asked):
        """Passes a datagram on, to a meter or to the head end."""
        if is_asked:
            self.backs[number].sendto(data, self.meters[number])
        else:
            self.fronts[number].sendto(data, self.head)

    def run(self):
        poll = select.epoll()
        at = {}
        for number in self.fronts:
            for one in (self.fronts[number], self.backs[number]):
                poll.register(one, select.EPOLLIN)
                at[one.fileno()] = number, one
        while self.open:
            for file, _ in poll.poll(0.1):
                number, one = at[file]
                self.number = number
                data, sender = one.recvfrom(65535)
                is_asked = one is self.fronts[number]
                if is_asked:
                    self.head = sender
                self.pass_on(number, data, is_asked)
                self.passed(self, data, is_asked)
        poll.close()


def opening(folder, image, serial=1):
    """The words that open a campaign of an image."""
    (folder / "image").write_bytes(image)
    return ["--open", str(serial), "--release", "2", "--image", folder / "image"]
