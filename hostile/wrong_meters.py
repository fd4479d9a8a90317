"""Stand-ins for meters that are wrong in one thing each. What they do wrong nothing explains, by the rule that each has: at the record that it
marks, or in its store."""

from asks import RUNNING, SET
from ends import with_invoke_byte
from packets import note
from stand_ins import HEAD, OTHER, STRANGER, TEMPORARY, StandIn, name_of

KINDS = []


def kind(made):
    """Adds a kind."""
    KINDS.append(made)
    return made


# ---- what they send


@kind
class DropsAReply(StandIn):
    """It doesn't reply to a SET, and goes on."""

    rule = "ReplyMissing"

    def sends(self, sender, data, reply):
        if reply and data[8] == SET:
            self.mark()
            return []
        return super().sends(sender, data, reply)


@kind
class RepliesTwice(StandIn):
    """It sends each reply twice."""

    rule = "NothingOwed"

    def sends(self, sender, data, reply):
        sent = super().sends(sender, data, reply)
        if sent:
            self.mark(1)
        return 2 * sent


@kind
class RepliesElsewhere(StandIn):
    """It sends its replies to a stranger."""

    rule = "OtherReply"

    def sends(self, sender, data, reply):
        if reply:
            self.mark()
        return [(STRANGER, it) for _, it in super().sends(sender, data, reply)]


@kind
class RepliesUnderAnotherInvokeId(StandIn):
    """Its replies have the invoke byte of the next request."""

    rule = "OtherReply"

    def reply(self, data):
        reply = super().reply(data)
        if reply:
            self.mark()
        return reply and bytes.fromhex(with_invoke_byte(reply.hex(), f"{reply[10] + 1:02x}"))


@kind
class RepliesToAnotherPort(StandIn):
    """It replies to wPort 1, whatever wPort asks."""

    rule = "OtherReply"

    def reply(self, data):
        reply = super().reply(data)
        if reply and data[3] != 1:
            self.mark()
        return reply and reply[:4] + b"\0\1" + reply[6:]


@kind
class ServesAnotherPort(StandIn):
    """It serves each wPort."""

    rule = "NothingOwed"

    def port(self, data):
        if data[5] != 1:
            self.mark()
        return data[5]


@kind
class RepliesToTheUnconfirmed(StandIn):
    """It replies also where no response is wanted."""

    rule = "NothingOwed"

    def is_confirmed(self, ask):
        if not super().is_confirmed(ask):
            self.mark()
        return True


@kind
class PassesTheUnconfirmedOver(StandIn):
    """It does nothing if no response is wanted."""

    rule, has_passed = "OtherReply", False

    def response(self, ask):
        if not ask.is_confirmed():
            self.has_passed = True
            return None
        return super().response(ask)

    def value(self, instance, attribute):
        if attribute == 5 and self.has_passed:
            self.mark()
        return super().value(instance, attribute)


@kind
class RepliesToStrangers(StandIn):
    """It replies to any address."""

    rule = "NothingOwed"

    def may_ask(self, sender):
        if not super().may_ask(sender):
            self.mark()
        return True


@kind
class TakesItsHeadEndForAStranger(StandIn):
    """It drops what its head end asks first."""

    rule = "ReplyMissing"

    def may_ask(self, sender):
        if sender == HEAD and self.place is None:
            self.mark()
            return False
        return super().may_ask(sender)


@kind
class RepliesAfterAStart(StandIn):
    """It sends a reply that it owed when it was killed, once it is started again."""

    rule, held = "NothingOwed", None

    def sends(self, sender, data, reply):
        sent = super().sends(sender, data, reply)
        if len(self.cells) == 10 and self.place is None:
            self.held = sent
            return []
        return sent

    def restart(self):
        super().restart()
        if self.held:
            self.mark()
            for to, reply in self.held:
                self.went(to, reply)
            self.held = None


@kind
class RecordsTooLate(StandIn):
    """It records a datagram once it has sent the reply."""

    rule, is_late = "NothingOwed", False

    def came(self, sender, data):
        if sender == HEAD and self.place is None:
            self.mark()
            self.is_late = True
        else:
            super().came(sender, data)

    def take(self, sender, data):
        sent = super().take(sender, data)
        if self.is_late:
            self.is_late = False
            super().came(sender, data)
        return sent


@kind
class RecordsNoInitiate(StandIn):
    """It records neither an initiate nor its reply."""

    rule, hides = "OtherReply", False

    def take(self, sender, data):
        count = len(self.packets)
        sent = super().take(sender, data)
        if self.status == 1 and not self.cells and not self.hides:
            del self.packets[count:]
            self.hides = True
        return sent

    def code(self, ask):
        if self.hides:
            self.mark()
        return super().code(ask)


# ---- what they answer


@kind
class SaysAnotherBlockSize(StandIn):
    """It says that its blocks have a byte more."""

    rule = "OtherReply"

    def value(self, instance, attribute):
        value = super().value(instance, attribute)
        if attribute != 2 or instance == RUNNING:
            return value
        self.mark()
        return value[:-1] + bytes([value[-1] + 1])


@kind
class SetsUnusedBits(StandIn):
    """It sets the bits behind those of its blocks."""

    rule = "OtherReply"

    def value(self, instance, attribute):
        value = super().value(instance, attribute)
        if attribute != 3 or not self.count() % 8:
            return value
        self.mark()
        return value[:-1] + bytes([value[-1] | 1])


@kind
class NamesTheOldImage(StandIn):
    """It says that it runs its factory image, once it has switched."""

    rule = "OtherReply"

    def value(self, instance, attribute):
        if instance == RUNNING and self.status == 6:
            self.mark()
            return StandIn(self.address).value(instance, attribute)
        return super().value(instance, attribute)


@kind
class AnswersAFault(StandIn):
    """It answers a SET by code 1, as where its store failed."""

    rule = "OtherReply"

    def reply(self, data):
        reply = super().reply(data)
        if not reply or data[8] != SET:
            return reply
        self.mark()
        return reply[:-1] + b"\1"


@kind
class RefusesByAnotherCode(StandIn):
    """It refuses a block that is none as one that comes too early."""

    rule = "OtherReply"

    def block(self, number, value):
        code = super().block(number, value)
        if code != OTHER:
            return code
        self.mark()
        return TEMPORARY


# ---- what they take


@kind
class TakesABlockThatIsNone(StandIn):
    """It answers a block behind the last one as one that it took."""

    rule = "OtherReply"

    def block(self, number, value):
        if number < self.count():
            return super().block(number, value)
        self.mark()
        return 0


@kind
class TakesAShortBlock(StandIn):
    """It answers a block of too few bytes as one that it took."""

    rule = "OtherReply"

    def block(self, number, value):
        code = super().block(number, value)
        if code != OTHER or number >= self.count():
            return code
        self.mark()
        return 0


@kind
class TakesAnOlderImage(StandIn):
    """It answers an initiate of a lower release than that of the image that it runs as one that it took."""

    rule = "OtherReply"

    def initiate(self, name, size):
        if name is None or name[2] >= self.name[2]:
            return super().initiate(name, size)
        self.mark()
        return 0


@kind
class TakesAnyIdentifier(StandIn):
    """It answers an initiate under no name as one that it took."""

    rule = "OtherReply"

    def initiate(self, name, size):
        if name is not None:
            return super().initiate(name, size)
        self.mark()
        return 0


@kind
class VerifiesTooEarly(StandIn):
    """It answers that an image of which blocks are missing is verified."""

    rule = "OtherReply"

    def verify(self):
        if self.missing() == self.count():
            return super().verify()
        self.mark()
        return 0


@kind
class VerifiesAtOnce(StandIn):
    """It verifies a large image in one call."""

    rule = "OtherReply"

    def verify(self):
        code = super().verify()
        if self.status != 2:
            return code
        self.mark()
        while self.status == 2:
            self.digest()
        return 0


@kind
class ActivatesTooEarly(StandIn):
    """It answers an activate of nothing as one that it did."""

    rule = "OtherReply"

    def activate(self):
        if self.status == 3:
            return super().activate()
        self.mark()
        return 0


# ---- what they keep


@kind
class ForgetsItsBlocks(StandIn):
    """It has no block any more once it is started again."""

    rule, has_lost = "OtherReply", False

    def restart(self):
        super().restart()
        self.cells, self.has_lost = {}, True

    def value(self, instance, attribute):
        if attribute == 4 and self.has_lost:
            self.mark()
        return super().value(instance, attribute)


@kind
class ForgetsThatItIsEnabled(StandIn):
    """Transfer is disabled once it is started again."""

    rule, has_lost = "OtherReply", False

    def restart(self):
        super().restart()
        self.enabled, self.has_lost = False, True

    def code(self, ask):
        if self.has_lost:
            self.mark()
        return super().code(ask)


@kind
class KeepsItsVerification(StandIn):
    """It goes on with a verification once it is started again."""

    rule, has_kept = "OtherReply", False

    def restart(self):
        status = self.status
        super().restart()
        self.status, self.has_kept = status, self.has_kept or status == 2

    def value(self, instance, attribute):
        if attribute == 6 and self.has_kept:
            self.mark()
        return super().value(instance, attribute)


@kind
class SwitchesBackAtAStart(StandIn):
    """It runs its factory image again once it is started again."""

    rule, has_switched = "OtherReply", False

    def restart(self):
        super().restart()
        if self.status == 6:
            self.image, self.name, self.has_switched = b"abc", name_of(b"abc", 0, 0, 0), True

    def value(self, instance, attribute):
        if instance == RUNNING and self.has_switched:
            self.mark()
        return super().value(instance, attribute)


@kind
class SpoilsABlock(StandIn):
    """It keeps a block with a turned bit."""

    rule = "OtherReply"

    def block(self, number, value):
        code = super().block(number, value)
        if code == 0 and number == 3:
            self.cells[number] = value[:-1] + bytes([value[-1] ^ 1])
        return code

    def value(self, instance, attribute):
        if attribute == 6 and self.status == 4:
            self.mark()
        return super().value(instance, attribute)


# ---- how they verify and switch


@kind
class TakesATurnMore(StandIn):
    """It notes a turn once the image is verified."""

    rule = "NothingVerified"

    def turn(self):
        super().turn()
        if self.status != 2:
            self.mark()
            self.packets.append(note(f"turn {self.address[1]}"))


@kind
class TakesATurnLess(StandIn):
    """It takes the image for verified before the last slice."""

    rule = "OtherReply"

    def digest(self):
        if self.digested + 2 * self.SLICE >= self.goal[1]:
            self.digested += self.SLICE
        super().digest()

    def value(self, instance, attribute):
        if attribute == 6 and self.status == 3:
            self.mark()
        return super().value(instance, attribute)


@kind
class NotesNoTurn(StandIn):
    """It verifies without a note of its turns."""

    rule = "OtherReply"

    def turn(self):
        self.digest()

    def value(self, instance, attribute):
        if attribute == 6 and self.status == 3:
            self.mark()
        return super().value(instance, attribute)


@kind
class RunsOtherBytes(StandIn):
    """It switches to other bytes than those that it verified, under their own name."""

    rule, has_switched = "OtherReply", False

    def activate(self):
        code = super().activate()
        if code == 0:
            self.image, self.has_switched = b"other bytes", True
            self.name = name_of(self.image, 1, 2)
        return code

    def value(self, instance, attribute):
        if instance == RUNNING and self.has_switched:
            self.mark()
        return super().value(instance, attribute)


@kind
class RunsOtherBytesUnderTheName(StandIn):
    """It runs other bytes than those that it verified, under their name."""

    rule, is_stored = "BadImage", True

    def activate(self):
        code = super().activate()
        if code == 0:
            self.image = bytes([self.image[0] ^ 1]) + self.image[1:]
        return code


@kind
class KeepsTheOldImage(StandIn):
    """It says all that a meter says which switches, and has its factory image in its store."""

    rule, is_stored = "OtherStore", True

    def store(self):
        self.image, self.name = b"abc", name_of(b"abc", 0, 0, 0)
        return super().store()


@kind
class KeepsAnotherRelease(StandIn):
    """Its store has the release of the image that it runs as a higher one."""

    rule, is_stored = "OtherStore", True

    def store(self):
        self.name = (*self.name[:2], self.name[2] + 1, self.name[3])
        return super().store()


@kind
class KeepsAnOldHeader(StandIn):
    """It leaves a header of version 1, which it never had."""

    rule, is_stored = "OtherStore", True

    def header(self, magic=b"FWH1"):
        front, behind = super().header(magic)
        return front, behind[:8]


@kind
class StaysEnabled(StandIn):
    """Its store says that transfer is enabled, and it said that it isn't."""

    rule, is_stored = "OtherStore", True

    def store(self):
        self.enabled = True
        return super().store()
