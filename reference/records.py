"""Records and messages of RPC (RFC 5531): what a stream is cut into, and what the front of a message says."""
from collections import namedtuple

GREATEST_RECORD = 1_048_576
GREATEST_AUTHENTICATION = 400

CALL, REPLY = 0, 1
ACCEPTED, DENIED = 0, 1
ACCEPT_STATES = ["SUCCESS", "PROG_UNAVAIL", "PROG_MISMATCH", "PROC_UNAVAIL", "GARBAGE_ARGS", "SYSTEM_ERR"]
REJECT_STATES = ["RPC_MISMATCH", "AUTH_ERROR"]

# An authentication field is a pair of flavor and body. A reply has a verifier where it is accepted, the details that
# its state calls for, as pairs of name and number, and a body where it is a SUCCESS.
Call = namedtuple("Call", "xid rpcvers program version procedure credential verifier body")
Reply = namedtuple("Reply", "xid accepted state verifier details body")


def records_of(stream):
    """The records, and the code and place of the stream's fault, or None (RFC 5531 section 11). A record is the data
    of its fragments, one behind the other; the top bit of a fragment's header says that it is the last."""
    records, fragments, size, inside, at = [], [], 0, False, 0
    while at < len(stream):
        if len(stream) < at + 4:
            return records, (61, len(stream))
        header = int.from_bytes(stream[at:at + 4], "big")
        last, length = header >= 2 ** 31, header % 2 ** 31
        if size + length > GREATEST_RECORD:
            return records, (60, at)
        if len(stream) < at + 4 + length:
            return records, (61, len(stream))
        fragments.append(stream[at + 4:at + 4 + length])
        size += length
        inside = not last
        if last:
            records.append(b"".join(fragments))
            fragments, size = [], 0
        at += 4 + length
    return records, (61, len(stream)) if inside else None


class Refused(Exception):
    """The message begins with no header: the code and the place."""


class Header:
    """Reads the header at the front of a message, unit by unit (RFC 5531 section 9)."""

    def __init__(self, data):
        self.data = data
        self.at = 0

    def unit(self):
        if self.at + 4 > len(self.data):
            raise Refused(50, len(self.data))
        self.at += 4
        return self.data[self.at - 4:self.at]

    def number(self):
        return int.from_bytes(self.unit(), "big")

    def refuse(self, code):
        """Of the unit that was read last."""
        raise Refused(code, self.at - 4)

    def one_of(self, count):
        """A number below the count."""
        number = self.number()
        return number if number < count else self.refuse(52)

    def authentication(self):
        """A flavor and a body of at most 400 bytes, which zero bytes fill up to a whole unit (section 8.2)."""
        flavor, length = self.number(), self.number()
        if length > GREATEST_AUTHENTICATION:
            self.refuse(54)
        body = b""
        for begin in range(0, length, 4):
            body += self.unit()
            if any(body[length:]):
                self.refuse(55)
        return flavor, body[:length]

    def message(self):
        xid = self.number()
        return self.call(xid) if self.one_of(2) == CALL else self.reply(xid)

    def call(self, xid):
        numbers = [self.number() for _ in range(4)]
        return Call(xid, *numbers, self.authentication(), self.authentication(), self.data[self.at:])

    def reply(self, xid):
        accepted, verifier, names = self.one_of(2) == ACCEPTED, None, []
        if accepted:
            verifier = self.authentication()
        states = ACCEPT_STATES if accepted else REJECT_STATES
        state = states[self.one_of(len(states))]
        if state == "SUCCESS":
            return Reply(xid, accepted, state, verifier, [], self.data[self.at:])
        if state in ("PROG_MISMATCH", "RPC_MISMATCH"):
            names = ["low", "high"]
        if state == "AUTH_ERROR":
            names = ["auth_stat"]
        details = [(name, self.number()) for name in names]
        if self.at < len(self.data):
            raise Refused(57, self.at)
        return Reply(xid, accepted, state, verifier, details, None)


def message_of(data):
    """The message, or Refused as a value."""
    try:
        return Header(data).message()
    except Refused as refused:
        return refused.with_traceback(None)
