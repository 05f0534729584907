"""A plain implementation of the console: the answer to each line of its input."""

import re

from byte_reference import ByteProvider
from protocol_reference import TERMS, Protocol, Refused
from session_reference import Readings, Session, run
from symbolic_reference import SymbolicProvider

PROVIDERS = {"provider bytes": ByteProvider, "provider symbolic": SymbolicProvider}

ONE_OPERAND = ("left", "right", "mate")
TWO_OPERANDS = ("atom", "join", "seal", "open", "digest", "entry")

# How many sessions there may be, and the slots that may be lent.
SESSIONS = 16
SLOTS = 4096

NUMBER = r"([0-9]{1,5})"
MAKING = rf"(?:({'|'.join(ONE_OPERAND)}) {NUMBER}|({'|'.join(TWO_OPERANDS)}) {NUMBER} {NUMBER})"

UNREAD = "unread"


def form(word, operands):
    """The form of a call: a word and some numbers."""
    return re.compile(" ".join([word] + [NUMBER] * operands))


def numbers(match):
    """The numbers of a call, or None where one is too great."""
    found = [int(group) for group in match.groups() if group is not None and group.isdigit()]
    return found if all(n <= 65535 for n in found) else None


def operands(match):
    """The word and the numbers of a making."""
    return match.group(1) or match.group(3), numbers(match)


def yes_no(is_yes):
    return "yes" if is_yes else "no"


class Console:
    def __init__(self):
        self.provider = None
        self.protocol = Protocol()
        self.readings = Readings()
        self.slots_lent = SLOTS
        self.sessions = []
        # calls that need no provider
        self.calls = [
            (form("blank", 0), self.blank),
            (form("name", 1), self.name),
            (form("build", 3), self.build),
            (form("own", 2), self.own),
            (form("line", 3), self.line),
            (form("probe", 2), self.probe),
            (form("list", 1), self.list),
            (form("memory", 2), self.memory),
            (form("seat", 1), self.seat),
        ]
        self.provider_calls = [
            (form("same", 2), self.same),
            (form("show", 1), self.show),
            (re.compile(r"fits " + MAKING), self.fits),
            (re.compile(MAKING), self.make),
            (form("deal", 0), self.deal),
            (form("start", 1), self.start),
            (form("send", 1), self.send),
            (form("take", 3), self.take),
            (form("play", 0), self.play),
        ]

    def answer(self, line):
        """The answer to a line of bytes; None to an empty one, which has none."""
        if line == b"":
            return None
        text = line.decode("latin-1")
        if text in PROVIDERS:
            self.provider = PROVIDERS[text]()
            return "ok"
        for call_form, call in self.calls + (self.provider_calls if self.provider else []):
            match = call_form.fullmatch(text)
            if match and numbers(match) is not None:
                try:
                    return call(match)
                except Refused as refusal:
                    return " ".join(map(str, ["refused", *refusal.numbers]))
        return UNREAD

    def same(self, match):
        return yes_no(self.provider.same(*numbers(match)))

    def show(self, match):
        return self.provider.show(*numbers(match))

    def fits(self, match):
        return yes_no(self.provider.fits(*operands(match)))

    def make(self, match):
        return str(self.provider.make(*operands(match)))

    def blank(self, _):
        self.protocol = Protocol()
        return "ok"

    def name(self, match):
        return str(self.protocol.name(*numbers(match)))

    def build(self, match):
        return str(self.protocol.build(*numbers(match)))

    def own(self, match):
        self.protocol.own(*numbers(match))
        return "ok"

    def line(self, match):
        return str(self.protocol.line(*numbers(match)))

    def probe(self, match):
        return yes_no(self.protocol.probe(*numbers(match)))

    def list(self, match):
        """The lines of a listing, and how many bytes they have with their line ends."""
        lines = self.protocol.listing(*numbers(match))
        return "\n".join([*lines, f"bytes {sum(len(line) + 1 for line in lines)}"])

    def memory(self, match):
        readings, slots = numbers(match)
        if readings > TERMS or slots > SLOTS:
            return UNREAD
        self.readings.lent, self.slots_lent = readings, slots
        return "ok"

    @property
    def means(self):
        """What every call on a session or a run works with."""
        return self.protocol, self.provider, self.readings, self.slots_lent

    def deal(self, _):
        return str(self.readings.load(self.protocol, self.provider))

    def seat(self, match):
        if len(self.sessions) == SESSIONS:
            return UNREAD
        self.sessions.append(Session(*numbers(match)))
        return str(len(self.sessions) - 1)

    def session_call(self, call, match):
        session, *handed = numbers(match)
        if session >= len(self.sessions):
            return UNREAD
        return call(self.sessions[session], *self.means, *handed)

    def start(self, match):
        return str(self.session_call(Session.start, match))

    def send(self, match):
        answer = self.session_call(Session.send, match)
        return answer if answer == UNREAD else " ".join(map(str, answer))

    def take(self, match):
        return str(self.session_call(Session.take, match))

    def play(self, _):
        return " ".join(map(str, run(*self.means)))
