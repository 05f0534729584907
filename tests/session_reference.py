"""A plain implementation of loading, sessions and runs, on either provider's plain implementation.

Memory that is lent to a call is a list, and a number that says how much of it is lent.
"""

from protocol_reference import INSTRUCTIONS, LISTENER, TERMS, Refused
from provider_reference import FULL, WRONG

# Where a refusal comes that belongs to no step.
BEFORE_STEPS = 64
NO_PARTY = 0

# The making that makes a term's value of its parts' values, where it is not called by the term's word.
LOADING = {"pair": "join", "sealed": "seal"}


def asked(provider, word, operands, place):
    """The handle that a provider answers; a refusal names the term or instruction."""
    answer = provider.make(word, operands)
    if answer == FULL:
        raise Refused(12, place)
    if answer == WRONG:
        raise Refused(13, place)
    return answer


class Readings:
    """The readings of a protocol's terms, and how many places are lent."""

    def __init__(self):
        self.handles = [0] * TERMS
        self.lent = TERMS

    def enough_for(self, protocol):
        return self.lent >= len(protocol.terms)

    def load(self, protocol, provider):
        """Asks for the value of every term in number order; how many they are."""
        if not self.enough_for(protocol):
            raise Refused(14)
        for number, (word, *parts) in enumerate(protocol.terms):
            operands = parts if word == "atom" else [self.handles[protocol.numbers[part]] for part in parts]
            self.handles[number] = asked(provider, LOADING.get(word, word), operands, number)
        return len(protocol.terms)


class Session:
    """A party's script under way. Its turn is the step from which on it takes part, or None before it is started."""

    def __init__(self, party):
        self.party = party
        self.turn = None
        self.slots = [0] * INSTRUCTIONS

    def next_step(self, protocol):
        """The number of the next step in which the party sends or receives, or None."""
        mine = [number for number, step in enumerate(protocol.steps) if self.party in (step.sender, step.receiver)]
        return next((number for number in mine if number >= self.turn), None)

    def check(self, protocol, readings, lent):
        if self.party == LISTENER or self.party >= len(protocol.scripts):
            raise Refused(1)
        if not readings.enough_for(protocol) or lent < len(protocol.scripts[self.party].lines):
            raise Refused(14)

    def act(self, provider, readings, place, line, handed):
        """What an instruction puts into its slot."""
        word, operands, _ = line
        if word in ("GIVEN", "FRESH"):
            return readings.handles[operands[0]]
        if word in ("FROM", "RECV"):
            return handed[word]
        values = [self.slots[slot] for slot in operands]
        if word == "SAME" and not provider.same(*values):
            raise Refused(13, place)
        if word in ("SAME", "SEND"):
            return values[0]
        return asked(provider, word.lower(), values, place)

    def carry_out(self, protocol, provider, readings, begin, end, handed=None):
        lines = protocol.scripts[self.party].lines
        for place in range(begin, end):
            self.slots[place] = self.act(provider, readings, place, lines[place], handed)
        return lines[begin:end]

    def start(self, protocol, provider, readings, lent):
        """How many instructions precede the first step."""
        self.check(protocol, readings, lent)
        if self.turn is not None:
            raise Refused(11)
        begins = [step.parts[self.party][0] for step in protocol.steps if self.party in step.parts]
        end = begins[0] if begins else len(protocol.scripts[self.party].lines)
        self.carry_out(protocol, provider, readings, 0, end)
        self.turn = 0
        return end

    def part(self, protocol, provider, readings, lent, role, handed=None):
        """Carries out the part of the next step; its instructions."""
        self.check(protocol, readings, lent)
        number = None if self.turn is None else self.next_step(protocol)
        if number is None or getattr(protocol.steps[number], role) != self.party:
            raise Refused(11)
        lines = self.carry_out(protocol, provider, readings, *protocol.steps[number].parts[self.party], handed)
        self.turn = number + 1
        return lines

    def send(self, protocol, provider, readings, lent):
        """The handles of message and address."""
        _, operands, _ = self.part(protocol, provider, readings, lent, "sender")[-1]
        return [self.slots[slot] for slot in operands]

    def take(self, protocol, provider, readings, lent, name, message):
        """How many comparisons were done."""
        lines = self.part(protocol, provider, readings, lent, "receiver", {"FROM": name, "RECV": message})
        return sum(word == "SAME" for word, _, _ in lines)


def at(step, party, call, *arguments):
    """A call of a run; where it is refused, step and party go with the refusal."""
    try:
        return call(*arguments)
    except Refused as refusal:
        raise Refused(*refusal.numbers, step, party)


def run(protocol, provider, readings, lent):
    """How many steps were played and how many comparisons done."""
    parties = range(1, len(protocol.scripts))
    if not readings.enough_for(protocol) or lent < sum(len(protocol.scripts[party].lines) for party in parties):
        raise Refused(14, BEFORE_STEPS, NO_PARTY)
    at(BEFORE_STEPS, NO_PARTY, readings.load, protocol, provider)
    means = (protocol, provider, readings, INSTRUCTIONS)
    sessions = {party: Session(party) for party in parties}
    for party, session in sessions.items():
        at(BEFORE_STEPS, party, session.start, *means)
    sames = 0
    for number, step in enumerate(protocol.steps):
        message, _ = at(number, step.sender, sessions[step.sender].send, *means)
        name = readings.handles[protocol.names[step.sender]]
        sames += at(number, step.receiver, sessions[step.receiver].take, *means, name, message)
    return [len(protocol.steps), sames]
