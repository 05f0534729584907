"""A plain implementation of protocols: terms, scripts, and the calls with their refusals.

A term is a tuple of a word and the term's parts, as in symbolic_reference.py; the atoms are the protocol's names. Scripts are lists
without a limit, whose length is judged afterwards. Whether a term can be composed is asked by plain recursion, and whenever it
matters the answer is held against the definition: what the seven ways make of the agent's givens.
"""

import sys

from symbolic_reference import PARTY, NUMBER, SHARED, PUBLIC, FUNCTION, digest, entry, is_name, join, mate, seal

TERMS = 512
AGENTS = 8
STEPS = 64
INSTRUCTIONS = 512

LISTENER = 0
MATE = 4

# What makes a term of its parts, by the form's number.
MAKERS = [join, seal, digest, entry, mate]

# The instruction that composes a term of its two parts, by the term's word.
COMPOSING = {"pair": "JOIN", "sealed": "SEAL", "digest": "DIGEST", "entry": "ENTRY"}

# Terms may be nested as deep as there are places for them.
sys.setrecursionlimit(20000)


class Refused(Exception):
    """A refusal's number, and the values that go with it."""

    @property
    def numbers(self):
        return self.args


class Term(tuple):
    """A tuple that keeps its hash, since a part may stand in a term very often."""

    def __new__(cls, made):
        term = super().__new__(cls, made)
        term.hash = hash(tuple(made))
        return term

    def __hash__(self):
        return self.hash


def within(terms):
    """The terms and everything that occurs in them; a key occurs in its mate."""
    found, todo = set(), list(terms)
    while todo:
        term = todo.pop()
        if term not in found:
            found.add(term)
            todo += [part for part in term[1:] if isinstance(part, tuple)]
    return found


def names_within(term):
    return {part for part in within([term]) if part[0] == "atom"}


def one_way_on(known, near):
    """What one of the seven ways makes of known terms: halves and contents, and what is composed and lies near."""
    for term in known:
        if term[0] == "pair":
            yield from term[1:]
        if term[0] == "sealed" and mate(term[2]) in known:
            yield term[1]
    for term in near:
        if term[0] in COMPOSING and all(part in known for part in term[1:]):
            yield term


def derivable(givens, wanted):
    """Whether a term can be built: the seven ways again and again, over all that occurs in it and in the givens."""
    near, known, new = within([*givens, wanted]), set(), set(givens)
    while new and wanted not in known:
        known |= new
        near -= known
        new = set(one_way_on(known, near)) - known
    return wanted in known


class Script:
    """Instructions, each a word, its operands and the term that its slot holds, or None."""

    def __init__(self, lines=()):
        self.lines = []
        self.slots = {}
        self.found = {}
        for line in lines:
            self.write(*line)

    def copy(self):
        return Script(self.lines)

    def write(self, word, operands, holds=None):
        slot = len(self.lines)
        self.lines.append((word, operands, holds))
        if holds is not None:
            assert holds not in self.slots
            self.slots[holds] = slot
        # what was found missing may be so no more
        self.found = {}
        return slot

    def missing(self, term):
        """The first name or mate for want of which the term cannot be composed; None if it can."""
        if term not in self.found:
            if term in self.slots:
                self.found[term] = None
            elif term[0] in COMPOSING:
                self.found[term] = self.missing(term[1]) or self.missing(term[2])
            else:
                self.found[term] = term
        return self.found[term]

    def can(self, term):
        return self.missing(term) is None

    def compose(self, term):
        """The slot of a term that can be composed."""
        if term in self.slots:
            return self.slots[term]
        operands = [self.compose(part) for part in term[1:]]
        return self.write(COMPOSING[term[0]], operands, term)

    def take_apart(self):
        """Takes one part out of the lowest slot where something can be taken; whether there was one."""
        for slot, (_, _, term) in enumerate(self.lines):
            if term is None:
                continue
            if term[0] == "pair":
                for word, half in zip(("LEFT", "RIGHT"), term[1:]):
                    if not self.can(half):
                        self.write(word, [slot], half)
                        return True
            if term[0] == "sealed" and not self.can(term[1]) and self.can(mate(term[2])):
                self.write("OPEN", [slot, self.compose(mate(term[2]))], term[1])
                return True
        return False

    def saturate(self):
        while self.take_apart():
            pass

    def bring_in(self, word, operands, term):
        """Writes an instruction that brings a term in; whether its slot holds the term, which could not be composed."""
        if self.can(term):
            slot = self.write(word, operands)
            self.write("SAME", [slot, self.compose(term)])
            return False
        self.write(word, operands, term)
        return True

    def walk(self, word, operands, term):
        if not self.bring_in(word, operands, term):
            return
        slot = self.slots[term]
        if term[0] == "pair":
            self.walk("LEFT", [slot], term[1])
            self.walk("RIGHT", [slot], term[2])
        elif term[0] == "sealed" and self.can(mate(term[2])):
            self.walk("OPEN", [slot, self.compose(mate(term[2]))], term[1])


class Step:
    """A granted step, and where its parts begin and end in the scripts of its sender and its receiver."""

    def __init__(self, sender, receiver, message, parts):
        self.sender = sender
        self.receiver = receiver
        self.message = message
        self.parts = parts


class Protocol:
    def __init__(self):
        self.terms = []
        self.numbers = {}
        # by agent: the number of its name, its script, and what it was given
        self.names = [None]
        self.scripts = [Script()]
        self.givens = [[]]
        self.used = set()
        self.steps = []

    def known(self, agents=(), terms=()):
        """Refuses agents and terms that are not there."""
        if any(agent >= len(self.scripts) for agent in agents) or any(term >= len(self.terms) for term in terms):
            raise Refused(1)

    def insert(self, made):
        self.numbers[made] = len(self.terms)
        self.terms.append(Term(made))
        return self.terms[-1]

    def name(self, kind):
        if kind > FUNCTION:
            raise Refused(1)
        number = len(self.terms)
        if number + (2 if kind == PUBLIC else 1) > TERMS:
            raise Refused(3)
        if kind == PARTY and len(self.scripts) == AGENTS:
            raise Refused(4)
        name = self.insert(("atom", kind, number))
        if kind == PUBLIC:
            self.insert(mate(name))
        if kind == PARTY:
            self.names.append(number)
            self.scripts.append(Script([("GIVEN", [number], name)]))
            self.givens.append([name])
            self.used.add(name)
        return number

    def build(self, form, first, second):
        if form >= len(MAKERS):
            raise Refused(1)
        parts = [first] if form == MATE else [first, second]
        self.known(terms=parts)
        made = MAKERS[form](*(self.terms[part] for part in parts))
        if made is None:
            raise Refused(2)
        if made not in self.numbers:
            if len(self.terms) == TERMS:
                raise Refused(3)
            self.insert(made)
        return self.numbers[made]

    def own(self, agent, number):
        self.known([agent], [number])
        if self.steps:
            raise Refused(5)
        term = self.terms[number]
        script = self.scripts[agent].copy()
        if not script.can(term):
            script.write("GIVEN", [number], term)
            script.saturate()
        self.put({agent: script})
        self.give(agent, term)
        self.used |= names_within(term)

    def probe(self, agent, number):
        self.known([agent], [number])
        term = self.terms[number]
        can = self.scripts[agent].can(term)
        assert can == self.can_derive(agent, term)
        return can

    def line(self, sender, receiver, number):
        self.known([sender, receiver], [number])
        if LISTENER in (sender, receiver) or sender == receiver:
            raise Refused(6)
        if len(self.steps) == STEPS:
            raise Refused(7)
        message = self.terms[number]
        name_of_sender, name_of_receiver = self.terms[self.names[sender]], self.terms[self.names[receiver]]
        if not self.scripts[sender].can(name_of_receiver):
            raise Refused(8)
        fresh = self.fresh(message)

        sending = self.scripts[sender].copy()
        for name in fresh:
            slot = sending.write("FRESH", [self.numbers[name]], name)
            if is_name(name, PUBLIC):
                sending.write("MATE", [slot], mate(name))
        missing = sending.missing(message)
        made = [*fresh, *(mate(name) for name in fresh if is_name(name, PUBLIC))]
        assert (missing is None) == self.can_derive(sender, message, made)
        if missing is not None:
            raise Refused(9, self.numbers[missing])
        sending.write("SEND", [sending.compose(message), sending.slots[name_of_receiver]])

        receiving = self.scripts[receiver].copy()
        receiving.bring_in("FROM", [self.names[sender]], name_of_sender)
        receiving.walk("RECV", [number], message)
        receiving.saturate()

        listening = self.scripts[LISTENER].copy()
        for word, heard in (("FROM", name_of_sender), ("TO", name_of_receiver), ("RECV", message)):
            if not listening.can(heard):
                listening.write(word, [self.numbers[heard]], heard)
        listening.saturate()

        parts = {agent: (len(self.scripts[agent].lines), len(script.lines)) for agent, script in ((sender, sending), (receiver, receiving))}
        self.put({sender: sending, receiver: receiving, LISTENER: listening})
        self.give(sender, *made)
        self.give(receiver, name_of_sender, message)
        self.give(LISTENER, name_of_sender, name_of_receiver, message)
        self.used |= names_within(message)
        self.steps.append(Step(sender, receiver, number, parts))
        return len(self.steps) - 1

    def fresh(self, message):
        """The names that are fresh in a message, in number order."""
        names = [name for name in names_within(message) - self.used if name[1] in (NUMBER, SHARED, PUBLIC)]
        return sorted(names, key=self.numbers.get)

    def put(self, scripts):
        """Puts new scripts in place, in the order in which they are judged, or none of them."""
        for agent, script in scripts.items():
            if len(script.lines) > INSTRUCTIONS:
                raise Refused(10, agent)
        for agent, script in scripts.items():
            self.scripts[agent] = script

    def give(self, agent, *terms):
        self.givens[agent] += terms

    def can_derive(self, agent, term, made=()):
        """Whether an agent can build a term, by the definition, also with what it makes for its next step."""
        return derivable([*self.givens[agent], *made], term)

    def listing(self, agent):
        """The lines of an agent's script."""
        self.known([agent])
        lines = enumerate(self.scripts[agent].lines)
        return [" ".join(map(str, [agent, number, word, *operands])) for number, (word, operands, _) in lines]
