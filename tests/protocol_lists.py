"""Lists of calls on protocols, so shaped that what is rare comes often."""

from call_lists import CallList
from protocol_reference import INSTRUCTIONS, LISTENER, STEPS, TERMS
from symbolic_reference import FUNCTION, NUMBER, PARTY, PUBLIC, SHARED, TABLE, is_key, is_name

KINDS = range(6)
PAIR, SEALED, DIGEST, ENTRY, MATE = range(5)

# Numbers of no agent and of hardly any term.
FAR = [8, 9, 511, 512, 513, 65535]


class ProtocolList(CallList):
    """Calls on the console's protocol, with numbers that are mostly there and mostly fit."""

    @property
    def protocol(self):
        return self.console.protocol

    @property
    def terms(self):
        return self.protocol.terms

    @property
    def parties(self):
        return range(1, len(self.protocol.scripts))

    def chance(self, share):
        return self.random.random() < share

    def term(self):
        """A term: mostly one that is there, among these often a late one."""
        count = len(self.terms)
        if count == 0 or self.chance(0.02):
            return self.random.choice([count, count + 1, *FAR])
        return self.random.randrange(max(0, count - 6) if self.chance(0.4) else 0, count)

    def there(self):
        """The number of a term that is there."""
        return self.random.randrange(len(self.terms))

    def agent(self):
        if self.chance(0.02):
            return self.random.choice([len(self.protocol.scripts), *FAR])
        return self.random.randrange(len(self.protocol.scripts))

    def party(self):
        return self.random.choice(self.parties) if len(self.parties) and not self.chance(0.03) else self.agent()

    def such(self, test):
        """The number of some term that passes the test, or of any."""
        numbers = [number for number, term in enumerate(self.terms) if test(term)]
        return self.random.choice(numbers) if numbers else self.term()

    def of_kind(self, kind):
        return self.such(lambda term: is_name(term, kind))

    def key(self):
        """A key, often an entry or its mate."""
        return self.such(self.random.choice([
            is_key,
            lambda term: term[0] == "entry",
            lambda term: term[0] == "mate",
            lambda term: term[0] == "mate" and term[1][0] == "entry",
        ]))

    def opener(self, key):
        """The number of the term that opens what the key of a number seals; it is built if need be."""
        return self.built(MATE, key)

    # The number that a call answers which is granted.
    def new_name(self, kind):
        return int(self.say(f"name {kind}"))

    def new_names(self, *kinds):
        return [self.new_name(kind) for kind in kinds]

    def built(self, form, first, second=0):
        return int(self.say(f"build {form} {first} {second}"))

    def chain(self, numbers):
        """The pairs of the numbers, nested from the right, the whole last."""
        made = [numbers[-1]]
        for number in reversed(numbers[:-1]):
            made.append(self.built(PAIR, number, made[-1]))
        return made

    def introduce(self):
        """Tells every party the names of all others."""
        for agent in self.parties:
            for other in self.parties:
                self.say(f"own {agent} {self.protocol.names[other]}")

    def makeable(self, agent, size):
        """The number of a term that an agent can compose, with names that will be fresh in it."""
        def one(test=lambda term: True):
            numbers = [number for number, term in enumerate(self.terms) if test(term) and self.protocol.scripts[agent].can(term)]
            return self.random.choice(numbers) if numbers else None

        if size == 0:
            return self.new_name(self.random.choice([NUMBER, SHARED, PUBLIC])) if self.chance(0.3) else one()
        first = self.makeable(agent, self.random.randrange(size))
        if self.chance(0.4):
            key = self.new_name(SHARED) if self.chance(0.2) else one(is_key)
            return first if key is None else self.built(SEALED, first, key)
        function = one(lambda term: is_name(term, FUNCTION))
        if function is not None and self.chance(0.2):
            return self.built(DIGEST, function, first)
        return self.built(PAIR, first, self.makeable(agent, self.random.randrange(size)))

    def ask_name(self):
        kind = self.random.choice(KINDS) if self.chance(0.97) else self.random.choice([6, 7, 65535])
        self.say(f"name {kind}")

    def ask_build(self, form=None):
        form = self.random.randrange(5) if form is None else form
        first, second = self.term(), self.term()
        if form == SEALED:
            second = self.key()
        elif form == DIGEST:
            first = self.of_kind(FUNCTION)
        elif form == ENTRY:
            first, second = self.of_kind(TABLE), self.of_kind(PARTY)
        elif form == MATE:
            first, second = self.key(), self.random.choice([0, 0, second])
        if self.chance(0.1):
            # a part that may be of a wrong kind
            first, second = self.random.choice([(self.term(), second), (first, self.term())])
        form = self.random.choice([5, 6, 65535]) if self.chance(0.01) else form
        return self.say(f"build {form} {first} {second}")

    def ask_own(self):
        self.say(f"own {self.agent()} {self.term()}")

    def ask_probe(self):
        self.say(f"probe {self.agent()} {self.term()}")

    def ask_list(self):
        self.say(f"list {self.agent()}")

    def sendable(self, sender):
        """The number of some built term that the party can send now, with what is fresh in it; None if there is none at hand."""
        def can_send(term):
            script = self.protocol.scripts[sender].copy()
            for name in self.protocol.fresh(term):
                script.write("FRESH", [], name)
            return len(term) == 3 and script.can(term)

        numbers = self.random.sample(range(len(self.terms)), min(12, len(self.terms)))
        return next((number for number in numbers if can_send(self.terms[number])), None)

    def ask_line(self):
        sender, receiver = self.party(), self.party()
        if sender == receiver and not self.chance(0.1):
            receiver = self.party()
        found = self.sendable(sender) if sender in self.parties and self.chance(0.6) else None
        self.say(f"line {sender} {receiver} {self.term() if found is None else found}")

    def ask_anything(self):
        often = {self.ask_name: 1, self.ask_build: 2, self.ask_own: 1, self.ask_line: 3, self.ask_probe: 3, self.ask_list: 1}
        self.random.choices(list(often), list(often.values()))[0]()

    def look(self, most=60):
        """Probes of everything, or of some of much, and every agent's script."""
        agents = [*range(len(self.protocol.scripts)), len(self.protocol.scripts)]
        pairs = [(agent, term) for agent in agents for term in range(len(self.terms) + 1)]
        if len(pairs) > most:
            pairs = self.random.sample(pairs, most)
        for agent, term in pairs:
            self.say(f"probe {agent} {term}")
        for agent in agents:
            self.say(f"list {agent}")


# Protocols. Each maker leaves the calls with a protocol that began blank.


def some_parties(calls, least=2, most=4):
    for _ in range(calls.random.randint(least, most)):
        calls.new_name(PARTY)


def mixed(calls):
    """Any calls, mostly granted."""
    some_parties(calls)
    calls.new_names(NUMBER, SHARED, PUBLIC, TABLE, FUNCTION)
    for _ in range(calls.random.randrange(6)):
        calls.ask_name()
    for _ in range(calls.random.randrange(4, 16)):
        calls.ask_build()
    if calls.chance(0.8):
        calls.introduce()
    for _ in range(calls.random.randrange(8)):
        calls.ask_own()
    for _ in range(calls.random.randrange(4, 30)):
        calls.ask_anything()


def a_key(calls):
    """A new key of some sort: shared, public, private, an entry, an entry's mate."""
    sort = calls.random.randrange(6)
    if sort == 0:
        return calls.new_name(SHARED)
    if sort == 1:
        return calls.new_name(PUBLIC)
    if sort == 2:
        return calls.new_name(PUBLIC) + 1
    tables = [number for number, term in enumerate(calls.terms) if is_name(term, TABLE)]
    table = calls.random.choice(tables) if tables and calls.chance(0.5) else calls.new_name(TABLE)
    entry = calls.built(ENTRY, table, calls.protocol.names[calls.random.choice(calls.parties)])
    return entry if sort == 3 else calls.built(MATE, entry)


def told(calls, number, agent, teller):
    """An agent learns a term: before the first step, or else from another who has it."""
    if calls.protocol.steps or calls.chance(0.2):
        calls.say(f"line {teller} {agent} {number}")
    else:
        calls.say(f"own {agent} {number}")


def what_opens(calls, key):
    """What has to be told for what the key seals to be opened; an entry may come in its two names."""
    opener = calls.opener(key)
    term = calls.terms[opener]
    if term[0] == "entry" and calls.chance(0.7):
        return [calls.protocol.numbers[part] for part in term[1:]]
    return [opener]


def late_keys(calls):
    """Sealed terms first, each holding what opens another, and the keys later: old slots have to be opened then."""
    some_parties(calls, 2, 3)
    pieces = []
    content = calls.new_name(calls.random.choice([NUMBER, SHARED, PUBLIC]))
    for _ in range(calls.random.randrange(1, 6)):
        key = a_key(calls)
        if calls.chance(0.3):
            content = calls.built(PAIR, *calls.random.sample([content, calls.there() if calls.chance(0.2) else calls.new_name(NUMBER)], 2))
        sealed = calls.built(SEALED, content, key)
        pieces.append(sealed)
        keys = what_opens(calls, key)
        pieces += keys
        content = calls.random.choice([sealed, *keys])
    rich = len(calls.parties)
    if calls.chance(0.5):
        calls.introduce()
    else:
        # the others learn who sends when they receive
        for party in calls.parties:
            calls.say(f"own {rich} {calls.protocol.names[party]}")
    for piece in calls.random.sample(pieces, len(pieces)):
        calls.say(f"own {rich} {piece}")
        if calls.chance(0.3):
            calls.say(f"own {rich} {calls.key()}")
    if calls.chance(0.5):
        pieces = pieces[::2] + pieces[1::2]
    else:
        calls.random.shuffle(pieces)
    agents = [1, 1, LISTENER] if rich > 1 else [1]
    for piece in pieces:
        told(calls, piece, calls.random.choice(agents if not calls.protocol.steps else [1]), rich)
        for _ in range(calls.random.randrange(3)):
            calls.ask_probe()
    for _ in range(calls.random.randrange(4)):
        calls.ask_line()


def heard_names(calls):
    """Sealed terms that open once a party's name is heard: from whom, to whom, or in a message."""
    some_parties(calls, 2, 4)
    sender = calls.random.choice(calls.parties)
    others = [agent for agent in (LISTENER, *calls.parties) if agent != sender]
    for party in calls.parties:
        calls.say(f"own {sender} {calls.protocol.names[party]}")
    contents = calls.new_names(NUMBER, SHARED)
    for table in calls.new_names(TABLE, TABLE):
        for agent in others:
            calls.say(f"own {agent} {table}")
        for party in calls.random.sample(calls.parties, 2):
            entry = calls.built(ENTRY, table, calls.protocol.names[party])
            contents.append(calls.built(SEALED, calls.random.choice(contents), calls.built(MATE, entry)))
            calls.say(f"own {calls.random.choice(others)} {contents[-1]}")
    for _ in range(calls.random.randrange(2, 6)):
        message = calls.random.choice([*calls.protocol.names[1:], *contents])
        calls.say(f"line {sender} {calls.random.choice([agent for agent in others if agent != LISTENER])} {message}")
        calls.ask_line()


def exchange(calls):
    """Steps that are nearly all granted: each party sends what it can build, with keys that some share and some have to get."""
    some_parties(calls, 2, 4)
    calls.introduce()
    keys = [a_key(calls) for _ in range(calls.random.randrange(2, 6))]
    secrets = [*keys, *(calls.opener(key) for key in keys), calls.new_name(FUNCTION), calls.of_kind(TABLE), calls.new_name(NUMBER)]
    for secret in secrets:
        for agent in calls.random.sample([*calls.parties, 0], calls.random.randrange(3)):
            calls.say(f"own {agent} {secret}")
    if calls.chance(0.5):
        # some start with what they can open, and some with what they can not
        for _ in range(3):
            sealed = calls.built(SEALED, calls.built(PAIR, calls.there(), calls.there()), calls.random.choice(keys))
            calls.say(f"own {calls.agent()} {sealed}")
    for _ in range(calls.random.randrange(1, 9)):
        sender, receiver = calls.random.sample(calls.parties, 2)
        message = calls.makeable(sender, calls.random.choice([1, 2, 4, 6]))
        calls.say(f"line {sender} {receiver} {message}")
        if calls.chance(0.2):
            # passed on, or sent again
            calls.say(f"line {receiver} {calls.party()} {message}")


def nested(calls):
    """Pairs and sealed terms deep in each other, with shared parts, sent and taken apart."""
    some_parties(calls, 2, 3)
    names = calls.new_names(NUMBER, SHARED, SHARED, PUBLIC, TABLE)
    calls.built(MATE, calls.built(ENTRY, names[4], 0))
    layer = calls.random.choice(names[:2])
    layers = [layer]
    doubling = calls.chance(0.3)
    for _ in range(calls.random.randrange(3, 40 if calls.chance(0.9) else 480)):
        form = PAIR if doubling or calls.chance(0.7) else SEALED
        first, second = layer, layer if doubling else calls.random.choice([calls.term(), calls.random.choice(layers), calls.key()])
        if form == SEALED:
            second = calls.key()
        elif calls.chance(0.5):
            first, second = second, first
        answer = calls.say(f"build {form} {first} {second}")
        if answer.isdigit():
            layer = int(answer)
            layers.append(layer)
    calls.introduce()
    for _ in range(calls.random.randrange(4)):
        calls.say(f"own {calls.agent()} {calls.random.choice(names)}")
    for _ in range(calls.random.randrange(2, 8)):
        calls.say(f"line {calls.party()} {calls.party()} {calls.random.choice(layers[-3:] if calls.chance(0.6) else layers)}")
        calls.ask_probe()


def refused_steps(calls):
    """Refused steps whose names must still be fresh afterwards."""
    some_parties(calls, 2, 4)
    calls.say(f"own 1 {calls.protocol.names[2]}")
    if calls.chance(0.7):
        calls.say(f"own 2 {calls.protocol.names[1]}")
    table, lost, own_key = calls.new_names(TABLE, NUMBER, SHARED)
    calls.say(f"own {calls.random.choice([0, 2])} {lost}")
    calls.say(f"own 1 {own_key}")
    for _ in range(calls.random.randrange(2, 6)):
        fresh = [calls.new_name(calls.random.choice([NUMBER, SHARED, PUBLIC])) for _ in range(calls.random.randrange(1, 4))]
        use = calls.random.choice(fresh)
        if is_name(calls.terms[use], PUBLIC) and calls.chance(0.6):
            # the mate of a key makes the key fresh too
            fresh.append(use + 1)
            fresh.remove(use)
        message = calls.chain(calls.random.sample(fresh, len(fresh)))[-1]
        if calls.chance(0.4):
            message = calls.built(SEALED, message, own_key)
        missing = calls.random.choice([table, lost, calls.built(MATE, calls.built(ENTRY, table, 0))])
        unmakeable = calls.built(PAIR, *calls.random.sample([message, missing], 2))
        attempts = [
            f"line 1 2 {unmakeable}",
            f"line 2 1 {unmakeable}",
            f"line 1 {len(calls.parties)} {message}",
            f"line 2 {len(calls.parties)} {message}",
            f"line 1 1 {message}",
            f"line 0 1 {message}",
            f"line 1 0 {message}",
            f"line {len(calls.parties) + 1} 1 {message}",
            f"line 1 2 {len(calls.terms)}",
        ]
        for attempt in calls.random.sample(attempts, calls.random.randrange(1, 4)):
            calls.say(attempt)
        for number in calls.random.sample(fresh, 1):
            calls.say(f"probe 1 {number}")
        calls.say(f"line {calls.random.choice([1, 1, 2])} {calls.random.choice([2, 2, 1])} {message}")
        if calls.chance(0.5):
            calls.say(f"line 1 2 {unmakeable}")


def knowledge(calls):
    """What agents start with: things taken apart at once, given twice, given after what opens them, and too late."""
    some_parties(calls, 1, 3)
    calls.new_names(NUMBER, SHARED, PUBLIC, TABLE, FUNCTION)
    for _ in range(calls.random.randrange(8, 30)):
        calls.ask_build(calls.random.choice([None, PAIR, SEALED, SEALED]))
    for _ in range(calls.random.randrange(10, 40)):
        agent = calls.random.choice([0, 1, 1])
        calls.say(f"own {agent} {calls.term()}")
        if calls.chance(0.3):
            calls.say(f"probe {agent} {calls.term()}")
    for _ in range(calls.random.randrange(4)):
        calls.ask_line()
        calls.ask_own()


def parts_of_kinds(calls):
    """Each form over parts of every kind and form."""
    some_parties(calls, 1, 2)
    calls.new_names(NUMBER, SHARED, PUBLIC, TABLE, FUNCTION)
    table, function = calls.of_kind(TABLE), calls.of_kind(FUNCTION)
    calls.built(PAIR, 0, 0)
    calls.built(SEALED, 0, calls.of_kind(SHARED))
    calls.built(DIGEST, function, 0)
    calls.built(MATE, calls.built(ENTRY, table, 0))
    form = calls.random.randrange(6)
    held = len(calls.terms)
    for first in range(held + 1):
        for second in range(held + 1):
            calls.say(f"build {form} {first} {second}")


def all_parties(calls):
    """Seven parties, and more than seven."""
    for _ in range(7):
        calls.say("name 0")
        calls.ask_name()
    calls.say("name 0")
    for _ in range(12):
        calls.ask_build()
    if calls.chance(0.7):
        calls.introduce()
    for _ in range(calls.random.randrange(10, 40)):
        calls.ask_line()
    calls.say("name 0")


def all_steps(calls):
    """Sixty-four steps, and the sixty-fifth in all its ways."""
    some_parties(calls, 2, 3)
    calls.introduce()
    # one more whom nobody can address
    calls.new_name(PARTY)
    messages = calls.new_names(NUMBER, SHARED)
    lost = calls.new_name(TABLE)
    for _ in range(calls.random.randrange(5)):
        messages.append(calls.built(PAIR, calls.random.choice(messages), calls.random.choice(messages)))
    while len(calls.protocol.steps) < STEPS:
        sender, receiver = calls.random.choice([(1, 2), (2, 1), (1, 2), (2, 2), (1, len(calls.parties))])
        message = calls.random.choice(messages)
        if calls.say(f"line {sender} {receiver} {message}") == "refused 9":
            messages.remove(message)
        if calls.say(f"line 1 2 {messages[0]}").startswith("refused"):
            break
    last = len(calls.parties)
    for sender, receiver in ((1, 2), (1, 1), (0, 1), (1, 9), (last, 1), (1, last)):
        calls.say(f"line {sender} {receiver} {lost}")
    for call in (f"line 1 2 {len(calls.terms)}", "own 1 0", "own 9 0"):
        calls.say(call)


def all_terms(calls):
    """Nearly all places of terms, then the last of them call by call, and what is there already."""
    some_parties(calls, *calls.random.choice([(1, 2), (1, 7), (7, 7)]))
    calls.new_names(NUMBER, SHARED, PUBLIC, TABLE, FUNCTION)
    entry = calls.built(ENTRY, calls.of_kind(TABLE), 0)
    public = calls.of_kind(PUBLIC)
    sealed = calls.built(SEALED, 0, entry)
    if calls.chance(0.5):
        calls.built(MATE, entry)
    least = TERMS - calls.random.randrange(4)
    while len(calls.terms) < least:
        late = len(calls.terms) - 1
        calls.say(calls.random.choice([
            f"name {calls.random.choice([NUMBER, SHARED, TABLE])}",
            "name 3" if late < least - 4 else "name 1",
            f"build 0 {late} {calls.term()}",
            f"build 0 {calls.term()} {late}",
            f"build 1 {late} {calls.key()}",
            f"build 2 {calls.of_kind(FUNCTION)} {late}",
        ]))
    for _ in range(calls.random.randrange(8, 20)):
        calls.random.choice([calls.ask_name, calls.ask_build])()
        calls.say(f"build 4 {entry} 0")
        count = len(calls.terms)
        calls.say(calls.random.choice([
            *["name 3", "name 3", "name 0", "name 6"],
            *[f"build 0 {count} 0", "build 1 0 0", f"build 1 0 {entry}", f"build 5 0 {sealed}"],
            *[f"build 4 {public + 1} 0", f"build 4 {public} {count}"],
        ]))
    for kind in KINDS:
        calls.say(f"name {kind}")
    for _ in range(calls.random.randrange(10)):
        calls.ask_own()
    for _ in range(calls.random.randrange(6)):
        calls.ask_line()


def grow(calls, agent, other, most):
    """Lets an agent receive long messages that it takes apart, until its script has about so many instructions."""
    known = calls.protocol.names[agent]
    while True:
        room = most - len(calls.protocol.scripts[agent].lines)
        pairs = min(room // 3 - 3, 60)
        if pairs < 1:
            return
        message = calls.chain([known] * pairs + [calls.new_name(NUMBER)])[-1]
        if calls.say(f"line {other} {agent} {message}").startswith("refused"):
            return


def full_script(calls):
    """A party's script up to its last instruction, and beyond; also what is unmakeable, with too many fresh names."""
    for _ in range(2):
        calls.new_name(PARTY)
    calls.introduce()
    if calls.chance(0.5):
        calls.new_names(PARTY)
        calls.say(f"own 3 {calls.protocol.names[1]}")
        calls.say(f"own 3 {calls.protocol.names[2]}")
    full, other = calls.random.choice([(1, 2), (2, 1)])
    lost = calls.new_name(TABLE)
    calls.say(f"own {other} {lost}")
    grow(calls, full, other, INSTRUCTIONS - calls.random.randrange(2, 60))
    names = calls.new_names(*[calls.random.choice([NUMBER, SHARED]) for _ in range(calls.random.randrange(1, 40))])
    wide = calls.chain(names)
    unmakeable = calls.built(PAIR, wide[-1], lost)
    calls.say(f"line {full} {other} {unmakeable}")
    calls.say(f"line {other} {full} {unmakeable}")
    calls.say(f"line {full} {other} {wide[-1]}")
    # from here on an instruction or a few at a time
    small = [calls.protocol.names[1], calls.protocol.names[2], *wide[:3]]
    while len(calls.protocol.steps) < STEPS - 1:
        message = calls.random.choice(small)
        sender, receiver = calls.random.choice([(full, other), (full, other), (other, full)])
        answer = calls.say(f"line {sender} {receiver} {message}")
        if answer.startswith("refused 10") and calls.chance(0.4):
            break
    for step in ((full, other, unmakeable), (full, other, small[0]), (other, full, small[0]), (full, other, small[1]), (3, full, small[0]), (full, full, 0)):
        calls.say("line {} {} {}".format(*step))


def two_full_scripts(calls):
    """Two parties whose scripts fill up side by side, so that a step may be too much for either, or for both."""
    calls.new_names(PARTY, PARTY)
    calls.introduce()
    for pairs in [24] * 10 + [6] * 8 + [1] * 16:
        lengths = [len(script.lines) for script in calls.protocol.scripts[1:]]
        # the receiver's script grows more
        agent, other = (1, 2) if lengths[0] < lengths[1] else (2, 1)
        if max(lengths) + 3 * pairs + 6 < INSTRUCTIONS:
            message = calls.chain([calls.protocol.names[agent]] * pairs + [calls.new_name(NUMBER)])[-1]
            calls.say(f"line {other} {agent} {message}")
    fresh = calls.new_names(*[NUMBER] * 12)
    wide = calls.chain(fresh)
    for _ in range(calls.random.randrange(8, 20)):
        message = calls.random.choice([0, 1, *calls.random.sample(fresh, 2), *calls.random.sample(wide, 3), wide[-1]])
        calls.say(f"line {calls.random.choice(['1 2', '2 1'])} {message}")


def known_names(calls):
    """An agent that starts with nearly all terms there can be, so that its script is full before the first step."""
    for _ in range(2):
        calls.new_name(PARTY)
    calls.introduce()
    agent = calls.random.choice([0, 1, 2])
    if agent > 0 and calls.chance(0.5):
        calls.say(f"own 0 {calls.term()}")
    for _ in range(TERMS - calls.random.randrange(5) - len(calls.terms)):
        calls.say(f"own {agent} {calls.new_name(NUMBER)}")
    calls.say("name 3")
    calls.say("name 1")
    calls.say(f"own {agent} {calls.term()}")
    for _ in range(calls.random.randrange(2, 9)):
        calls.say(f"line {calls.random.choice(['1 2', '2 1'])} {calls.term()}")
        calls.ask_line()


def anything(calls):
    """Calls with any numbers, from blank: most are refused."""
    for _ in range(calls.random.randrange(20, 60)):
        numbers = [calls.random.choice([0, 0, 1, 1, 2, 2, 3, 4, 5, 6, 7, *FAR]) for _ in range(3)]
        word, count = calls.random.choice([("name", 1), ("name", 1), ("build", 3), ("own", 2), ("line", 3), ("probe", 2), ("list", 1)])
        calls.say(" ".join([word, *map(str, numbers[:count])]))


def nothing(calls):
    """A blank protocol, or one of parties alone."""
    for _ in range(calls.random.randrange(3)):
        calls.new_name(PARTY)
        if calls.chance(0.3):
            calls.introduce()


PROTOCOLS = [
    (12, exchange),
    (6, heard_names),
    (12, mixed),
    (16, late_keys),
    (8, nested),
    (10, refused_steps),
    (8, knowledge),
    (2, parts_of_kinds),
    (3, all_parties),
    (2, all_steps),
    (2, all_terms),
    (3, full_script),
    (2, two_full_scripts),
    (1, known_names),
    (5, anything),
    (1, nothing),
]

def chosen(calls, choices):
    return calls.random.choices([choice for _, choice in choices], [often for often, _ in choices])[0]


def blank_between(calls):
    """Now and then a protocol that is given up for a blank one."""
    while calls.chance(0.08):
        chosen(calls, PROTOCOLS)(calls)
        calls.say("blank")


def protocol_list(calls):
    blank_between(calls)
    chosen(calls, PROTOCOLS)(calls)
    if calls.chance(0.5):
        # the names and terms that come after the steps
        for _ in range(calls.random.randrange(6)):
            calls.ask_anything()
    calls.look()
