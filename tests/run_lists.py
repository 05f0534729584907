"""Lists of calls on sessions and runs: on both providers, blank, used and nearly full, whole runs and sessions by hand."""

from byte_reference import HANDLES, ByteProvider
from call_lists import fill_bytes
from compare_symbolic import fill
from console_reference import PROVIDERS, SESSIONS, SLOTS
from protocol_lists import (
    KINDS, FAR, all_parties, all_steps, blank_between, chosen, exchange, full_script, heard_names, known_names, knowledge, late_keys,
    mixed, nested, nothing, refused_steps, some_parties,
)
from protocol_reference import TERMS, Refused
from session_reference import Readings, run
from symbolic_reference import FUNCTION, NUMBER, SHARED, TABLE

# Protocols that are worth a run, with the number of times among all.
RUNNING = [
    (46, exchange),
    (6, heard_names),
    (10, mixed),
    (16, late_keys),
    (10, nested),
    (14, refused_steps),
    (4, knowledge),
    (3, all_parties),
    (1, all_steps),
    (1, full_script),
    (1, known_names),
    (2, nothing),
]


# Providers before a run.


def a_provider(calls):
    calls.say(calls.random.choice(list(PROVIDERS)))


def used(calls):
    """Values made before: on terms, some that the protocol's terms are too."""
    a_provider(calls)
    for _ in range(calls.random.randrange(1, 20)):
        if calls.chance(0.5):
            calls.say(f"atom {calls.random.choice(KINDS)} {calls.random.randrange(8)}")
        else:
            calls.say(calls.making())


class Watched(ByteProvider):
    """A byte provider that notes before each making how many bytes and handles are in use."""

    def __init__(self):
        super().__init__()
        self.noted = []

    def make(self, word, operands):
        self.noted.append((self.used, len(self.values)))
        return super().make(word, operands)


def before_a_making(calls):
    """The bytes and handles in use before some making of a run, seldom while the terms are loaded."""
    provider = Watched()
    try:
        run(calls.protocol, provider, Readings(), SLOTS)
    except Refused:
        pass
    terms = len(calls.terms)
    noted = provider.noted[:terms] if calls.chance(0.2) else provider.noted[terms:]
    return calls.random.choice(noted or [(0, 0)])


def few_bytes(calls):
    """A byte provider whose bytes run out."""
    calls.say("provider bytes")
    fill_bytes(calls, before_a_making(calls)[0])


def few_handles(calls):
    """A byte provider whose handles run out."""
    calls.say("provider bytes")
    calls.say("atom 2 1")
    calls.say("join 0 0")
    free = before_a_making(calls)[1]
    for _ in range(HANDLES - free - calls.issued):
        calls.say("left 1")


def few_terms(calls):
    calls.say("provider symbolic")
    for kind in KINDS:
        calls.say(f"atom {kind} {calls.random.randrange(8)}")
    fill(calls, calls.random.randrange(len(calls.terms) + 2))


PREPARED = [
    (40, a_provider),
    (26, used),
    (26, few_bytes),
    (2, few_handles),
    (4, few_terms),
]


# Runs and sessions.


def lengths(calls):
    return [len(script.lines) for script in calls.protocol.scripts[1:]]


def lend(calls):
    """Memory that is just enough, or just too little, or anything."""
    terms, slots = len(calls.terms), lengths(calls) or [0]
    readings = calls.random.choice([terms, max(0, terms - 1), calls.random.randrange(TERMS + 1), TERMS])
    slots = calls.random.choice([sum(slots), max(0, sum(slots) - 1), max(slots), max(0, max(slots) - 1), 4096])
    calls.say(f"memory {readings} {slots}")


def lend_all(calls):
    calls.say("memory 512 4096")


def play_list(calls):
    """Whole runs, one after another on a provider, with the values that they leave."""
    blank_between(calls)
    chosen(calls, RUNNING)(calls)
    if calls.chance(0.05):
        calls.say("play")
    chosen(calls, PREPARED)(calls)
    for _ in range(calls.random.randrange(1, 4)):
        if calls.chance(0.3):
            lend(calls)
        elif calls.chance(0.5):
            lend_all(calls)
        calls.say("play")
        if calls.chance(0.2):
            calls.ask_line()
    calls.show_all(16)
    show_readings(calls)
    if calls.chance(0.3):
        calls.look()


def show_readings(calls):
    """What the readings are, as far as sessions show them: a party sends what it was given."""
    for handle in calls.random.sample(calls.console.readings.handles, 4):
        calls.say(f"show {handle}")


class Table:
    """Sessions of a console that are under way, and what was sent and not taken yet."""

    def __init__(self, calls):
        self.calls = calls
        # by step: the handle that was sent
        self.sent = {}

    @property
    def sessions(self):
        return self.calls.console.sessions

    def session(self):
        """The number of a session: mostly one that is there."""
        count = len(self.sessions)
        if count == 0 or self.calls.chance(0.02):
            return self.calls.random.choice([count, count + 1, SESSIONS, 65535])
        return self.calls.random.randrange(count)

    def of_party(self, party):
        """The last session of a party, or any."""
        mine = [number for number, session in enumerate(self.sessions) if session.party == party]
        return mine[-1] if mine else self.session()

    def reading(self, party):
        return self.calls.console.readings.handles[self.calls.protocol.names[party]]

    def send(self, number):
        step = self.calls.protocol.steps[number]
        answer = self.calls.say(f"send {self.of_party(step.sender)}")
        words = answer.split()
        if len(words) == 2 and words[0].isdigit():
            self.sent[number] = int(words[0])
            if self.calls.chance(0.3):
                self.calls.say(f"show {words[0]}")
                self.calls.say(f"show {words[1]}")

    def take(self, number):
        """Hands over what was sent; sometimes something else first, or once more afterwards."""
        calls = self.calls
        step = calls.protocol.steps[number]
        session = self.of_party(step.receiver)
        right = (self.reading(step.sender), self.sent.get(number, calls.handle()))
        if calls.chance(0.35):
            wrong = calls.random.choice([
                (right[0], calls.handle()),
                (right[0], calls.console.readings.handles[step.message]),
                (right[0], calls.random.choice(calls.console.readings.handles[:max(1, len(calls.terms))])),
                (calls.handle(), right[1]),
                (right[1], right[0]),
                (calls.handle(), calls.handle()),
            ])
            calls.say(f"take {session} {wrong[0]} {wrong[1]}")
        calls.say(f"take {session} {right[0]} {right[1]}")
        if calls.chance(0.1):
            calls.say(f"take {session} {right[0]} {right[1]}")

    def disturb(self):
        """Something out of order."""
        calls = self.calls
        ask = calls.random.choice([
            lambda: calls.say(f"start {self.session()}"),
            lambda: calls.say(f"start {self.session()}"),
            lambda: calls.say(f"send {self.session()}"),
            lambda: calls.say(f"send {self.session()}"),
            lambda: calls.say(f"take {self.session()} {calls.handle()} {calls.handle()}"),
            lambda: calls.say("deal"),
            lambda: calls.say("play"),
            lambda: lend(calls),
            lambda: lend_all(calls),
            lambda: calls.say(f"seat {calls.agent()}"),
            lambda: calls.say(f"seat {calls.random.choice([*calls.parties, 0])}"),
            lambda: calls.make(calls.making()),
            calls.ask_line,
            calls.ask_build,
        ])
        ask()


def sit_down(calls):
    """A session for each party, sometimes two, sometimes for nobody."""
    parties = [*calls.parties]
    if calls.chance(0.3):
        parties.append(calls.random.choice([0, *parties, *FAR, len(parties) + 1]))
    calls.random.shuffle(parties)
    for party in parties:
        calls.say(f"seat {party}")


def session_list(calls):
    """Sessions by hand: each step sent and taken, with wrong messages and calls out of order in between."""
    chosen(calls, RUNNING)(calls)
    table = Table(calls)
    early = calls.chance(0.2)
    if early:
        sit_down(calls)
    chosen(calls, PREPARED)(calls)
    if not early:
        sit_down(calls)
    unrest = calls.random.choice([0, 0.05, 0.3])
    if calls.chance(0.9):
        calls.say("deal")
    started = [number for number in range(len(table.sessions)) if calls.chance(0.95)]
    calls.random.shuffle(started)
    for number in started:
        if calls.chance(unrest):
            table.disturb()
        if calls.chance(0.1):
            lend(calls)
        calls.say(f"start {number}")
        lend_all(calls)
        if calls.chance(0.1):
            calls.say(f"start {number}")
    number = 0
    while number < len(calls.protocol.steps):
        while calls.chance(unrest):
            table.disturb()
        if calls.chance(0.5):
            lend_all(calls)
        table.send(number)
        if calls.chance(unrest):
            table.disturb()
        if not calls.chance(unrest / 3):
            table.take(number)
        number += 1
    for _ in range(calls.random.randrange(6)):
        table.disturb()
    calls.show_all(12)
    show_readings(calls)
    if calls.chance(0.3):
        show_slots(calls, table)


def show_slots(calls, table):
    """What stands in the slots of a session, shown by a protocol in which its party sends what it would have been given."""
    def mine(step):
        return session.party in (step.sender, step.receiver)
    ready = []
    for number, session in enumerate(table.sessions):
        # its turn is the same whether all steps or its own are counted
        if session.turn is not None and all(mine(step) for step in calls.protocol.steps[:session.turn]):
            ready.append((number, session))
    if not ready:
        return
    number, session = calls.random.choice(ready)
    calls.say("blank")
    some_parties(calls, max(2, session.party), max(2, session.party))
    other = 2 if session.party == 1 else 1
    calls.say(f"own {session.party} {calls.protocol.names[other]}")
    given = [calls.protocol.names[session.party], calls.protocol.names[other]]
    for _ in range(calls.random.randrange(40)):
        given.append(calls.new_name(NUMBER))
        calls.say(f"own {session.party} {given[-1]}")
    for term in [0] * session.turn + given:
        calls.say(f"line {session.party} {other} {term}")
    lend_all(calls)
    for _ in given:
        calls.say(f"send {number}")


def changed_list(calls):
    """Sessions while the protocol grows or is given up, and while the provider is another: each call goes by what is there."""
    chosen(calls, RUNNING)(calls)
    table = Table(calls)
    for _ in range(calls.random.randrange(2, 5)):
        a_provider(calls)
        if calls.chance(0.7):
            calls.say("deal")
        for _ in range(calls.random.randrange(1, 4)):
            calls.say(f"seat {calls.party()}")
        for session in range(len(table.sessions)):
            if calls.chance(0.6):
                calls.say(f"start {session}")
        for number in range(min(4, len(calls.protocol.steps))):
            if calls.chance(0.7):
                table.send(number)
                table.take(number)
            if calls.chance(0.3):
                calls.ask_anything()
            if calls.chance(0.3):
                table.disturb()
        if calls.chance(0.3):
            calls.say("blank")
            some_parties(calls)
            calls.new_names(NUMBER, SHARED, TABLE, FUNCTION)
            calls.introduce()
            for _ in range(8):
                calls.ask_build()
        for _ in range(3):
            calls.ask_line()
        if calls.chance(0.3):
            show_slots(calls, table)
    calls.look(10)


def unread_list(calls):
    """Calls with too few or too many words, sessions that are not there, and calls before there is a provider."""
    def without_provider():
        for line in ("deal", "play", "start 0", "send 0", "take 0 0 0"):
            calls.say(line)
    without_provider()
    calls.say(f"seat {calls.random.randrange(3)}")
    without_provider()
    mixed(calls)
    if calls.chance(0.7):
        a_provider(calls)
    words = [
        *[("blank", 0), ("name", 1), ("build", 3), ("own", 2), ("line", 3), ("probe", 2), ("list", 1)],
        *[("memory", 2), ("deal", 0), ("seat", 1), ("start", 1), ("send", 1), ("take", 3), ("play", 0)],
    ]
    for _ in range(calls.random.randrange(20, 60)):
        word, count = calls.random.choice(words)
        numbers = [str(calls.random.choice([0, 0, 1, 1, 2, 3, 65535])) for _ in range(count)]
        fault = calls.random.randrange(8)
        if fault == 0:
            numbers.append("0")
        elif fault == 1:
            numbers = numbers[1:]
        elif fault == 2:
            numbers = numbers[:-1] + [calls.random.choice(["65536", "99999", "000001", "00001", "x", "", "-1"])]
        elif fault == 3:
            word = calls.random.choice([word.upper(), word[:-1], word + "s", " " + word])
        calls.say(" ".join([word, *numbers]))
    for memory in ("512 0", "513 4096", "0 4096", "512 4097", "0 0", "512 4096", "513 4097", "65535 0"):
        # too much alters nothing
        calls.say(f"memory {memory}")
        for line in ("deal", "play", "start 0"):
            calls.say(line)
    for _ in range(SESSIONS + 1):
        calls.say(f"seat {calls.party()}")
    for session in (0, SESSIONS - 1, SESSIONS, 65535):
        calls.say(f"start {session}")
        calls.say(f"send {session}")
