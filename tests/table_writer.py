"""Tables written as text: tables that are granted, or that the protocol refuses at their end.

A table is a list of lines, and a line a list of tokens, each the bytes of a token; `laid_out` makes a text of them.
"""

import re

from protocol_reference import Refused
from symbolic_reference import FUNCTION, NUMBER, PARTY, PUBLIC, SHARED, TABLE, digest, entry, is_key, is_name, join, mate, seal
from table_reference import IN_WORDS, KEYWORDS, KINDS, LONGEST_NAME, NEWLINE, TICK, Table

LETTERS = b"ABCDEFGHJKabcdhkmnz"

# Names that differ in their length or their last letter.
LONG_NAMES = [b"a" * (LONGEST_NAME - 1), b"a" * LONGEST_NAME, b"a" * (LONGEST_NAME - 1) + b"b"]
# Names that are nearly keywords, or might be elsewhere, or are nearly the same.
TEMPTING = [
    *LONG_NAMES, *LONG_NAMES, b"Party", b"NUMBER", b"partyA", b"part", b"own1", b"Own", b"lines", b"lin", b"mate", b"key", b"tables", b"sharedk",
    b"F1", b"E0",
]


# Texts out of tokens.


def is_word(token):
    return token[:1] != b"" and token[0] in IN_WORDS


def spaces(rng, most, tight):
    return b" " * (0 if rng.random() < tight else rng.randrange(most + 1))


def laid_out(rng, lines):
    """Writes lines with some spacing: tight, one space between all tokens, or loose, with empty lines among the others."""
    most, tight = rng.choice([(0, 1), (1, 0), (1, 0.5), (3, 0.3), (9, 0.6)])
    empty_lines = rng.choice([0, 0, 0.1, 0.5])
    text, before = [], b""
    for number, line in enumerate(lines):
        while rng.random() < empty_lines:
            text += [spaces(rng, most, 0.5), NEWLINE]
        before = b""
        for token in line:
            must_part = is_word(before) and is_word(token)
            text += [b" " if must_part else b"", spaces(rng, most, tight), token]
            before = token
        is_last = number == len(lines) - 1
        text += [spaces(rng, most, 0.5), b"" if is_last and rng.random() < 0.4 else NEWLINE]
    return b"".join(text)


def lines_of(text):
    """The lines of a text as lists of tokens; one for what follows the last byte 10, if only nothing."""
    return [re.findall(rb"[A-Za-z0-9]+|[^ ]", line, re.DOTALL) for line in text.split(NEWLINE)]


def spaced_otherwise(rng, text):
    """The same tokens with other spaces between them."""
    return laid_out(rng, lines_of(text))


# Tables that are mostly granted.


class Writer:
    """Writes a table line by line, while the reference reads it."""

    def __init__(self, rng):
        self.rng = rng
        self.lines = []
        self.table = Table()
        # by the tree of a name
        self.written_names = {}
        self.is_refused = False

    @property
    def protocol(self):
        return self.table.protocol

    @property
    def parties(self):
        return list(self.table.agents)

    def chance(self, share):
        return self.rng.random() < share

    def say(self, *tokens):
        """Adds a line, which is read unless an earlier one was refused."""
        self.lines.append(list(tokens))
        if self.is_refused:
            return
        try:
            self.table.read_line(b" ".join(tokens), 0)
        except Refused:
            self.is_refused = True
            return
        for name, number in self.table.terms.items():
            self.written_names[self.protocol.terms[number]] = name

    def script(self, party):
        return self.protocol.scripts[self.table.agents[party]]

    def tree(self, name):
        return self.protocol.terms[self.table.terms[name]]

    def of_kind(self, *kinds):
        return [tree for tree in self.written_names if tree[1] in kinds]

    def new_name(self):
        while True:
            length = self.rng.choice([1, 1, 1, 2, 3, LONGEST_NAME])
            name = bytes(self.rng.choice(LETTERS) for _ in range(length))
            name = name[:-1] + b"7" if length > 1 and self.chance(0.2) else name
            name = self.rng.choice(TEMPTING) if self.chance(0.1) else name
            if name not in self.table.terms and name not in KEYWORDS:
                return name

    def declare(self, kind, count):
        names = []
        while len(names) < count:
            name = self.new_name()
            if name not in names:
                names.append(name)
        self.say(KINDS[kind], *names)
        return [self.tree(name) for name in names if name in self.table.terms]

    def written(self, tree):
        """The tokens of a term."""
        word, *parts = tree
        if word == "pair":
            return self.written_tuple(tree)
        if word == "sealed":
            return [b"{", *self.written(parts[0]), b"}", *self.written_key(parts[1])]
        if word == "digest":
            return [*self.written(parts[0]), b"<", *self.written(parts[1]), b">"]
        return self.written_key(tree)

    def written_tuple(self, tree):
        """A pair's tokens, with more than two parts where its right half is a pair again."""
        parts = [tree[1]]
        tree = tree[2]
        while tree[0] == "pair" and self.chance(0.7):
            parts.append(tree[1])
            tree = tree[2]
        return [b"(", *(token for part in [*parts, tree] for token in self.written(part)), b")"]

    def written_key(self, tree):
        """The tokens of a name or a key, now and then with ticks that alter nothing."""
        word, *parts = tree
        more = [TICK] * (2 if is_key(tree) and self.chance(0.05) else is_name(tree, SHARED) and self.chance(0.1))
        if word == "entry":
            return [*self.written(parts[0]), b"[", *self.written(parts[1]), b"]", *more]
        if word == "mate":
            return [*self.written_key(parts[0]), TICK, *more]
        return [self.written_names[tree], *more]

    def known(self, party, test=lambda tree: True):
        """Some term of a party's slots, not too large a one."""
        trees = [tree for tree in self.script(party).slots if test(tree) and size_of(tree) <= 30]
        return self.rng.choice(trees) if trees else None

    def makeable(self, party, size):
        """A term that a party can compose, with names that are fresh in it."""
        if size == 0:
            fresh = [name for name in self.of_kind(NUMBER, SHARED, PUBLIC) if name not in self.protocol.used]
            return self.rng.choice(fresh) if fresh and self.chance(0.3) else self.known(party)
        first = self.makeable(party, self.rng.randrange(size))
        key = self.known(party, is_key)
        if key is not None and self.chance(0.4):
            return seal(first, key)
        function = self.known(party, lambda tree: is_name(tree, FUNCTION))
        if function is not None and self.chance(0.3):
            return digest(function, first)
        tables, parties = ([tree for tree in self.script(party).slots if is_name(tree, kind)] for kind in (TABLE, PARTY))
        if tables and self.chance(0.3):
            return entry(self.rng.choice(tables), self.rng.choice(parties))
        return join(first, self.makeable(party, self.rng.randrange(size)))

    def step(self, sender, receiver, tree):
        self.say(b"line", sender, receiver, *self.written(tree))

    def own(self, party, tree):
        self.say(b"own", party, *self.written(tree))

    def any_tree(self, size):
        """Some term of the names that are declared, whether or not anybody has them."""
        if size == 0:
            return self.rng.choice(list(self.written_names))
        keys = [tree for tree in self.written_names if is_key(tree)]
        keys += [entry(table, party) for table in self.of_kind(TABLE) for party in self.of_kind(PARTY)[:2]]
        if keys and self.chance(0.5):
            key = self.rng.choice(keys)
            key = mate(key) if self.chance(0.3) else key
            return key if self.chance(0.4) else seal(self.any_tree(self.rng.randrange(size)), key)
        if self.of_kind(FUNCTION) and self.chance(0.3):
            return digest(self.rng.choice(self.of_kind(FUNCTION)), self.any_tree(self.rng.randrange(size)))
        return join(self.any_tree(self.rng.randrange(size)), self.any_tree(self.rng.randrange(size)))

    def mates(self):
        """The mates of keys that have one: of entries and public keys, or parties where there are none."""
        keys = [entry(table, party) for table in self.of_kind(TABLE) for party in self.of_kind(PARTY)] + self.of_kind(PUBLIC)
        return [mate(key) for key in keys] or self.of_kind(PARTY)

    def two_parties(self):
        return self.rng.sample(self.parties, 2)

    def introduce(self):
        for party in self.parties:
            for other in self.parties:
                if other != party:
                    self.own(party, self.tree(other))


def size_of(tree):
    """How many terms are written in a term."""
    return 1 + sum(size_of(part) for part in tree[1:] if isinstance(part, tuple))


def begun(rng, parties):
    """A writer of a table with parties, names of all kinds, and initial knowledge."""
    writer = Writer(rng)
    declared = [(PARTY, parties)] + [(kind, rng.randrange(4)) for kind in (NUMBER, SHARED, PUBLIC, TABLE, FUNCTION)]
    rng.shuffle(declared)
    for kind, count in declared:
        while count > 0:
            some = rng.randrange(1, count + 1)
            writer.declare(kind, some)
            count -= some
    writer.introduce()
    for tree in writer.of_kind(TABLE, FUNCTION):
        for party in rng.sample(writer.parties, rng.randrange(parties + 1)):
            writer.own(party, tree)
    for _ in range(rng.randrange(3 * parties)):
        writer.own(rng.choice(writer.parties), writer.any_tree(rng.choice([0, 0, 0, 1, 2, 5])))
    return writer


def exchange(rng):
    """A table whose steps can be made, with names declared between them."""
    writer = begun(rng, rng.choice([2, 2, 3, 3, 4, 7]))
    for _ in range(rng.randrange(1, 10)):
        if writer.chance(0.3):
            writer.declare(rng.choice([NUMBER, SHARED, PUBLIC]), rng.randrange(1, 3))
        sender, receiver = writer.two_parties()
        writer.step(sender, receiver, writer.makeable(sender, rng.randrange(8)))
    return writer.lines


def passed_on(rng):
    """Received terms go on to the next party, under keys that are made known later."""
    writer = begun(rng, rng.choice([3, 3, 4]))
    for _ in range(rng.randrange(1, 8)):
        sender, receiver = writer.two_parties()
        held = list(writer.script(sender).slots)
        tree = rng.choice(held[-4:])
        if writer.chance(0.4):
            [key] = writer.declare(rng.choice([SHARED, PUBLIC]), 1)
            tree = join(seal(tree, key), seal(key, writer.known(sender, is_key) or key))
        if size_of(tree) > 60:
            tree = writer.known(sender)
        writer.step(sender, receiver, tree)
    return writer.lines


def wrong_at_last(rng):
    """A table whose last line the protocol may refuse, for one reason or another."""
    writer = begun(rng, rng.choice([2, 3]))
    [stranger] = writer.declare(PARTY, 1)
    stranger = writer.written_names[stranger]
    for _ in range(rng.randrange(4)):
        sender, receiver = rng.sample([party for party in writer.parties if party != stranger], 2)
        writer.step(sender, receiver, writer.makeable(sender, rng.randrange(4)))
    one, other = writer.two_parties()
    tree = writer.any_tree(rng.randrange(4))
    writer.say(*rng.choice([
        [b"own", one, *writer.written(tree)],
        [b"own", other, one],
        [b"line", one, one, *writer.written(tree)],
        [b"line", one, other, *writer.written(tree)],
        [b"line", one, other, *writer.written(rng.choice(writer.mates()))],
        [b"line", one, other, b"(", *writer.written(tree), *writer.written(rng.choice(writer.mates())), b")"],
        [b"line", one, stranger, *writer.written(tree)],
        [b"line", stranger, one, *writer.written(tree)],
        [b"line", one, stranger, b"{", *writer.written(tree), b"}", one],
        [b"own", one, one, TICK],
        [b"own", one, one, b"[", other, b"]"],
        [b"own", one, one, b"<", *writer.written(tree), b">"],
        [b"party", b"E1", b"E2", b"E3", b"E4", b"E5", b"E6"],
    ]))
    return writer.lines
