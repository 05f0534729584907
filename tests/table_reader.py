"""A plain reader of tables that are written rightly: for a text within the grammar whose names are declared.

It shares nothing with the programs. A line that the protocol refuses is refused here too; what else may be wrong with a text is not
looked for.
"""

import re

from protocol_reference import MATE, Protocol, Refused

KINDS = ["party", "number", "shared", "public", "table", "function"]
PAIR, SEALED, DIGEST, ENTRY = range(4)

TOKEN = re.compile(r"[A-Za-z0-9]+|[^ ]")


class LineRefused(Exception):
    """The protocol's refusal, and the first byte of its line."""

    def __init__(self, numbers, place):
        super().__init__(f"refused 20 {place} {numbers[0]}")
        self.numbers = numbers
        self.place = place


class Table:
    def __init__(self):
        self.protocol = Protocol()
        self.names = {}
        self.agents = {}

    def called(self, number):
        """A term as a table writes it."""
        return self.written(self.protocol.terms[number])

    def agent_called(self, agent):
        return self.called(self.protocol.names[agent])

    def written(self, term):
        word, *parts = term
        if word == "atom":
            return next(name for name, number in self.names.items() if number == self.protocol.numbers[term])
        if word == "pair":
            return f"({self.tuple_written(term)})"
        texts = [self.written(part) for part in parts]
        return {"sealed": "{{{}}}{}", "digest": "{}<{}>", "entry": "{}[{}]", "mate": "{}'"}[word].format(*texts)

    def tuple_written(self, term):
        if term[0] == "pair":
            return self.written(term[1]) + " " + self.tuple_written(term[2])
        return self.written(term)

    def read(self, text):
        place = 0
        for line in text.split("\n"):
            try:
                self.read_line(TOKEN.findall(line))
            except Refused as refusal:
                raise LineRefused(refusal.numbers, place) from None
            place += len(line) + 1
        return self

    def read_line(self, tokens):
        if not tokens:
            return
        first, *rest = tokens
        if first in KINDS:
            for name in rest:
                self.names[name] = self.protocol.name(KINDS.index(first))
                if first == "party":
                    self.agents[name] = len(self.agents) + 1
        elif first == "own":
            term, _ = self.term(rest, 1)
            self.protocol.own(self.agents[rest[0]], term)
        else:
            term, _ = self.term(rest, 2)
            self.protocol.line(self.agents[rest[0]], self.agents[rest[1]], term)

    def term(self, tokens, at):
        """The number of the term that begins at a token, and the place of the token behind it."""
        build = self.protocol.build
        if tokens[at] == "(":
            parts, at = [], at + 1
            while tokens[at] != ")":
                part, at = self.term(tokens, at)
                parts.append(part)
            whole = parts.pop()
            while parts:
                whole = build(PAIR, parts.pop(), whole)
            return whole, at + 1
        if tokens[at] == "{":
            content, at = self.term(tokens, at + 1)
            key, at = self.key(tokens, at + 1)
            return build(SEALED, content, key), at
        if tokens[at + 1 : at + 2] == ["<"]:
            content, end = self.term(tokens, at + 2)
            return build(DIGEST, self.names[tokens[at]], content), end + 1
        return self.key(tokens, at)

    def key(self, tokens, at):
        key = self.names[tokens[at]]
        at += 1
        if tokens[at : at + 1] == ["["]:
            key = self.protocol.build(ENTRY, key, self.names[tokens[at + 1]])
            at += 3
        while tokens[at : at + 1] == ["'"]:
            key = self.protocol.build(MATE, key, 0)
            at += 1
        return key, at


def listings(text):
    """What `exchange` prints of a table."""
    try:
        protocol = Table().read(text).protocol
    except LineRefused as refusal:
        return f"{refusal}\n"
    return "".join(line + "\n" for agent in range(len(protocol.scripts)) for line in protocol.listing(agent))
