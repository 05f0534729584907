"""A plain reader of tables: tokens, the lines of the grammar, the calls that a line makes, and what `exchange` then prints.

It goes by the rules as they are written on the page on text, as literally as can be. Whether a token may stand where it stands is asked of
the grammar itself: all ways in which a line of the grammar can go on after the tokens before it are kept, and a token is outside the
grammar if none of them has it. Only a line that was granted whole is read by recursive descent. The protocol and its scripts are those of
protocol_reference.py.
"""

from string import ascii_letters, digits

from protocol_reference import Protocol, Refused

LONGEST_TEXT = 32768
LONGEST_NAME = 16
MOST_OPEN = 64

LETTERS = frozenset(ascii_letters.encode())
IN_WORDS = LETTERS | frozenset(digits.encode())

SPACE, NEWLINE = b" ", b"\n"
KINDS = [b"party", b"number", b"shared", b"public", b"table", b"function"]
KEYWORDS = [*KINDS, b"own", b"line"]
OPENING, CLOSING = [b"(", b"{", b"[", b"<"], [b")", b"}", b"]", b">"]
TICK = b"'"
SIGNS = [*OPENING, *CLOSING, TICK]

PARTY = KINDS.index(b"party")
PAIR, SEALED, DIGEST, ENTRY, MATE = range(5)

# Sorts of tokens; that of a keyword, a bracket or a tick is the token itself.
NAME, LINE_END, NO_SORT = "name", "line end", "no sort"

# What a name may be where it stands.
NEW_NAME, AGENT, USED_NAME = ROLES = "new name", "agent", "used name"

# The ways to write each part of a line: in roles, in tokens by their sort, and in parts again.
GRAMMAR = {
    "whole line": [
        [LINE_END],
        *([kind, NEW_NAME, "new names", LINE_END] for kind in KINDS),
        [b"own", AGENT, "term", LINE_END],
        [b"line", AGENT, AGENT, "term", LINE_END],
    ],
    "new names": [[], [NEW_NAME, "new names"]],
    "term": [
        ["key"],
        [b"(", "term", "term", "terms", b")"],
        [b"{", "term", b"}", "key"],
        [USED_NAME, b"<", "term", b">"],
    ],
    "terms": [[], ["term", "terms"]],
    "key": [[USED_NAME, "ticks"], [USED_NAME, b"[", USED_NAME, b"]", "ticks"]],
    "ticks": [[], [TICK, "ticks"]],
}


class Token:
    def __init__(self, place, text):
        self.place = place
        self.text = text

    @property
    def sort(self):
        if self.text in (b"", NEWLINE):
            return LINE_END
        if self.text in KEYWORDS or self.text in SIGNS:
            return self.text
        if self.text[0] in LETTERS and len(self.text) <= LONGEST_NAME:
            return NAME
        return NO_SORT


def end_of_word(text, place):
    """Where the longest run of letters and digits from a place on ends."""
    while place < len(text) and text[place] in IN_WORDS:
        place += 1
    return place


def tokens_of_line(text, place):
    """The tokens of the line that begins at a place; the last is its line end."""
    while True:
        while text[place:place + 1] == SPACE:
            place += 1
        # a token that is no word is one byte, or none at the text's end
        end = max(end_of_word(text, place), min(place + 1, len(text)))
        token = Token(place, text[place:end])
        yield token
        if token.sort == LINE_END:
            return
        place = end


def put_before(parts, rest):
    """A way to go on: the first part, and the way to go on after it."""
    for part in reversed(parts):
        rest = (part, rest)
    return rest


def beginnings(ways):
    """The same ways to go on, written out until each begins with a token or a role."""
    todo = list(ways)
    while todo:
        first, rest = todo.pop()
        if first in GRAMMAR:
            todo += [put_before(parts, rest) for parts in GRAMMAR[first]]
        else:
            yield first, rest


def has_sort(first, sort):
    return sort == NAME if first in ROLES else first == sort


class Line:
    """A granted line, whose tokens are taken from the front."""

    def __init__(self, tokens):
        self.tokens = list(tokens)
        self.taken = 0

    @property
    def next_text(self):
        return self.tokens[self.taken].text

    @property
    def at_end(self):
        return self.tokens[self.taken].sort == LINE_END

    def take(self):
        text = self.next_text
        self.taken += 1
        return text

    def take_if(self, text):
        """Whether the next token is this one, which is then taken."""
        is_next = self.next_text == text
        self.taken += is_next
        return is_next


class Table:
    """A protocol and its names, read from a text line by line."""

    def __init__(self):
        self.protocol = Protocol()
        # by name: the number of its term, and of its agent if it is a party
        self.terms = {}
        self.agents = {}

    def read(self, text):
        if len(text) > LONGEST_TEXT:
            raise Refused(15, LONGEST_TEXT)
        place = 0
        while place < len(text):
            place = self.read_line(text, place)

    def read_line(self, text, place):
        """Checks the line that begins at a place and makes its calls; where the next one begins."""
        tokens = list(self.checked(text, place))
        try:
            self.make_calls(Line(tokens))
        except Refused as refusal:
            raise Refused(20, place, *refusal.numbers) from refusal
        return tokens[-1].place + 1

    def checked(self, text, place):
        """The tokens of a line, each of which is right where it stands."""
        ways, are_open, new_names = [("whole line", None)], 0, set()
        for token in tokens_of_line(text, place):
            going_on = [way for way in beginnings(ways) if has_sort(way[0], token.sort)]
            if not going_on:
                raise Refused(16, token.place)
            roles, ways = {first for first, _ in going_on}, [rest for _, rest in going_on]
            if AGENT in roles and token.text not in self.agents:
                raise Refused(17, token.place)
            if USED_NAME in roles and token.text not in self.terms:
                raise Refused(17, token.place)
            if NEW_NAME in roles and (token.text in self.terms or token.text in new_names):
                raise Refused(18, token.place)
            if token.text in OPENING and are_open == MOST_OPEN:
                raise Refused(19, token.place)
            are_open += (token.text in OPENING) - (token.text in CLOSING)
            new_names |= {token.text} if NEW_NAME in roles else set()
            yield token

    def make_calls(self, line):
        if line.at_end:
            return
        word = line.take()
        if word == b"own":
            agent = self.agents[line.take()]
            self.protocol.own(agent, self.term(line))
        elif word == b"line":
            sender, receiver = self.agents[line.take()], self.agents[line.take()]
            self.protocol.line(sender, receiver, self.term(line))
        else:
            while not line.at_end:
                self.declare(KINDS.index(word), line.take())

    def declare(self, kind, name):
        self.terms[name] = self.protocol.name(kind)
        if kind == PARTY:
            self.agents[name] = len(self.agents) + 1

    def term(self, line):
        """Builds the term that comes next; its number."""
        if line.take_if(b"("):
            parts = []
            while not line.take_if(b")"):
                parts.append(self.term(line))
            return self.pairs(parts)
        if line.take_if(b"{"):
            content = self.term(line)
            line.take()
            return self.protocol.build(SEALED, content, self.key(line))
        if line.tokens[line.taken + 1].text == b"<":
            function = self.terms[line.take()]
            line.take()
            operand = self.term(line)
            line.take()
            return self.protocol.build(DIGEST, function, operand)
        return self.key(line)

    def pairs(self, parts):
        """Builds pairs of parts that are built already, from the right."""
        whole = parts.pop()
        while parts:
            whole = self.protocol.build(PAIR, parts.pop(), whole)
        return whole

    def key(self, line):
        key = self.terms[line.take()]
        if line.take_if(b"["):
            key = self.protocol.build(ENTRY, key, self.terms[line.take()])
            line.take()
        while line.take_if(TICK):
            key = self.protocol.build(MATE, key, 0)
        return key

    def listing(self):
        """The lines of all agents' scripts."""
        return [line for agent in range(len(self.protocol.scripts)) for line in self.protocol.listing(agent)]

    def written(self, number):
        """A term that is a name, or the mate of a name or of an entry, as the table writes it."""
        names = {self.protocol.terms[number]: name for name, number in self.terms.items()}

        def written(tree):
            word, *parts = tree
            if word == "mate":
                return written(parts[0]) + b"'"
            return b"%b[%b]" % tuple(map(written, parts)) if word == "entry" else names[tree]

        return written(self.protocol.terms[number])


class Outcome:
    """What comes of a text: the scripts of a granted table, or why it is refused."""

    def __init__(self, text):
        self.text = text
        self.table = Table()
        self.refusal = ()
        try:
            self.table.read(text)
        except Refused as refusal:
            self.refusal = refusal.numbers

    @property
    def output(self):
        """What `exchange` prints: of a refusal the number and the place, and the number of the protocol's refusal."""
        lines = [" ".join(map(str, ["refused", *self.refusal[:3]]))] if self.refusal else self.table.listing()
        return "".join(f"{line}\n" for line in lines).encode()

    @property
    def line_and_column(self):
        """The place of a refusal as people count: lines from 1, and the bytes of a line from 1."""
        place = self.refusal[1]
        before = self.text[:place]
        return before.count(NEWLINE) + 1, place - before.rfind(NEWLINE)

    @property
    def words_due(self):
        """What has to be told of a refusal in the table's words: who lacks what, or whose script is full."""
        if self.refusal[2:3] == (9,):
            _, sender, *_ = tokens_of_line(self.text, self.refusal[1])
            return [sender.text, self.table.written(self.refusal[3])]
        if self.refusal[2:3] == (10,):
            return [name for name, agent in self.table.agents.items() if agent == self.refusal[3]]
        return []
