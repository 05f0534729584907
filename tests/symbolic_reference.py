"""A plain implementation of the symbolic provider, to compare the proved one with.

A value is a term, written as a tuple of a word and the term's parts:

    ("atom", KIND, ID), ("pair", LEFT, RIGHT), ("sealed", CONTENT, KEY),
    ("digest", FUNCTION, OPERAND), ("entry", TABLE, PARTY), ("mate", KEY)

The provider has room for 1,024 terms and holds none twice: a making whose term
is held answers the handle that it has, also when there is no room left.
"""

from provider_reference import FULL, WRONG, Provider

TERMS = 1024

PARTY, NUMBER, SHARED, PUBLIC, TABLE, FUNCTION = range(6)


def is_name(term, kind):
    return term[0] == "atom" and term[1] == kind


def is_key(term):
    return is_name(term, SHARED) or is_name(term, PUBLIC) or term[0] in ("entry", "mate")


def join(left, right):
    return ("pair", left, right)


def left(joined):
    return joined[1] if joined[0] == "pair" else None


def right(joined):
    return joined[2] if joined[0] == "pair" else None


def mate(key):
    if not is_key(key):
        return None
    if is_name(key, SHARED):
        return key
    if key[0] == "mate":
        return key[1]
    return ("mate", key)


def seal(content, key):
    return ("sealed", content, key) if is_key(key) else None


def open_(sealed, opener):
    if sealed[0] != "sealed" or mate(sealed[2]) != opener:
        return None
    return sealed[1]


def digest(function, operand):
    return ("digest", function, operand) if is_name(function, FUNCTION) else None


def entry(table, party):
    return ("entry", table, party) if is_name(table, TABLE) and is_name(party, PARTY) else None


class SymbolicProvider(Provider):
    makers = {
        "join": join,
        "left": left,
        "right": right,
        "seal": seal,
        "open": open_,
        "digest": digest,
        "entry": entry,
        "mate": mate,
    }

    def atom(self, kind, number):
        return ("atom", kind, number)

    def make(self, word, operands):
        """The handle that the term had, else a new one, or a refusal."""
        term = self.made(word, operands)
        if term is None:
            return WRONG
        if term in self.values:
            return self.values.index(term)
        if len(self.values) == TERMS:
            return FULL
        self.values.append(term)
        return len(self.values) - 1

    def fits(self, word, operands):
        term = self.made(word, operands)
        return term is not None and (term in self.values or len(self.values) < TERMS)

    def show(self, handle):
        """The term by its word, with its kind and number or the handles of its parts."""
        if not self.issued(handle):
            return WRONG
        word, *parts = self.values[handle]
        if word != "atom":
            parts = [self.values.index(part) for part in parts]
        return " ".join([word, *map(str, parts)])
