"""What the plain implementations of both providers share.

A provider keeps values under handles, issued from 0 upward. A making is refused
as `wrong` if its operands are wrong for it, else as `full` if there is no room
for what it makes; a refusal alters nothing.
"""

WRONG = "wrong"
FULL = "full"


class Provider:
    # The function that makes a value of values, or None, by each making's word.
    makers = {}

    def __init__(self):
        self.values = []

    def issued(self, handle):
        return handle < len(self.values)

    def atom(self, kind, number):
        """The value of an atom whose kind and number are not too great."""
        raise NotImplementedError

    def made(self, word, operands):
        """The value that a making makes, or None where it is wrong."""
        if word == "atom":
            kind, number = operands
            return self.atom(kind, number) if kind <= 5 and number <= 65535 else None
        if not all(self.issued(handle) for handle in operands):
            return None
        return self.makers[word](*(self.values[handle] for handle in operands))

    def same(self, a, b):
        return self.issued(a) and self.issued(b) and self.values[a] == self.values[b]
