"""A plain implementation of the byte provider, to compare the proved one with.

A value is a string of bytes. There is room for 4,096 handles and 32,768 bytes.
"""

from provider_reference import FULL, WRONG, Provider

HANDLES = 4096
BYTES = 32768

# How a byte is written, so that long values are shown fast.
DECIMAL = [str(n) for n in range(256)]

SHARED, PUBLIC, PRIVATE = 2, 3, 6

# A key's first byte tells its mate's, and the signs with which its body is added
# to each byte in sealing and in opening.
MATES = {SHARED: SHARED, PUBLIC: PRIVATE, PRIVATE: PUBLIC}
SEALING = {SHARED: 1, PUBLIC: 1, PRIVATE: -1}
OPENING = {SHARED: -1, PUBLIC: 1, PRIVATE: -1}


def atom(kind, number):
    return bytes([kind]) + number.to_bytes(2, "big")


def join(left, right):
    return len(left).to_bytes(2, "big") + left + right


def halves(joined):
    """The two parts of a value, or None where it has none."""
    if len(joined) < 2:
        return None
    size = int.from_bytes(joined[:2], "big")
    parts = joined[2:]
    if len(parts) < size:
        return None
    return parts[:size], parts[size:]


def left(joined):
    parts = halves(joined)
    return None if parts is None else parts[0]


def right(joined):
    parts = halves(joined)
    return None if parts is None else parts[1]


def is_key(value):
    return len(value) >= 2 and value[0] in MATES


def mate(key):
    if not is_key(key):
        return None
    return bytes([MATES[key[0]]]) + key[1:]


def shifted(value, key, signs):
    """Each byte with the body's added or taken; the body repeats itself."""
    if not is_key(key):
        return None
    sign = signs[key[0]]
    body = key[1:]
    return bytes((b + sign * body[i % len(body)]) % 256 for i, b in enumerate(value))


def seal(content, key):
    return shifted(content, key, SEALING)


def open_(sealed, opener):
    return shifted(sealed, opener, OPENING)


def digest(function, operand):
    return bytes([sum(function + operand) % 256])


def entry(table, party):
    return bytes([3]) + table + party


MAKERS = {
    "join": join,
    "left": left,
    "right": right,
    "seal": seal,
    "open": open_,
    "digest": digest,
    "entry": entry,
    "mate": mate,
}

# These values lie in their operand's bytes and take none of their own.
PARTS = ("left", "right")


class ByteProvider(Provider):
    makers = MAKERS

    def __init__(self):
        super().__init__()
        self.used = 0

    def atom(self, kind, number):
        return atom(kind, number)

    def size(self, word, value):
        return 0 if word in PARTS else len(value)

    def has_room(self, word, value):
        return len(self.values) < HANDLES and self.used + self.size(word, value) <= BYTES

    def make(self, word, operands):
        """The new handle, or a refusal."""
        value = self.made(word, operands)
        if value is None:
            return WRONG
        if not self.has_room(word, value):
            return FULL
        self.used += self.size(word, value)
        self.values.append(value)
        return len(self.values) - 1

    def fits(self, word, operands):
        value = self.made(word, operands)
        return value is not None and self.has_room(word, value)

    def show(self, handle):
        if not self.issued(handle):
            return WRONG
        return " ".join(["bytes", *(DECIMAL[b] for b in self.values[handle])])
