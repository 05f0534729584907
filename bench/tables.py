"""The large tables that bench/run.py times, as text."""

from itertools import product
from string import ascii_letters, digits

LONGEST = 32768


def named(prefix, count):
    return [f"{prefix}{number}" for number in range(count)]


def written(*lines):
    return "".join(" ".join(line) + "\n" for line in lines)


def tuple_of(parts):
    return f"({' '.join(parts)})"


def two_parties(*lines):
    return written(["party", "U", "S"], ["own", "U", "S"], *lines)


def pairs_known():
    """A tuple of 250 numbers as initial knowledge, which is taken apart."""
    numbers = named("N", 250)
    return two_parties(["number", *numbers], ["own", "U", tuple_of(numbers)])


def pairs_sent():
    """The same as a message."""
    numbers = named("N", 250)
    return two_parties(["number", *numbers], ["line", "U", "S", tuple_of(numbers)])


def pairs_of_one():
    """A tuple of 501 parts, all the same: 500 pairs within each other, which the receiver makes itself."""
    return two_parties(["number", "N"], ["line", "U", "S", tuple_of(["N"] * 501)])


def pairs_deep():
    """Sixty-four pairs within each other to the left, with as many brackets open, known, sent, and sent back."""
    message = "N"
    for _ in range(64):
        message = tuple_of([message, "N"])
    return two_parties(["number", "N"], ["own", "S", "U"], ["own", "U", message], ["line", "U", "S", message], ["line", "S", "U", message])


def doubled(word, times=12):
    """Pairs, each of the one before with itself: with twelve of them the word stands there 4,096 times."""
    message = word
    for _ in range(times):
        message = tuple_of([message, message])
    return message


def short_names():
    """Names of two and then of three letters, which are no keywords."""
    for length in (2, 3):
        for first, *others in product(ascii_letters, *[ascii_letters + digits] * (length - 1)):
            name = first + "".join(others)
            if name != "own":
                yield name


def some_names(count):
    return [name for name, _ in zip(short_names(), range(count))]


def filled(text):
    """The text with spaces up to the greatest length."""
    assert len(text) <= LONGEST
    return text.ljust(LONGEST)


def one_name():
    """The only number 4,096 times in one message."""
    return filled(two_parties(["number", "Word"], ["line", "U", "S", doubled("Word")]))


def last_of_many():
    """One message of 240 numbers, in which the last of them stands 5,633 times: the slowest granted table that was found."""
    numbers = some_names(240)
    message = tuple_of([*numbers, *(doubled(numbers[-1], times) for times in (12, 10, 9))])
    return filled(two_parties(["number", *numbers], ["line", "U", "S", message]))


def late_keys():
    """Eighty numbers sealed under public keys, and in a later step the keys' mates."""
    numbers, keys = named("N", 80), named("K", 80)
    sealed = [f"{{{number}}}{key}" for number, key in zip(numbers, keys)]
    return two_parties(
        ["number", *numbers],
        ["public", *keys],
        ["line", "U", "S", tuple_of(sealed)],
        ["line", "U", "S", tuple_of(f"{key}'" for key in keys)],
    )


def full(parties, message, names):
    """Parties that know each other and send round in 64 steps, with numbers until there are 512 terms."""
    agents = named("P", parties)
    knowledge = [["own", agent, other] for agent in agents for other in agents if other != agent]
    steps = [["line", agents[step % parties], agents[(step + 1) % parties], message(step)] for step in range(64)]
    return written(["party", *agents], *names, *knowledge, *steps)


def keys_in_clear():
    """Seven parties, 64 steps, each with a new number sealed under a new key, and the key."""
    numbers, keys = named("N", 64 + 249), named("K", 64)
    return full(7, lambda step: f"({{N{step}}}K{step} K{step})", [["number", *numbers], ["shared", *keys]])


def four_numbers():
    """Three parties, 64 steps, each with four new numbers; 512 terms and long scripts."""
    names = named("N", 256 + 61)
    return full(3, lambda step: tuple_of(names[4 * step : 4 * step + 4]), [["number", *names]])


def longest():
    """32,768 bytes: two parties, 64 steps, in each a new name and 27 others, all of 16 letters."""
    words = [f"{'Word' * 3}{number:04}" for number in range(64 + 27)]
    others = words[64:]
    steps = [["line", *"US"[:: 1 - step % 2 * 2], tuple_of([words[step], *others])] for step in range(64)]
    return filled(two_parties(["number", *words], ["own", "S", "U"], *steps))


def parts_refused():
    """32,768 bytes: a tuple of 16,376 parts, which is refused at the 513th term."""
    head = "party A\nown A ("
    return filled(head + "A " * ((LONGEST - len(head) - 1) // 2) + ")")


def names_refused():
    """32,768 bytes: one line that declares 8,996 names, which is refused at the 513th term."""
    return filled(written(["number", *some_names(8996)]))


LARGE = {
    "250 numbers, known": pairs_known,
    "250 numbers, sent": pairs_sent,
    "500 pairs of one number": pairs_of_one,
    "64 pairs to the left": pairs_deep,
    "80 late keys": late_keys,
    "64 steps, seven parties": keys_in_clear,
    "64 steps, three parties": four_numbers,
    "64 steps, longest text": longest,
    "one name 4,096 times": one_name,
    "240 names, the last 5,633 times": last_of_many,
    "16,376 parts, refused": parts_refused,
    "8,996 names, refused": names_refused,
}
