"""Texts to read as tables: tables that are granted, tables with one thing wrong, and what is no table at all.

A text comes of a seed. Tables are written by table_writer.py; here they are put wrong, made large, and damaged.
"""

import random

from call_lists import shape_of
from protocol_reference import INSTRUCTIONS, STEPS, TERMS
from symbolic_reference import FUNCTION, NUMBER, PUBLIC, SHARED, TABLE
from table_reference import IN_WORDS, KEYWORDS, KINDS, LONGEST_NAME, LONGEST_TEXT, MOST_OPEN, NEWLINE, OPENING, SIGNS, TICK
from table_writer import LONG_NAMES, Writer, exchange, is_word, laid_out, passed_on, wrong_at_last

FEW_NAMES = [b"A", b"B", b"S", b"J", b"k", b"P", b"T", b"F"]
# Words that are no names, and names that look like something else.
ODD_WORDS = [
    b"a" * LONGEST_NAME, b"a" * (LONGEST_NAME + 1), b"Z" * LONGEST_NAME + b"9", b"q2345678901234567"[:LONGEST_NAME], b"x" * 40, b"3", b"0A",
    b"9" * LONGEST_NAME, b"partyU", b"party1", b"Party", b"PARTY", b"part", b"partys", b"lines", b"lin", b"Own", b"ownA", b"e", b"z9",
]
# Bytes that part words elsewhere, and those that stand beside letters and digits.
LIKE_SPACES = [0, 9, 11, 12, 13, 160]
LIKE_LETTERS = [47, 58, 64, 95, 96, 46, 45]
# Bytes that are no tokens, or that lie beside the ranges of those that are.
STRAY = [0, 1, 9, 11, 12, 13, 31, 33, 34, 38, 42, 43, 44, 45, 46, 47, 58, 59, 61, 63, 64, 92, 94, 95, 96, 124, 126, 127, 128, 160, 194, 255]


# Lines of the grammar, whatever they say.


def some_names(rng):
    """Lines that declare names of all kinds."""
    lines = [[b"party", b"A", b"B"], [b"shared", b"k"], [b"table", b"T"], [b"function", b"F"]]
    lines += [line for line in ([b"number", b"J"], [b"public", b"P"], [b"party", b"S"]) if rng.random() < 0.7]
    rng.shuffle(lines)
    return lines


def some_name(rng):
    return rng.choice([b"X", b"Undeclared", *ODD_WORDS, *KEYWORDS]) if rng.random() < 0.01 else rng.choice(FEW_NAMES)


def some_key(rng):
    """A key of the grammar, mostly one that is a key."""
    key = [b"T", b"[", rng.choice([b"A", b"B"]), b"]"] if rng.random() < 0.4 else [rng.choice([b"k", b"P"])]
    if rng.random() < 0.1:
        key = rng.choice([[some_name(rng)], [some_name(rng), b"[", some_name(rng), b"]"]])
    return key + [TICK] * rng.choice([0, 0, 0, 1, 1, 2, 3, rng.randrange(9)])


def some_term(rng, size):
    """A term of the grammar, of about so many names."""
    if size <= 1:
        return some_key(rng) if rng.random() < 0.3 else [some_name(rng)]
    form = rng.randrange(4)
    if form == 0:
        return [b"{", *some_term(rng, size - 1), b"}", *some_key(rng)]
    if form == 1:
        return [b"F" if rng.random() < 0.95 else some_name(rng), b"<", *some_term(rng, size - 1), b">"]
    parts = rng.randrange(2, min(size, 5) + 1)
    return [b"(", *(token for _ in range(parts) for token in some_term(rng, size // parts)), b")"]


def some_agent(rng):
    return some_name(rng) if rng.random() < 0.05 else rng.choice([b"A", b"B"])


def some_line(rng):
    """A line of the grammar."""
    roll = rng.random()
    if roll < 0.1:
        return [rng.choice(KINDS), *(b"N%d" % rng.randrange(1000) for _ in range(rng.randrange(1, 6)))]
    if roll < 0.15:
        return [rng.choice(KINDS), *(some_name(rng) for _ in range(rng.randrange(1, 4)))]
    term = some_term(rng, rng.choice([1, 2, 3, 5, 9, 20]))
    return [b"own", some_agent(rng), *term] if roll < 0.7 else [b"line", some_agent(rng), some_agent(rng), *term]


def grammatical(rng):
    return some_names(rng) + [some_line(rng) for _ in range(rng.randrange(1, 7))]


# Tables with wrong tokens.


def any_token(rng):
    return rng.choice([*SIGNS, *SIGNS, *FEW_NAMES, *KEYWORDS, rng.choice(ODD_WORDS), b"X", bytes([rng.choice(STRAY)])])


def without(line, place):
    return line[:place] + line[place + 1:]


def with_another(line, place, token):
    return line[:place] + [token] + line[place + 1:]


def with_one_more(line, place, token):
    return line[:place] + [token] + line[place:]


def with_another_word(rng, line, place):
    """The line with its word nearest before a place in another's stead."""
    while place > 0 and not is_word(line[place]):
        place -= 1
    return with_another(line, place, rng.choice([*FEW_NAMES, *ODD_WORDS, *KEYWORDS, b"X"]))


def with_two_exchanged(rng, line, place):
    other = rng.randrange(len(line))
    line = list(line)
    line[place], line[other] = line[other], line[place]
    return line


def with_tokens_wrong(rng, line):
    """A line with something wrong with a token, or now and then nothing."""
    if not line:
        return [any_token(rng)]
    place = rng.randrange(len(line))
    return rng.choice([
        without(line, place),
        with_another(line, place, any_token(rng)),
        with_one_more(line, place, any_token(rng)),
        with_one_more(line, place, rng.choice(SIGNS)),
        with_one_more(line, place, line[place]),
        with_another_word(rng, line, place),
        with_two_exchanged(rng, line, place),
        line[:place],
        line[:place] + [any_token(rng)],
        line + [any_token(rng)],
    ])


def wrong_tokens(rng):
    """A table of the grammar in which one line has wrong tokens."""
    lines = rng.choice([grammatical, grammatical, exchange])(rng)
    place = rng.randrange(len(lines))
    for _ in range(rng.choice([1, 1, 1, 2, 3])):
        lines[place] = with_tokens_wrong(rng, lines[place])
    return lines


def last_token_wrong(rng):
    """The front of a good line and then any token, with its place in front of much that would be wrong too."""
    line = some_line(rng)
    place = rng.randrange(1, len(line) + 1)
    wrong = b"X" if rng.random() < 0.2 else any_token(rng)
    return some_names(rng) + [line[:place] + [wrong] + rng.choice([[], [], [b"$"], [b"X", b"("]])]


def small_term(rng):
    """A term of names that are declared in any case."""
    return list(rng.choice([
        [b"A"], [b"B"], [b"k"], [b"k", TICK], [b"T", b"[", b"A", b"]"], [b"(", b"A", b"B", b")"], [b"{", b"A", b"}", b"k"], [b"F", b"<", b"B", b">"],
    ]))


def no_term(rng):
    """What is nearly a term, and none."""
    one, other = small_term(rng), small_term(rng)
    return rng.choice([
        [b"(", b")"],
        [b"(", *one, b")"],
        [b"(", *one, *other, b")", TICK],
        [b"(", *one, *other, b")", b"[", b"A", b"]"],
        [b"{", b"}", b"k"],
        [b"{", *one, b"}"],
        [b"{", *one, *other, b"}", b"k"],
        [b"{", *one, b"}", b"{", *other, b"}", b"k"],
        [b"{", *one, b"}", b"(", *other, b"k", b")"],
        [b"{", *one, b"}", b"F", b"<", *other, b">"],
        [b"{", *one, b"}", TICK, b"k"],
        [b"F", b"<", b">"],
        [b"F", b"<", *one, *other, b">"],
        [b"F", b"<", *one, b">", TICK],
        [b"F", TICK, b"<", *one, b">"],
        [b"F", b"<", *one, b">", b"<", *other, b">"],
        [b"T", b"[", b"A", b"]", b"[", b"A", b"]"],
        [b"T", b"[", b"]"],
        [b"T", b"[", b"A", b"B", b"]"],
        [b"T", b"[", b"A", TICK, b"]"],
        [b"T", b"[", *one, b"<", b"]"],
        [b"T", TICK, b"[", b"A", b"]"],
        [b"T", b"[", b"A", b"]", b"<", *one, b">"],
        [TICK, b"k"],
        [b"[", b"A", b"]"],
        [b"<", *one, b">"],
    ])


def nearly_terms(rng):
    """What is nearly a term, where a term is due."""
    term = no_term(rng)
    if rng.random() < 0.5:
        other = small_term(rng)
        term = rng.choice([
            [b"(", *term, *other, b")"], [b"(", *other, *term, b")"], [b"{", *term, b"}", b"k"], [b"F", b"<", *term, b">"], [b"{", *other, b"}", *term],
        ])
    return some_names(rng) + [rng.choice([[b"own", b"A"], [b"line", b"A", b"B"]]) + term]


def wrong_names(rng):
    """Names that are undeclared, declared twice, or those of no party."""
    lines = some_names(rng) + [some_line(rng) for _ in range(rng.randrange(3))]
    names = [*FEW_NAMES, b"X", b"u", b"PartyA", b"AA", b"Ab", *LONG_NAMES, b"a" * (LONGEST_NAME + 1)]
    for _ in range(rng.randrange(1, 4)):
        one, other = rng.choice(names), rng.choice(names)
        lines.insert(rng.randrange(len(lines) + 1), rng.choice([
            [rng.choice(KINDS), one],
            [rng.choice(KINDS), b"Y", one, other],
            [rng.choice(KINDS), b"Z", one, b"Z"],
            [b"own", one, other],
            [b"line", one, other, b"k"],
            [b"own", b"A", b"(", one, other, b")"],
            [b"own", b"A", one, b"[", other, b"]"],
            [b"own", b"A", b"{", one, b"}", other],
            [b"own", b"A", one, b"<", other, b">"],
        ]))
    return lines


def tokens_in_a_row(rng):
    """Any tokens, most often after a good beginning."""
    lines = some_names(rng)
    for _ in range(rng.randrange(1, 3)):
        front = rng.choice([[], [b"own", b"A"], [b"line", b"A", b"B"], [b"party"], [b"own", b"A", b"("], [b"own", b"A", b"T", b"["]])
        lines.append(front + [any_token(rng) for _ in range(rng.randrange(8))])
    return lines


# What is large.


def open_brackets(rng, count):
    """The tokens of a term within which so many brackets are open at once."""
    front, back = [], []
    while count > 1 or count == 1 and rng.random() < 0.7:
        sort = rng.randrange(3)
        front += [[b"(", b"A"], [b"{"], [b"F", b"<"]][sort]
        back += [[b")"], [b"k", b"}"], [b">"]][sort]
        if sort == 0 and rng.random() < 0.3:
            # a bracket that is closed again beside it
            front += [b"T", b"[", b"A", b"]"]
        count -= 1
    middle = [b"T", b"[", b"A", b"]"] if count == 1 else [b"A"]
    return front + middle + back[::-1]


# What opens a 64th bracket, after which another may stand or not.
AFTER_63_BRACKETS = [
    [b"("], [b"(", b"A"], [b"(", b"k", TICK], [b"{"], [b"{", b"A"], [b"{", b"k", TICK], [b"{", b"A", b"}"], [b"F", b"<"], [b"F", b"<", b"A"],
    [b"T", b"["], [b"T", b"[", b"A"], [b"T", b"[", b"A", b"]"],
]


def deep(rng):
    """Brackets in brackets, up to the 64th and beyond."""
    count = rng.choice([MOST_OPEN - 1, MOST_OPEN, MOST_OPEN, MOST_OPEN + 1, MOST_OPEN + 1, MOST_OPEN + 2, rng.randrange(1, 200)])
    line = [b"own", b"A", *open_brackets(rng, count)]
    if rng.random() < 0.3:
        line = with_tokens_wrong(rng, line)
    if rng.random() < 0.3:
        line = [b"own", b"A", *[b"(", b"A"] * (MOST_OPEN - 1), *rng.choice(AFTER_63_BRACKETS), rng.choice([*OPENING, any_token(rng)])]
    return some_names(rng) + [line] + [some_line(rng)]


def long_tuple(rng):
    """A tuple of many parts, for whose pairs there may be no room."""
    count = rng.choice([3, 10, 100, 490, 500, 503, 504, 505, 506, 507, 508, 600, 1000])
    names = [rng.choice(FEW_NAMES[:2]) for _ in range(count)]
    return [[b"party", b"A", b"B"], [b"own", b"A", b"(", *names, b")"]]


def longest_line(rng):
    """A line that goes on to the end of the longest text."""
    front, token, back = rng.choice([
        (b"party A\nown A (", b"A ", b"A)"),
        (b"party A\nown A (", b"A ", b"A"),
        (b"party A\nown A (", b"A ", b"A]"),
        (b"party A\nshared k\nown A k", b"'", b"'"),
        (b"party A\nshared k\nown A k", b"'", b"("),
        (b"party A\npublic k\nown A {A}k", b"' ", b"'"),
        (b"party A\nown A", b" ", b"A"),
        (b"party ", b"A", b""),
        (b"", b" ", b" "),
        (b"", b"\n", b""),
        (b"", b" \n", b"$"),
    ])
    count = (LONGEST_TEXT - len(front) - len(back)) // len(token)
    return front + token * count + back


def of_length(rng):
    """A text of about the longest length: a table or a damaged one, with spaces before its end."""
    text = laid_out(rng, grammatical(rng))
    text = text if rng.random() < 0.5 else damaged(rng, text)
    length = LONGEST_TEXT + rng.choice([-1, 0, 0, 1, 1, 2, 1000, LONGEST_TEXT])
    place = rng.choice([0, len(text), rng.randrange(len(text) + 1)])
    filling = rng.choice([b" ", b" ", NEWLINE])
    return text[:place] + filling * (length - len(text)) + text[place:]


def many_names(rng):
    """Names up to the last place and beyond, on few lines or many, now and then one of them twice."""
    parties = rng.choice([[b"A", b"B"], [b"A", b"B", b"C"]])
    kind = rng.choice([NUMBER, SHARED, PUBLIC, PUBLIC, PUBLIC, TABLE, FUNCTION])
    # a public key takes two places, so that there may be one left over
    most = (TERMS - len(parties)) // (2 if kind == PUBLIC else 1)
    names = [b"n%d" % number for number in range(most + rng.choice([-1, 0, 1, 1, 2]))]
    if rng.random() < 0.2:
        names[rng.randrange(len(names))] = rng.choice([*names, b"A"])
    lines, at_once = [[b"party", *parties]], rng.choice([1, 7, 100, len(names)])
    for start in range(0, len(names), at_once):
        lines.append([KINDS[kind], *names[start:start + at_once]])
    lines += rng.choice([[], [[b"own", b"A", b"(", b"A", b"B", b")"]], [[b"own", b"A", b"A"]], [[rng.choice(KINDS), b"last"]]])
    return lines


def many_terms(rng):
    """Terms up to the last place and beyond, by tuples, and then a key's mate or a name."""
    names = [b"A", b"B", b"k", b"P"]
    places = TERMS - 5 - rng.choice([0, 0, 1, 2, 3])
    parts = [rng.choice(names) for _ in range(places + 1)]
    lines = [[b"party", b"A", b"B"], [b"shared", b"k"], [b"public", b"P"], [b"own", b"A", b"(", *parts, b")"]]
    for _ in range(rng.randrange(1, 4)):
        lines.append(rng.choice([
            [b"own", b"A", b"k", TICK], [b"own", b"A", b"P", TICK, TICK], [b"number", b"J"], [b"public", b"Q"], [b"party", b"C"],
            [b"own", b"A", b"{", b"A", b"}", b"k"], [b"own", b"B", b"{", b"B", b"}", b"P", TICK], [b"own", b"A", b"(", b"k", b"k", b"k", b")"],
        ]))
    return lines


def many_parties(rng):
    """Seven parties, or more, on one line or several."""
    names = [b"P%d" % number for number in range(rng.choice([6, 7, 7, 8, 8, 9]))]
    cut = rng.randrange(1, len(names))
    lines = rng.choice([[[b"party", *names]], [[b"party", *names[:cut]], [b"number", b"J"], [b"party", *names[cut:]]]])
    return lines + [[b"own", names[cut], names[0]], [b"line", names[cut], names[0], b"J" if len(lines) > 1 else names[1]]]


def many_steps(rng):
    """Steps up to the last one and beyond."""
    lines = [[b"party", b"A", b"B"], [b"number", b"J"], [b"own", b"A", b"B"], [b"own", b"B", b"A"]]
    for _ in range(STEPS + rng.choice([-1, 0, 0, 1, 1, 2])):
        sender, receiver = rng.choice([(b"A", b"B"), (b"B", b"A")])
        lines.append([b"line", sender, receiver, rng.choice([b"A", b"J", b"B"])])
    return lines


def full_script(rng):
    """Messages that make one party's script as long as a script can be, or a little shorter or longer."""
    writer = Writer(rng)
    writer.say(b"party", *rng.sample([b"A", b"B", b"C"], 3))
    writer.say(b"number", b"J", b"N")
    writer.introduce()
    longest = INSTRUCTIONS + rng.choice([-1, 0, 0, 1, 2])
    sends = rng.random() < 0.5
    while not writer.is_refused and len(writer.protocol.steps) < STEPS - 1:
        missing = longest - len(writer.script(b"A").lines)
        if missing <= 0:
            break
        # beside the pairs, a message takes one instruction where it is sent, and four where it is checked
        parts = min(rng.randrange(8, 16), max(1, missing if sends else missing - 3))
        names = [rng.choice([b"A", b"B", b"J", b"N"]) for _ in range(parts)]
        # what A sends goes to two parties, so that their scripts do not grow longer than its own
        other = rng.choice([b"B", b"C"]) if sends else b"B"
        writer.say(b"line", *([b"A", other] if sends else [other, b"A"]), *([b"(", *names, b")"] if parts > 1 else [b"A"]))
    if rng.random() < 0.4:
        writer.say(b"line", *([b"A", b"B"] if sends else [b"B", b"A"]), b"A")
    return writer.lines


# Bytes.


def some_byte(rng):
    roll = rng.random()
    if roll < 0.5:
        return rng.choice(b"(){}[]<>' \n \nAkT")
    return rng.choice(STRAY) if roll < 0.8 else rng.randrange(256)


def damaged(rng, text):
    """A text after one change of its bytes."""
    place, end = sorted(rng.randrange(len(text) + 1) for _ in range(2))
    near = min(len(text), place + rng.randrange(1, 9))
    byte = bytes([some_byte(rng)])
    return rng.choice([
        text[:place] + text[place + 1:],
        text[:place] + byte + text[place:],
        text[:place] + byte + text[place + 1:],
        text[:place] + text[place + 1:place + 2] + text[place:place + 1] + text[place + 2:],
        text[:place],
        text[place:],
        text[:place] + text[near:],
        text[:place] + text[place:near] + text[place:],
        text[:place] + text[place:end] + text[place:] if len(text) < 2000 else text[:place],
    ])


def damaged_bytes(rng):
    text = laid_out(rng, rng.choice([exchange, passed_on, grammatical, many_parties])(rng))
    for _ in range(rng.choice([1, 1, 1, 2, 4])):
        text = damaged(rng, text)
    return text


def stray_bytes(rng):
    """A good table with a byte that is no token in it: at any place, for a space, or within or after a word."""
    text = laid_out(rng, grammatical(rng))
    place, kind = rng.randrange(len(text) + 1), rng.randrange(4)
    if kind == 0:
        place = text.find(b" ", place) if b" " in text[place:] else text.find(b" ")
        return text[:place] + bytes([rng.choice(LIKE_SPACES)]) + text[place + 1:]
    if kind == 1:
        place = rng.choice([place for place in range(1, len(text)) if text[place - 1] in IN_WORDS])
        return text[:place] + bytes([rng.choice(LIKE_LETTERS)]) + text[place:]
    return text[:place] + bytes([rng.choice([rng.choice(STRAY), rng.randrange(128, 256)])]) + text[place:]


def any_bytes(rng):
    return bytes(some_byte(rng) for _ in range(rng.randrange(40)))


BY_HAND = [
    b"", b" ", b"   ", b"\n", b"\n\n\n", b" \n", b"\n ", b"\t", b"\r", b"\r\n", b"\0", b"\x80", b"\xff", b"$", b"'", b"(", b")", b"3",
    b"party", b"party\n", b"party ", b"party  \n", b"own", b"own\n", b"line", b"line\n", b"own own", b"party party", b"A", b"party A\r\n",
    b"party\tA", b"partyA", b"PARTY A", b"party A A", b"party A B A\n", b"party A\nparty A", b"party A\nnumber A", b"party " + b"a" * 16,
    b"party " + b"a" * 17, b"party a3", b"party 3a", b"party 3", b"party A'", b"party A,B", b"party A\nown A A", b"party A\n  own A A\n",
    b"party A\nown A", b"party A\nown A A A", b"party A\nown B A", b"party A\nnumber J\nown J A", b"party A\nline A", b"party A\nline A A",
    b"party A\nline A A A", b"party A B\nline A B A\n", b"party A B\nown A B\nline A B A", b"party A B\nown A B\nline A B A\nown B B",
    b"party A\nown A A'", b"party A\n own A A''", b"party A\nshared k\nown A k''''", b"party A\nshared k\nown A k ' ' [",
    b"party A\ntable T\nown A T[A]", b"party A\ntable T\nown A T [ A ] '", b"party A\ntable T\nown A T[A", b"party A\ntable T\nown A T[]",
    b"party A\ntable T\nown A T[(A A)]", b"party A\ntable T\nown A T[A']", b"party A\ntable T\nown A T'[A]", b"party A\ntable T\nown A T[T]",
    b"party A\nfunction F\nown A F<A>", b"party A\nfunction F\nown A F<A", b"party A\nfunction F\nown A F<>", b"party A\nfunction F\nown A F<A A>",
    b"party A\nfunction F\nown A F<A>'", b"party A\nfunction F\nown A F'<A>", b"party A\nfunction F\nown A F<A><A>", b"party A\nown A A<A>",
    b"party A\nshared k\nown A {A}k", b"party A\nshared k\nown A {A}", b"party A\nshared k\nown A {}k", b"party A\nshared k\nown A {A A}k",
    b"party A\nshared k\nown A {A}{A}k", b"party A\nshared k\nown A {A}(k k)", b"party A\nshared k\nown A {A}k'", b"party A\nown A {A}A",
    b"party A\nfunction F\nshared k\nown A {A}F<A>", b"party A\nshared k\nown A ({A}k k)", b"party A\nown A (A)", b"party A\nown A ()",
    b"party A\nown A (A A)'", b"party A\nown A (A A", b"party A\nown A (A A))", b"party A\nown A (A A]", b"party A\nown A (A A) (A A)",
    b"party A\nown A ((A A) (A A))", b"party A\nown A (A B $", b"party A B\nown A X $", b"party A B\nown A B X", b"party A B\nline A line X",
    b"party A B\nparty C A", b"party A B\nnumber C C", b"party A B\nown A (X", b"party A B\nown X", b"party A B\nown A {X}", b"own A {a b}k",
]


def by_hand(rng):
    return rng.choice(BY_HAND)


# How often each shape stands among a hundred texts; some make lines, and some a text.
SHAPES = [
    (11, exchange),
    (7, passed_on),
    (8, wrong_at_last),
    (8, grammatical),
    (9, wrong_tokens),
    (8, last_token_wrong),
    (4, nearly_terms),
    (6, wrong_names),
    (5, tokens_in_a_row),
    (4, deep),
    (1, long_tuple),
    (2, many_names),
    (1, many_terms),
    (2, many_parties),
    (1, many_steps),
    (1, full_script),
    (10, damaged_bytes),
    (5, stray_bytes),
    (1, any_bytes),
    (3, by_hand),
    (2, of_length),
    (1, longest_line),
]


def table_text(seed):
    """The shape of a seed's text, and the text."""
    rng = random.Random(seed)
    shape = shape_of(SHAPES, seed)
    made = shape(rng)
    return shape.__name__, laid_out(rng, made) if isinstance(made, list) else made
