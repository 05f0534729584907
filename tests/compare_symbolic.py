#!/usr/bin/env python3
"""Compares the symbolic provider behind the console with plain Python.

    python3 tests/compare_symbolic.py PROGRAM [LISTS]

PROGRAM is the console as it was proved and linked: `rt run` in crates/console
leaves it at crates/console/out/console. LISTS is how many lists of calls are
tried, at least 100, and 3,000 if it is not said.

Each list comes of a seed of its own and chooses a new symbolic provider; some
choose now one provider, now the other. Many lists go through one run of the
program, and each answer line is compared with the reference's: which handle or
refusal, which term, what fits. On a difference the seed, the list up to the
first answer that differs, and both answers are printed, and the exit status is
1; it is 0 only if every list was run and every answer is the same.
"""

import sys

from call_lists import MAKINGS, CallList, asked, batches, compare_all, shape_of, start_with_names
from console_reference import ONE_OPERAND, PROVIDERS
from symbolic_reference import FUNCTION, PARTY, PUBLIC, SHARED, TABLE, TERMS, is_key, is_name, mate

LISTS = 3000


def such(calls, test):
    """The handle of some term that passes the test, or any handle."""
    handles = [handle for handle, term in enumerate(calls.provider.values) if test(term)]
    return calls.random.choice(handles) if handles else calls.handle()


def with_word(calls, word):
    return such(calls, lambda term: term[0] == word)


def of_kind(calls, kind):
    return such(calls, lambda term: is_name(term, kind))


def opener_of(calls, handle):
    """The handle of what opens the sealed term of a handle, if it is held."""
    values = calls.provider.values
    if handle < len(values) and values[handle][0] == "sealed":
        return such(calls, lambda term: term == mate(values[handle][2]))
    return calls.handle()


def right_making(calls, word=None):
    """A making that is seldom wrong."""
    word = word or calls.random.choice(MAKINGS)
    if word == "atom":
        return f"atom {calls.random.randrange(6)} {calls.random.randrange(4)}"
    if word == "join":
        return f"join {calls.handle()} {calls.handle()}"
    if word in ("left", "right"):
        return f"{word} {with_word(calls, 'pair')}"
    if word == "seal":
        return f"seal {calls.handle()} {such(calls, is_key)}"
    if word == "open":
        sealed = with_word(calls, "sealed")
        return f"open {sealed} {opener_of(calls, sealed)}"
    if word == "digest":
        return f"digest {of_kind(calls, FUNCTION)} {calls.handle()}"
    if word == "entry":
        return f"entry {of_kind(calls, TABLE)} {of_kind(calls, PARTY)}"
    return f"mate {such(calls, is_key)}"


def some_making(calls):
    return right_making(calls) if calls.random.random() < 0.6 else calls.making()


def blank_list(calls):
    """The first calls on a blank provider: few handles, so that many are unissued."""
    for _ in range(calls.random.randrange(2, 12)):
        calls.make(calls.making())
    calls.show_all()


def used_list(calls):
    start_with_names(calls)
    for _ in range(calls.random.randrange(10, 50)):
        calls.make(some_making(calls))
        calls.ask_fits(calls.random.randrange(3))
    calls.show_all()


def again_list(calls):
    """Makings of few terms, so that most are held; some are made again in the end."""
    for kind in range(6):
        calls.make(f"atom {kind} 0")
    makings = []
    for _ in range(calls.random.randrange(10, 40)):
        makings.append(right_making(calls))
        calls.make(makings[-1])
    calls.random.shuffle(makings)
    for making in makings:
        calls.make(making)
    calls.show_all()


def keys_list(calls):
    """Every key with its mate, its mate's mate, and what either of them seals and opens."""
    start_with_names(calls)
    for _ in range(calls.random.randrange(2, 6)):
        calls.make(right_making(calls, "entry"))
        calls.make(f"atom {calls.random.choice([SHARED, PUBLIC])} {calls.random.randrange(65536)}")
    keys = [handle for handle, term in enumerate(calls.provider.values) if is_key(term)]
    for key in calls.random.sample(keys, min(len(keys), 5)):
        early = calls.make(f"seal {calls.handle()} {key}")
        if early.isdigit():
            # it may be that nothing that is held opens it yet
            calls.make(f"open {early} {key}")
            calls.make(f"open {early} {such(calls, is_key)}")
        key_mate = calls.make(f"mate {key}")
        calls.make(f"mate {key_mate}")
        for sealing in (key, key_mate):
            sealed = calls.make(f"seal {calls.handle()} {sealing}")
            for opening in (key, key_mate, such(calls, is_key), calls.handle()):
                if sealed.isdigit():
                    calls.make(f"open {sealed} {opening}")
    calls.show_all()


def kinds_list(calls):
    """Each making over operands of each kind and each form."""
    start_with_names(calls)
    calls.make("digest 5 0")
    calls.make("entry 4 0")
    calls.make("mate 11")
    held = calls.issued
    word = calls.random.choice(MAKINGS)
    for a in range(held + 1):
        if word in ONE_OPERAND:
            calls.make(f"{word} {a}")
        elif word != "atom":
            for b in range(held + 1):
                calls.say(f"fits {word} {a} {b}")
                calls.say(f"{word} {a} {b}")
        else:
            calls.make(f"atom {a} {calls.random.choice([0, 255, 256, 65535])}")
    calls.show_all(200)


def deep_list(calls):
    """A term with many others inside it, taken apart again."""
    start_with_names(calls)
    calls.make("entry 4 0")
    layers = []
    inner = calls.issued - 1
    for _ in range(calls.random.randrange(10, 60)):
        making = calls.random.choice([
            f"join {inner} {calls.handle()}",
            f"join {calls.handle()} {inner}",
            f"join {inner} {inner}",
            f"seal {inner} {such(calls, is_key)}",
        ])
        answer = calls.say(making)
        if answer.isdigit():
            layers.append(int(answer))
            inner = int(answer)
    for handle in reversed(layers):
        calls.say(f"show {handle}")
        calls.make(f"left {handle}")
        calls.make(f"right {handle}")
        calls.make(f"open {handle} {opener_of(calls, handle)}")
    calls.show_all(100)


def fill(calls, places):
    """New terms until so many places are free."""
    number = calls.random.randrange(1000)
    while calls.issued < TERMS - places:
        number += 1
        late = calls.issued - 1
        calls.say(calls.random.choice([
            f"atom {calls.random.randrange(6)} {number}",
            f"join {calls.random.randrange(calls.issued)} {late}",
            f"join {late} {calls.random.randrange(calls.issued)}",
            f"seal {late} {such(calls, is_key)}",
            f"digest 5 {late}",
        ]))


def full_list(calls):
    """Takes nearly all places, then the last of them call by call, and goes on."""
    start_with_names(calls)
    calls.make("entry 4 0")
    fill(calls, calls.random.randrange(6))
    for word in MAKINGS * 3:
        calls.make(right_making(calls, word))
        calls.make(calls.making())
        calls.ask_fits(2)
    # new, held, wrong, and with handles beyond the last
    for making in ("atom 0 40000", "atom 6 0", "join 1022 1022", "join 1022 1022", "join 1023 0", "join 1024 0", "seal 0 1", "seal 7 2", "mate 9", "mate 3", "mate 8", "left 6", "left 1024", "open 7 2", "open 7 3", "entry 4 0", "entry 0 4"):
        calls.make(making)
    calls.show_all(120)


def both_list(calls):
    """Now one provider, now the other: each begins blank and leaves nothing to the next."""
    for _ in range(calls.random.randrange(2, 6)):
        calls.say(calls.random.choice(list(PROVIDERS)))
        for handle in range(3):
            calls.say(f"show {handle}")
        if calls.random.random() < 0.7:
            start_with_names(calls)
        for _ in range(calls.random.randrange(8)):
            calls.make(calls.making())
        calls.show_all()


# How often each shape stands among a hundred lists.
SHAPES = [
    (20, blank_list),
    (22, used_list),
    (12, again_list),
    (14, keys_list),
    (9, kinds_list),
    (9, deep_list),
    (4, full_list),
    (10, both_list),
]


def call_list(seed):
    shape = shape_of(SHAPES, seed)
    calls = CallList(shape.__name__, seed)
    calls.say("provider symbolic")
    shape(calls)
    return calls


def main(arguments):
    program, count = asked(arguments, __doc__, LISTS)
    return compare_all("symbolic", program, batches(call_list, count))


if __name__ == "__main__":
    sys.exit(main(sys.argv[1:]))
