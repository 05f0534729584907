#!/usr/bin/env python3
"""Compares the console, and the byte provider behind it, with plain Python.

    python3 tests/compare.py PROGRAM [LISTS]

PROGRAM is the console as it was proved and linked: `rt run` in crates/console
leaves it at crates/console/out/console. LISTS is how many lists of calls are
tried, at least 100, and 3,200 if it is not said.

Each list begins with `provider bytes` and comes of a seed of its own. Many
lists go through one run of the program, and each answer line is compared with
the reference's: which handle or refusal, which bytes, what fits. A second part
sends lines that are no calls. On a difference the seed, the list up to the
first answer that differs, and both answers are printed, and the exit status is
1; it is 0 only if every list was run and every answer is the same.
"""

import sys

from byte_reference import HANDLES
from call_lists import MAKINGS, CallList, asked, batches, compare_all, fill_bytes, free_bytes, shape_of, start_with_names
from console_reference import PROVIDERS, UNREAD

LISTS = 3200
UNREAD_LISTS = 40


def blank_list(calls):
    """The first calls on a blank provider: few handles, so that many are unissued."""
    for _ in range(calls.random.randrange(2, 12)):
        calls.make(calls.making())
    calls.show_all()


def used_list(calls):
    start_with_names(calls)
    for _ in range(calls.random.randrange(10, 40)):
        calls.make(calls.making())
        calls.ask_fits(calls.random.randrange(3))
    calls.show_all()


def odd_list(calls):
    """Values of no sensible form: digests, halves of what was sealed, keys out of these."""
    start_with_names(calls)
    words = ["digest", "left", "right", "left", "right", "seal", "open", "mate", "entry", "join"]
    for _ in range(calls.random.randrange(20, 50)):
        calls.make(calls.making(calls.random.choice(words)))
    calls.show_all()


def keys_list(calls):
    """Atoms, entries, sealed and opened values as keys."""
    start_with_names(calls)
    for _ in range(calls.random.randrange(5, 15)):
        key = calls.make(calls.making(calls.random.choice(["atom", "entry", "mate", "open", "seal"])))
        if key.isdigit():
            calls.make(f"mate {key}")
            calls.make(f"seal {calls.handle()} {key}")
            calls.make(f"open {calls.handle()} {key}")
            calls.make(f"seal {key} {key}")
    calls.show_all()


def tiny_list(calls):
    """Values of no, one or two bytes, and what is made of these."""
    for making in ("atom 0 0", "left 0", "right 0", "join 1 1", "entry 1 2", "entry 1 1", "atom 0 2", "right 6", "entry 7 1", "join 1 7"):
        calls.make(making)
    for _ in range(calls.random.randrange(10, 40)):
        word = calls.random.choice(MAKINGS)
        calls.make(calls.making("right" if word == "atom" else word))
    calls.show_all()


def full_bytes_list(calls):
    fill_bytes(calls, calls.random.choice([0, 0, 1, 2, 3, 5, 40, 300]))
    for _ in range(calls.random.randrange(10, 30)):
        calls.make(calls.making())
        calls.ask_fits(calls.random.randrange(4))
    calls.make("digest 0 0")
    calls.make("atom 0 0")
    calls.make("atom 6 0")
    calls.make(f"left {calls.issued}")
    calls.show_all(12)


def last_bytes_list(calls):
    """Fills the table to its last byte, one byte at a time, and goes on."""
    fill_bytes(calls, 3)
    for _ in range(free_bytes(calls)):
        calls.make("digest 0 0")
    for word in MAKINGS * 2:
        calls.make(calls.making(word))
    calls.show_all(6)


def full_handles_list(calls):
    """Takes nearly all handles, then the last of them call by call."""
    calls.make("atom 2 9")
    calls.make("atom 3 8")
    calls.make("join 0 1")
    before = HANDLES - calls.random.randrange(6)
    for _ in range(before - calls.issued):
        calls.say(calls.random.choice(["left 2", "right 2", "digest 1 2", f"atom 4 {calls.issued}"]))
    for making in ("left 2", "right 2", "left 0", "right 4096", "mate 0", "atom 6 0", "atom 5 0"):
        calls.make(making)
        calls.ask_fits(2)
    for word in MAKINGS:
        calls.make(calls.making(word))
    calls.show_all(100)


# How often each shape stands among a hundred lists.
SHAPES = [
    (30, blank_list),
    (25, used_list),
    (12, odd_list),
    (9, keys_list),
    (12, tiny_list),
    (8, full_bytes_list),
    (3, last_bytes_list),
    (1, full_handles_list),
]


def call_list(seed):
    shape = shape_of(SHAPES, seed)
    calls = CallList(shape.__name__, seed)
    calls.say("provider bytes")
    shape(calls)
    return calls


ODD_WORDS = [
    b"65535", b"65536", b"99999", b"00007", b"000007", b"-1", b"+1", b"1.0", b"x", b"0x1", b"1_0",
    "\u0663".encode(),
]


def damaged(rng, line):
    """A line with one small fault, or now and then none."""
    words = line.split(b" ")
    at = rng.randrange(len(words))
    place = rng.randrange(len(line) + 1)
    return rng.choice([
        b" " + line,
        line + b" ",
        b" ".join(words[:at] + [b""] + words[at:]),
        b" ".join(words[:at] + words[at + 1:]),
        b" ".join(words[:at] + [words[at]] + words[at:]),
        b" ".join(words[:at] + [rng.choice(ODD_WORDS)] + words[at + 1:]),
        line.upper(),
        line[:place] + bytes([rng.randrange(256)]).replace(b"\n", b"\r") + line[place:],
        line[:place],
        line + b"\r",
        line.replace(b" ", b"\t"),
    ])


NO_CALLS = [
    b" ", b"  ", b"\r", b"\0", b"\xff\xfe", b"hello world",
    b"bytes", b"provider", b"provider terms", b"provider symbol", b"provider symbolic ", b"provider bytes ",
    b"provider  bytes", b"symbolic", b"provider bytes symbolic", b"provider Symbolic",
    b"Provider bytes", b"provider bytes bytes",
    b"atom", b"atom 1", b"atom 1 2 3", b"atom 1 2 3 4 5", b"left", b"left 0 0", b"mate 0 0",
    b"join 0 x", b"join x 0", b"mates 0", b"mat 0", b"lef 0", b"leftt 0",
    b"same 0", b"same 0 0 0", b"show", b"show 0 0", b"show -1", b"show 1e1", b"show 65536",
    b"show 000001", b"show 99999999999999999999999", b"show \xc2\xb2",
    b"fits", b"fits 0", b"fits show 0", b"fits same 0 0", b"fits fits left 0",
    b"fits provider bytes", b"fits atom 1", b"fits left 0 0", b"fits join 0 0 0",
    b"a" * 1_000_000, b"show " + b"0" * 1_000_000, b" " * 100_000,
]


def unread_list(seed):
    """Lines that are no calls, before and after a provider is chosen, and damaged calls."""
    calls = CallList("unread_list", seed)
    for line in ("atom 0 0", "join 0 0", "left 0", "same 0 0", "fits atom 0 0", "show 0"):
        calls.say(line)
    for line in NO_CALLS:
        calls.say(line)
    calls.say(b"")
    calls.say(calls.random.choice(list(PROVIDERS)))
    for line in NO_CALLS:
        calls.say(line)
    unread = [answer for _, answer in calls.answers if answer != UNREAD]
    if unread != ["ok"]:
        raise AssertionError(f"the reference reads a line that is no call: {unread}")
    start_with_names(calls)
    for _ in range(60):
        calls.make(calls.making())
        calls.say(damaged(calls.random, calls.random.choice(calls.lines[-3:])))
        calls.say(b"")
    calls.show_all()
    return calls


def main(arguments):
    program, count = asked(arguments, __doc__, LISTS)
    status = compare_all("unread lines", program, ([unread_list(seed)] for seed in range(UNREAD_LISTS)))
    return status or compare_all("bytes", program, batches(call_list, count))


if __name__ == "__main__":
    sys.exit(main(sys.argv[1:]))
