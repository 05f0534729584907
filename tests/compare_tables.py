#!/usr/bin/env python3
"""Compares the reader of tables behind `exchange` with plain Python.

    python3 tests/compare_tables.py PROGRAM [TEXTS]

PROGRAM is `exchange` as it was proved and linked: `rt run` in crates/exchange
leaves it at crates/exchange/out/exchange. TEXTS is how many texts are tried,
at least 100, and 3,000 if it is not said.

First come some texts whose outcome is written down by hand. Each text then comes
of a seed of its own and has a run of the program to itself. Every byte of the
program's output has to be the reference's, and the status has to be 0. On standard
error there has to be one line after a refusal, with the place's line and column and
with the names of who lacks what, or whose script is full; otherwise nothing. Each
third text is tried again with other spaces between its tokens: whatever the
reference says, the program must come to the same, but for the place of a refusal.

On a difference the shortest text that was found to differ is printed with both
outcomes, and the exit status is 1; it is 0 only if every text was run, nothing
differs, and what has to come up came up: a granted table, each refusal of a text,
and each refusal of a protocol that a text can come to.
"""

import random
import re
import subprocess
import sys
from collections import Counter

from call_lists import asked
from table_examples import EXAMPLES
from table_reference import LONGEST_TEXT, Outcome
from table_texts import table_text
from table_writer import spaced_otherwise

TEXTS = 3000
SPACED_OTHERWISE = 3

# A text names what it declared, and kinds that there are: the protocol has nothing unknown to refuse.
OF_THE_PROTOCOL = [f"20 {number}" for number in range(2, 11)]
OUTCOMES = ["granted", *map(str, range(15, 20)), *OF_THE_PROTOCOL]

# How many texts are tried at most to find a shorter one that differs.
TRIES = 3000


class Ran:
    """What a run of the program came to, and what is wrong with it, if anything."""

    def __init__(self, program, text):
        done = subprocess.run([program], input=text, stdout=subprocess.PIPE, stderr=subprocess.PIPE, timeout=60)
        self.output = done.stdout
        self.told = done.stderr
        self.wrong = self.difference(Outcome(text), done.returncode)

    @property
    def came_to(self):
        """The outcome without places and values: granted, or a refusal's number, with the protocol's if it has one."""
        word, *numbers = self.output.decode("latin-1").split()[:4] or [""]
        return " ".join(numbers[:1] + numbers[2:]) if word == "refused" else "granted"

    def difference(self, expected, status):
        if self.output != expected.output:
            return f"expected: {shown(expected.output)}\ngot:      {shown(self.output)}"
        if status != 0:
            return f"ends with status {status}"
        if not (self.tells(expected) if expected.refusal else self.told == b""):
            return f"{shown(self.output)}, and on standard error: {shown(self.told)}"
        return None

    def tells(self, expected):
        """Whether standard error has one line, which begins with line and column and names who and what are refused."""
        beginning = "line {}, column {}: ".format(*expected.line_and_column).encode()
        is_line = len(self.told) > len(beginning) and self.told.find(b"\n") == len(self.told) - 1
        return is_line and self.told.startswith(beginning) and all(has_word(self.told, word) for word in expected.words_due)


def has_word(text, word):
    return re.search(rb"(?<![A-Za-z0-9])" + re.escape(word) + rb"(?![A-Za-z0-9])", text) is not None


def shown(text):
    return repr(text) if len(text) <= 600 else f"{text[:400]!r} .. {text[-150:]!r} ({len(text)} bytes)"


def without_a_part(text):
    """The text without one part, which is first half of it and at last a byte."""
    length = len(text) // 2
    while length > 0:
        for place in range(0, len(text), length):
            yield text[:place] + text[place + length:]
        length //= 2


def shortest(program, text):
    """A shorter text with which something is wrong too, as far as one is found by leaving parts out."""
    tries = 0
    while True:
        for shorter in without_a_part(text):
            tries += 1
            if tries > TRIES:
                return text
            if Ran(program, shorter).wrong:
                text = shorter
                break
        else:
            return text


def compare(program, name, text):
    """The program's run on a text, or None if something is wrong with it, which is printed."""
    ran = Ran(program, text)
    if ran.wrong is None:
        return ran
    text = shortest(program, text)
    print(f"{name}: {shown(text)}")
    print(Ran(program, text).wrong)
    return None


def compare_spaced_otherwise(program, name, text, ran):
    """Whether the same tokens with other spaces come to the same, by the program alone and by the reference."""
    other = spaced_otherwise(random.Random(name), text)
    if max(len(text), len(other)) > LONGEST_TEXT:
        return True
    again = compare(program, f"{name} with other spaces", other)
    if again is None:
        return False
    if again.came_to != ran.came_to or ran.came_to == "granted" and again.output != ran.output:
        print(f"{name}: {shown(text)} comes to {shown(ran.output)}, and {shown(other)} to {shown(again.output)}")
        return False
    return True


def compare_by_hand(program):
    """Whether the reference and the program do with the examples as they should."""
    for text, expected in EXAMPLES:
        output = Outcome(text).output
        if output != expected:
            print(f"the reference comes to {shown(output)} with {shown(text)}, and not to {shown(expected)}")
            return False
        if compare(program, "an example", text) is None:
            return False
    return True


def main(arguments):
    program, count = asked(arguments, __doc__, TEXTS)
    if not compare_by_hand(program):
        return 1
    came_up = Counter()
    for seed in range(count):
        shape, text = table_text(seed)
        name = f"{shape} of seed {seed}"
        ran = compare(program, name, text)
        if ran is None or seed % SPACED_OTHERWISE == 0 and not compare_spaced_otherwise(program, name, text, ran):
            return 1
        came_up[ran.came_to] += 1
    print(f"tables: {count} texts, all the same; " + ", ".join(f"{what} {came_up[what]}" for what in OUTCOMES))
    never = [what for what in OUTCOMES if came_up[what] == 0]
    if never:
        print("never came up: " + ", ".join(never))
    return 1 if never else 0


if __name__ == "__main__":
    sys.exit(main(sys.argv[1:]))
