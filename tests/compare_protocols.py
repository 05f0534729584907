#!/usr/bin/env python3
"""Compares protocols, scripts, sessions and runs behind the console with plain Python.

    python3 tests/compare_protocols.py PROGRAM [LISTS]

PROGRAM is the console as it was proved and linked: `rt run` in crates/console
leaves it at crates/console/out/console. LISTS is how many lists of calls are
tried, at least 100, and 3,000 if it is not said.

First come some examples whose answers are written down by hand. Each list then
comes of a seed of its own and has a run of the program to itself, since sessions
stay. Each answer line is compared with the reference's: which number, refusal
and values, every line of every script, which handles and what they stand for. On
a difference the seed, the list up to the first answer that differs, and both
answers are printed, and the exit status is 1; it is 0 only if every list was run,
every answer is the same, and what has to come up came up: each refusal, a stop
in each place of a run, and each instruction.
"""

import sys
from collections import Counter

from call_lists import asked, compare, shape_of
from protocol_examples import EXAMPLES, calls_of
from protocol_lists import ProtocolList, protocol_list
from run_lists import changed_list, play_list, session_list, unread_list

LISTS = 3000

REFUSALS = [f"refused {number}" for number in range(1, 15)]
RUNS_STOPPED = ["no memory", "loading", "starting", "sending", "receiving"]
WORDS = ["GIVEN", "FRESH", "FROM", "TO", "RECV", "MATE", "LEFT", "RIGHT", "JOIN", "SEAL", "DIGEST", "ENTRY", "OPEN", "SAME", "SEND"]
HAVE_TO_COME_UP = [
    *REFUSALS,
    *(f"run stopped, {where}" for where in RUNS_STOPPED),
    "run to its end",
    *(f"{word} written" for word in WORDS),
]


# How often each shape stands among a hundred lists.
SHAPES = [
    (50, protocol_list),
    (20, play_list),
    (20, session_list),
    (7, changed_list),
    (3, unread_list),
]


def call_list(seed):
    shape = shape_of(SHAPES, seed)
    calls = ProtocolList(shape.__name__, seed)
    shape(calls)
    return calls


def example(name, text):
    """The calls of an example, whose answers by hand have to be the reference's; None if one is not."""
    calls = ProtocolList(name, 0)
    for call, expected in calls_of(text):
        answer = calls.say(call)
        if answer != expected:
            print(f"{name}: the reference answers {answer} to {call}, and not {expected}")
            return None
    return calls


def where_stopped(calls, refusal):
    """Where a run was stopped, by the words of its refusal."""
    *_, step, party = map(int, refusal)
    if step == 64:
        return "no memory" if refusal[0] == "14" else "starting" if party else "loading"
    return "sending" if calls.protocol.steps[step].sender == party else "receiving"


def what_came_up(calls):
    """Counts what the answers of a list show."""
    for line, answer in calls.answers:
        word, *words = answer.split()
        is_run = calls.lines[line - 1] == b"play"
        if word == "refused":
            yield f"refused {words[0]}"
        if word == "refused" and is_run:
            yield "run"
            yield f"run stopped, {where_stopped(calls, words)}"
        elif is_run and word != "unread":
            yield "run"
            yield "run to its end"
        if len(words) > 1 and words[1] in WORDS:
            yield f"{words[1]} written"


def summary(came_up, lists, answers):
    refusals = ", ".join(f"{number} {came_up[f'refused {number}']}" for number in range(1, 15))
    stopped = ", ".join(f"{where} {came_up[f'run stopped, {where}']}" for where in RUNS_STOPPED)
    runs = f"{came_up['run']} runs, {came_up['run to its end']} to the end, stopped: {stopped}"
    return f"protocols: {lists} lists with {answers} answers, all the same; refusals {refusals}; {runs}"


def main(arguments):
    program, count = asked(arguments, __doc__, LISTS)
    for name, text in EXAMPLES.items():
        calls = example(name, text)
        if calls is None or not compare(program, [calls]):
            return 1
    came_up, answers = Counter(), 0
    for seed in range(count):
        calls = call_list(seed)
        if not compare(program, [calls]):
            return 1
        came_up.update(what_came_up(calls))
        answers += len(calls.answers)
    print(summary(came_up, count, answers))
    never = [what for what in HAVE_TO_COME_UP if came_up[what] == 0]
    if never:
        print("never came up: " + ", ".join(never))
    return 1 if never else 0


if __name__ == "__main__":
    sys.exit(main(sys.argv[1:]))
