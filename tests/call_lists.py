"""Lists of calls with the answers that are expected, and their comparison with a program's."""

import random
import subprocess

from byte_reference import BYTES
from console_reference import ONE_OPERAND, TWO_OPERANDS, Console

MAKINGS = ONE_OPERAND + TWO_OPERANDS
LISTS_IN_A_RUN = 100
LEAST_LISTS = 100


class CallList:
    """Lines, with the reference's answer to each."""

    def __init__(self, shape, seed):
        self.name = f"{shape} of seed {seed}"
        self.random = random.Random(seed)
        self.console = Console()
        self.lines = []
        # each line of an answer, with the number of lines up to the one that it answers
        self.answers = []

    @property
    def provider(self):
        return self.console.provider

    @property
    def issued(self):
        return len(self.provider.values)

    def say(self, line):
        line = line if isinstance(line, bytes) else line.encode()
        answer = self.console.answer(line)
        self.lines.append(line)
        if answer is not None:
            # a listing has many lines
            self.answers += [(len(self.lines), part) for part in answer.split("\n")]
        return answer

    # A handle: mostly an issued one, among these mostly a late one.
    def handle(self):
        roll = self.random.random()
        if self.issued == 0 or roll < 0.04:
            return self.random.choice([self.issued, self.issued + 1, 1023, 1024, 4095, 4096, 65535])
        if roll < 0.5:
            return self.random.randrange(max(0, self.issued - 6), self.issued)
        return self.random.randrange(self.issued)

    def atom(self):
        kind = self.random.choice([0, 1, 2, 2, 3, 3, 4, 5, 5, 6, 7, 65535])
        number = self.random.choice([0, 1, 2, 255, 256, 257, 65535, self.random.randrange(65536)])
        return f"atom {kind} {number}"

    def making(self, word=None):
        word = word or self.random.choice(MAKINGS)
        if word == "atom":
            return self.atom()
        if word in ONE_OPERAND:
            return f"{word} {self.handle()}"
        return f"{word} {self.handle()} {self.handle()}"

    def ask_fits(self, count):
        for _ in range(count):
            self.say("fits " + self.making())

    def make(self, making):
        """A making between two questions whether it fits; what it made is shown."""
        self.say("fits " + making)
        answer = self.say(making)
        self.say("fits " + making)
        if answer.isdigit():
            self.say(f"show {answer}")
            self.say(f"same {answer} {self.handle()}")
        return answer

    def show_all(self, most=64):
        """The values at the end, with what was never issued."""
        handles = range(self.issued)
        if self.issued > most:
            handles = sorted(self.random.sample(handles, most))
        for handle in handles:
            self.say(f"show {handle}")
        self.say(f"show {self.issued}")
        for a in (0, self.issued, 65535):
            for b in (0, self.issued, 65535):
                self.say(f"same {a} {b}")


def start_with_names(calls):
    """An atom of each kind, a pair, a sealed value and a mate."""
    for kind in range(6):
        calls.make(f"atom {kind} {calls.random.randrange(65536)}")
    calls.make("join 2 3")
    calls.make("seal 6 2")
    calls.make("mate 3")


def free_bytes(calls):
    return BYTES - calls.provider.used


def fill_bytes(calls, left_over):
    """Doubles values until they are too long, then adds copies of these and atoms until few bytes are free."""
    calls.make("atom 2 1")
    for _ in range(12):
        calls.make(f"join {calls.issued - 1} {calls.issued - 1}")
    for handle in reversed(range(calls.issued)):
        for _ in range((free_bytes(calls) - left_over) // len(calls.provider.values[handle])):
            calls.say(f"seal {handle} 0")


def shape_of(shapes, seed):
    """The shape of a seed's list; each is given with how often it stands among a hundred lists."""
    place = seed % sum(count for count, _ in shapes)
    for count, shape in shapes:
        if place < count:
            return shape
        place -= count
    raise AssertionError("a place beyond the shapes")


def batches(call_list, count):
    """The lists of the first seeds, as many at a time as go into one run."""
    for start in range(0, count, LISTS_IN_A_RUN):
        yield [call_list(seed) for seed in range(start, min(count, start + LISTS_IN_A_RUN))]


def run(program, lists):
    """The program's answer lines to some lists of calls."""
    text = b"".join(line + b"\n" for calls in lists for line in calls.lines)
    done = subprocess.run([program], input=text, stdout=subprocess.PIPE, timeout=300)
    if done.returncode != 0:
        raise SystemExit(f"compare: {program} ended with status {done.returncode}")
    return done.stdout.decode("latin-1").split("\n")[:-1]


def first_difference(calls, got):
    """The index of the first answer that differs, or None."""
    for index, (_, expected) in enumerate(calls.answers):
        if index >= len(got) or got[index] != expected:
            return index
    return None


def shown(text):
    return text if len(text) <= 400 else f"{text[:200]} .. {text[-180:]} ({len(text)} characters)"


def report(program, calls, index, got):
    """Prints a difference, with the lines up to it."""
    line, expected = calls.answers[index]
    alone = run(program, [calls])
    print(f"{calls.name}: answer {index + 1} differs" + ("" if first_difference(calls, alone) is not None else ", though not in a run of its own"))
    for text in calls.lines[:line]:
        print("  " + shown(text.decode("latin-1")))
    print(f"expected: {shown(expected)}")
    print("got:      " + (shown(got[index]) if index < len(got) else "nothing"))


def compare(program, lists):
    """Runs some lists; True if every answer is the reference's."""
    got = run(program, lists)
    for calls in lists:
        index = first_difference(calls, got)
        if index is not None:
            report(program, calls, index, got)
            return False
        got = got[len(calls.answers):]
    if got:
        print(f"{lists[0].name} and after it: {len(got)} answers more than calls, the first {shown(got[0])}")
    return not got


def compare_all(name, program, runs):
    """Compares list after list up to the first difference; the exit status."""
    lists_run, answers_run = 0, 0
    for lists in runs:
        if not compare(program, lists):
            return 1
        lists_run += len(lists)
        answers_run += sum(len(calls.answers) for calls in lists)
    print(f"{name}: {lists_run} lists with {answers_run} answers, all the same")
    return 0


def asked(arguments, usage, lists):
    """The program and the number of lists that the command line asks for."""
    if len(arguments) not in (1, 2):
        raise SystemExit(usage)
    count = int(arguments[1]) if len(arguments) == 2 else lists
    if count < LEAST_LISTS:
        raise SystemExit(f"compare: at least {LEAST_LISTS} lists, so that each shape is tried")
    return arguments[0], count
