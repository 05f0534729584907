#!/usr/bin/env python3
"""Times the proved programs against plain ones of the same algorithms (bench/plain), side by side in one run.

    python3 bench/run.py

Three comparisons: `exchange` on the tables in tables/ and on the large ones of bench/tables.py, as text; `largest`, whose tables are made
by calls; and 5,000 bytes sealed on the byte provider, against plain sealing and against copying. Before anything is measured, both
programs of a comparison must print the same.

The programs run by turns. A time is the processor time of a whole process, in milliseconds, least of all runs; `beyond` is what is left
of it when the least time for an empty table is taken off. The plain program runs twice in each turn: `again` is the ratio of the two,
which would be 1 if there were no noise. Where there is valgrind, callgrind counts the instructions beyond those for an empty table, with the
C library told to copy by plain instructions, since a copy that is one instruction is counted byte by byte.
"""

import os
import re
import shutil
import statistics
import subprocess
import sys
import tempfile
import time
from pathlib import Path

from tables import LARGE

ROOT = Path(__file__).resolve().parent.parent
# At most so many turns, and at most so many seconds of them for one table, but some in any case.
MOST_TURNS = 200
LEAST_TURNS = 10
SECONDS = 4
# Of a run of so many milliseconds no instructions are counted, which would take too long.
LONG = 50
COPIES = "glibc.cpu.x86_rep_movsb_threshold=2000000000:glibc.cpu.x86_rep_stosb_threshold=2000000000"

COLUMNS = ["table", "bytes", "proved", "plain", "ratio", "again", "beyond: proved", "plain", "ratio", "instructions"]

# Sealed so often in each of so many rounds by crates/sealing.
SEALED = 4
ROUNDS = 1000


def proved(crate):
    """The proved program of a crate, which `rt run` builds if it has to."""
    folder = ROOT / "crates" / crate
    subprocess.run(["rt", "run"], cwd=folder, stdin=subprocess.DEVNULL, capture_output=True, check=True)
    return [str(folder / "out" / crate)]


def plain(name, folder):
    """A program of bench/plain, built by rustc."""
    program = os.path.join(folder, name)
    source = ROOT / "bench" / "plain" / f"{name}.rs"
    subprocess.run(["rustc", "-O", "--edition", "2021", "-A", "dead_code", "-o", program, source], check=True)
    return [program]


def printed(words, text):
    done = subprocess.run(words, input=text, capture_output=True, check=False)
    return done.stdout, done.stderr, done.returncode


class Input:
    """A text in a file, from which programs read it."""

    def __init__(self, folder, text):
        self.text = text.encode()
        self.path = os.path.join(folder, "input")
        Path(self.path).write_bytes(self.text)

    def run(self, words):
        """The processor time and the time of one run, in milliseconds."""
        null = os.open(os.devnull, os.O_RDWR)
        text = os.open(self.path, os.O_RDONLY)
        places = [(os.POSIX_SPAWN_DUP2, text, 0), (os.POSIX_SPAWN_DUP2, null, 1), (os.POSIX_SPAWN_DUP2, null, 2)]
        start = time.perf_counter()
        pid = os.posix_spawn(words[0], words, os.environ, file_actions=places)
        _, status, usage = os.wait4(pid, 0)
        passed = time.perf_counter() - start
        os.close(null)
        os.close(text)
        if status:
            sys.exit(f"{words[0]} ended with status {status}")
        return (usage.ru_utime + usage.ru_stime) * 1000, passed * 1000

    def times(self, contestants):
        """For each of the contestants, which run by turns, the least processor time and the middle time."""
        found = {name: [] for name in contestants}
        end = time.monotonic() + SECONDS
        for turn in range(MOST_TURNS):
            if turn >= LEAST_TURNS and time.monotonic() > end:
                break
            for name, words in contestants.items():
                found[name].append(self.run(words))
        return {
            name: (min(used for used, _ in each), statistics.median(passed for _, passed in each)) for name, each in found.items()
        }

    def instructions(self, words):
        with tempfile.TemporaryDirectory() as folder:
            counter = ["valgrind", "--tool=callgrind", f"--callgrind-out-file={folder}/counts", *words]
            how = {"capture_output": True, "check": True, "env": {**os.environ, "GLIBC_TUNABLES": COPIES}}
            said = subprocess.run(counter, input=self.text, **how).stderr.decode()
        return int(re.search(r"Collected : (\d+)", said)[1])


def row(*cells):
    print("| " + " | ".join(str(cell) for cell in cells) + " |", flush=True)


def header(*cells):
    row(*cells)
    row(*("---" for _ in cells))


def real_tables():
    return {path.stem: path.read_text() for path in sorted((ROOT / "tables").glob("*.txt"))}


def is_refused(name, text, contestants):
    """Whether a table is refused; both programs must print the same of it."""
    ours, other = (printed(words, text.encode()) for words in contestants.values())
    if ours != other:
        sys.exit(f"{name}: the two print different things")
    return ours[0].startswith(b"refused")


def compare_texts(folder, counts):
    contestants = {"proved": proved("exchange"), "plain": plain("exchange", folder)}
    texts = {**real_tables(), **{name: make() for name, make in LARGE.items()}}
    granted = {name for name, text in texts.items() if not is_refused(name, text, contestants)}
    header(*COLUMNS)
    empty = Input(folder, "")
    turns = {**contestants, "again": contestants["plain"]}
    base = empty.times(turns)
    base_counts = {name: empty.instructions(words) for name, words in contestants.items()} if counts else {}
    longest = 0
    for name, text in {"(empty)": "", **texts}.items():
        given = Input(folder, text)
        times = given.times(turns)
        (ours, _), (other, _), (again, _) = times.values()
        cells = [name, len(text), f"{ours:.2f}", f"{other:.2f}", f"{ours / other:.2f}", f"{again / other:.2f}"]
        if text:
            more = [times[which][0] - base[which][0] for which in contestants]
            cells += [f"{more[0]:.2f}", f"{more[1]:.2f}", f"{more[0] / more[1]:.2f}" if min(more) > 0.1 else ""]
        if text and counts and ours < LONG:
            ours, other = (given.instructions(words) - base_counts[which] for which, words in contestants.items())
            cells.append(f"{ours / other:.2f}")
        if name in granted:
            longest = max(longest, times["proved"][1])
        row(*cells, *[""] * (len(COLUMNS) - len(cells)))
    print(f"\nThe granted table that takes the proved program longest has a middle time of {longest:.1f} ms.\n")


def compare_calls(folder):
    contestants = {"proved": proved("largest"), "plain": plain("largest", folder)}
    if len({printed(words, b"") for words in contestants.values()}) > 1:
        sys.exit("largest: the two print different things")
    times = Input(folder, "").times({**contestants, "again": contestants["plain"]})
    header("tables by calls", "proved", "plain", "ratio", "again")
    for place, what in enumerate(["processor time, least", "time, middle"]):
        ours, other, again = (each[place] for each in times.values())
        row(what, f"{ours:.2f}", f"{other:.2f}", f"{ours / other:.2f}", f"{again / other:.2f}")
    print()


def compare_sealing(folder):
    sealing = plain("sealing", folder)
    contestants = {"proved": proved("sealing"), "plain": sealing, "again": sealing, "copied": [*sealing, "copy"]}
    dots = "." * SEALED
    if printed(contestants["proved"], dots.encode()) != printed(sealing, dots.encode()):
        sys.exit("sealing: the two print different things")
    some = Input(folder, dots).times(contestants)
    none = Input(folder, "").times(contestants)
    # of one value, in microseconds
    each = {name: (some[name][0] - none[name][0]) * 1000 / (SEALED * ROUNDS) for name in contestants}
    header("5,000 bytes", "microseconds", "of proved sealing to this")
    for name, what in [("proved", "sealed, proved"), ("plain", "sealed, plain"), ("again", "sealed, plain, again"), ("copied", "copied, plain")]:
        row(what, f"{each[name]:.2f}", f"{each['proved'] / each[name]:.2f}")


def main():
    counts = shutil.which("valgrind") is not None
    with tempfile.TemporaryDirectory() as folder:
        compare_texts(folder, counts)
        compare_calls(folder)
        compare_sealing(folder)
    return 0


if __name__ == "__main__":
    sys.exit(main())
