#!/usr/bin/env python3
"""Runs the built programs on every table of tables/, and compares what they print.

    python3 tests/check_tables.py EXCHANGE REHEARSE
    python3 tests/check_tables.py --write

EXCHANGE and REHEARSE are the programs as they were proved and linked: `rt run` in crates/exchange and crates/rehearse leaves them at
crates/exchange/out/exchange and crates/rehearse/out/rehearse.

For each tables/NAME.txt, EXCHANGE must print NAME.out, and on standard error NAME.err, or nothing where there is no such file. REHEARSE
must print what tests/rehearsal_reference.py works out, and the same as EXCHANGE of a table that is refused. NAME.out itself must be what
plain Python works out of the table (tests/table_reader.py); --write writes these files anew from that, never from the program.
"""

import subprocess
import sys
from pathlib import Path

from rehearsal_reference import rehearsal
from table_reader import LineRefused, listings

ROOT = Path(__file__).resolve().parent.parent
TABLES = sorted((ROOT / "tables").glob("*.txt"))


def kept(table, suffix):
    """A file that is kept beside a table."""
    path = table.with_suffix(suffix)
    return path.read_text() if path.exists() else ""


def printed(program, text):
    """What a program prints on both outputs; it must end well."""
    done = subprocess.run([program], input=text, capture_output=True, text=True, timeout=60)
    return done.stdout, done.stderr, done.returncode


def expected_of_rehearsal(text, out, err):
    try:
        return rehearsal(text), ""
    except LineRefused:
        return out, err


def differences(table, exchange, rehearse):
    """The names of what differs for a table."""
    text, out, err = table.read_text(), kept(table, ".out"), kept(table, ".err")
    if listings(text) != out:
        yield f"{table.name}: the kept listing is not what plain Python works out"
    if printed(exchange, text) != (out, err, 0):
        yield f"{table.name}: exchange prints something else"
    if printed(rehearse, text) != (*expected_of_rehearsal(text, out, err), 0):
        yield f"{table.name}: rehearse prints something else"


def write():
    for table in TABLES:
        table.with_suffix(".out").write_text(listings(table.read_text()))


def main():
    if sys.argv[1:] == ["--write"]:
        write()
        return 0
    exchange, rehearse = sys.argv[1:]
    found = [difference for table in TABLES for difference in differences(table, exchange, rehearse)]
    if (ROOT / "tables/boarding.txt").read_text() != (ROOT / "crates/rehearse/stdin").read_text():
        found.append("crates/rehearse/stdin is not tables/boarding.txt")
    for difference in found:
        print(difference)
    print(f"{len(TABLES)} tables: {'all as kept' if not found else f'{len(found)} differences'}")
    return 1 if found or not TABLES else 0


if __name__ == "__main__":
    sys.exit(main())
