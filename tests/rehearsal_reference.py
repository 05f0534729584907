#!/usr/bin/env python3
"""What the rehearsal of a table must print, worked out by plain Python from the rules.

    python3 tests/rehearsal_reference.py < tables/boarding.txt

It shares nothing with the program: the scripts and the run are those of protocol_reference.py and session_reference.py, on the byte
provider of byte_reference.py. `crates/rehearse/stdout` is what this prints of tables/boarding.txt; the gate compares the two.
"""

import sys

from byte_reference import ByteProvider
from protocol_reference import INSTRUCTIONS
from session_reference import Readings, Session
from table_reader import Table

# The most bytes of a value that are shown.
SHOWN = 128

# What an instruction is called, with its operands and the term that its slot stands for.
ACTIONS = {
    "GIVEN": "starts with {term}",
    "FRESH": "makes {term}",
    "FROM": "hears from {term}",
    "RECV": "receives {term}",
    "MATE": "takes the mate of slot {0}, {term}",
    "LEFT": "takes the left half of slot {0}, {term}",
    "RIGHT": "takes the right half of slot {0}, {term}",
    "JOIN": "joins slots {0} and {1} to {term}",
    "SEAL": "seals slot {0} under slot {1} to {term}",
    "DIGEST": "digests slot {1} under slot {0} to {term}",
    "ENTRY": "looks slot {1} up in slot {0}, {term}",
    "OPEN": "opens slot {0} with slot {1} to {term}",
    "SAME": "compares slots {0} and {1}, both {term}",
    "SEND": "sends slot {0}, {term}, to slot {1}, {address}",
}


def meanings(protocol, lines):
    """The term that each slot stands for."""
    terms = []
    for word, operands, _ in lines:
        if word in ("GIVEN", "FRESH", "FROM", "RECV"):
            terms.append(protocol.terms[operands[0]])
        elif word in ("LEFT", "OPEN"):
            terms.append(terms[operands[0]][1])
        elif word == "RIGHT":
            terms.append(terms[operands[0]][2])
        elif word in ("SAME", "SEND"):
            terms.append(terms[operands[0]])
        else:
            terms.append(lines[len(terms)][2])
    return terms


def shown(value):
    more = f" and {len(value) - SHOWN} more" if len(value) > SHOWN else ""
    return "".join(f" {byte}" for byte in value[:SHOWN]) + more


def rehearse(table):
    """Carries out all sessions; the lines that are printed."""
    protocol = table.protocol
    provider, readings = ByteProvider(), Readings()
    means = (protocol, provider, readings, INSTRUCTIONS)
    sessions = {party: Session(party) for party in range(1, len(protocol.scripts))}
    terms = {party: meanings(protocol, protocol.scripts[party].lines) for party in sessions}

    def actions(party, begin, end):
        for place in range(begin, end):
            word, operands, _ = protocol.scripts[party].lines[place]
            term = table.written(terms[party][place])
            address = table.written(terms[party][operands[1]]) if word == "SEND" else None
            action = ACTIONS[word].format(*operands, term=term, address=address)
            value = provider.values[sessions[party].slots[place]]
            yield f"  {table.agent_called(party)}: {place}: {action}:{shown(value)}"

    readings.load(protocol, provider)
    yield "before the first step"
    for party, session in sessions.items():
        yield from actions(party, 0, session.start(*means))
    compared = 0
    for number, step in enumerate(protocol.steps):
        sender, receiver = table.agent_called(step.sender), table.agent_called(step.receiver)
        yield f"step {number}: {sender} to {receiver}: {table.called(step.message)}"
        message, _ = sessions[step.sender].send(*means)
        compared += sessions[step.receiver].take(*means, readings.handles[protocol.names[step.sender]], message)
        for party in (step.sender, step.receiver):
            yield from actions(party, *step.parts[party])
    yield f"{len(protocol.steps)} steps played, {compared} values compared"


def rehearsal(text):
    """What `rehearse` prints of a table that is granted."""
    return "".join(line + "\n" for line in rehearse(Table().read(text)))


if __name__ == "__main__":
    sys.stdout.write(rehearsal(sys.stdin.read()))
