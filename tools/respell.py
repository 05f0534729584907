#!/usr/bin/env python3
"""Brings the repository's own definitions and lemmas to the spelling of today's library.

usage: python3 tools/respell.py [--list]      at the top, once, after the kit's port.py

Functions, lemmas, fields and constructors that specs/ and proofs/ declare are in snake case: nodeAt becomes node_at, last-kind
last_kind. A name that begins with a capital, names that Rattle makes (a declaration whose type is 'goal.NAME') and names that the
library declares keep their spelling. A lemma whose new name is that of a function of src/, or of a definition that the same file
names, gets '_lem' at its end; three other names that would fall together stand in OTHERWISE. With --list the old and new names are
printed and nothing is written.
"""
import os
import re
import sys

TOKEN = re.compile(r"[^\W\d][\w'-]*")
DECLARED = re.compile(r"^\s*(?:abbrev\s+pub\s+|abbrev\s+|unfoldable\s+pub\s+|unfoldable\s+|pub\s+|ruleset\s+)*([^\W\d][\w'-]*)\s*:\s*(.*)$")
DERIVED = re.compile(r"deriving\s+\w+\s+as\s+([^\W\d][\w'-]*)")
FUNCTION = re.compile(r"\bfn\s+([a-z_0-9]+)")
OTHERWISE = {"same-term": "term_decision", "noSteps": "has_no_steps", "allKnown": "are_all_known"}
LIBRARY = re.compile(r"use\s+(?!Rattle\.(?:%s)\.)[\w.'-]+\.\{([^}]*)\}")


def files(kinds):
    for folder, dirs, names in os.walk("crates"):
        dirs[:] = sorted(d for d in dirs if d != "out")
        for name in sorted(names):
            if name.endswith(kinds):
                yield os.path.join(folder, name)


def read(path):
    with open(path, encoding="utf-8") as file:
        return file.read()


def snake(name):
    """node_at for nodeAt and last_kind for last-kind. A capital at the head of a name or of one of its joined parts stays."""
    parts = []
    for part in name.split("-"):
        if part[:1].islower():
            part = re.sub(r"(?<=[a-z0-9])([A-Z])(?=[a-z]|$)", lambda m: "_" + m.group(1).lower(), part)
        parts.append(part)
    return "_".join(parts)


def main():
    crates = [line.split(":")[0].split()[0] for line in read("crates.txt").splitlines() if ":" in line]
    library = re.compile(LIBRARY.pattern % "|".join(crates))
    own, kept, functions, tokens = {}, set(), set(), {}
    for path in files((".antt", ".rt")):
        text = read(path)
        tokens[path] = set(TOKEN.findall(text))
        for found in library.finditer(text):
            kept.update(item.split()[0] for item in found.group(1).split(",") if item.split())
        if path.endswith(".rt"):
            functions.update(FUNCTION.findall(text))
            continue
        for line in text.splitlines():
            found = DECLARED.match(line)
            if found and found.group(2).startswith("goal."):
                kept.add(found.group(1))
            elif found:
                own.setdefault(found.group(1), set()).add(path)
            for found in DERIVED.finditer(line):
                own.setdefault(found.group(1), set()).add(path)
    new = {name: OTHERWISE.get(name, snake(name)) for name in sorted(own) if name[0].islower() and name not in kept}
    new = {name: to for name, to in new.items() if to != name}
    # names that fall together in a file, or a lemma with the name of a function
    for name in sorted(new):
        lemma = "-" in name and all("/proofs/" in path for path in own[name])
        others = {old for path in tokens if path.endswith(".antt") and name in tokens[path] for old in tokens[path]
                  if old != name and "-" not in old and new.get(old, old) == new[name]}
        if lemma and (new[name] in functions or others):
            new[name] += "_lem"
    for path in sorted(tokens):
        met = {}
        for old in sorted(tokens[path]):
            to = new.get(old, old)
            if met.setdefault(to, old) != old and not (path.endswith(".rt") and to in functions):
                print(f"falls together in {path}: {met[to]} {old} -> {to}", file=sys.stderr)
    if "--list" in sys.argv:
        for name, to in sorted(new.items()):
            print(name, to)
        return
    for path in sorted(tokens):
        text = read(path)
        turned = TOKEN.sub(lambda m: new.get(m.group(0), m.group(0)), text)
        if turned != text:
            with open(path, "w", encoding="utf-8") as file:
                file.write(turned)


main()
