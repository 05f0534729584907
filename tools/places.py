#!/usr/bin/env python3
"""Counts the places of older forms in crates/*/src, point by point, as docs/DESIGN-PASS.md lists them.

    python3 tools/places.py [COMMIT]        a count for each label; COMMIT reads that commit, else the files as they stand
    python3 tools/places.py -v [COMMIT]     each place too, as file:line

A place is where a pattern stands; docs/DESIGN-PASS.md says what reading them showed.
"""
import re
import subprocess
import sys

# label, pattern, and what the enum or struct that it stands in may not be called
POINTS = [
    ("1 an own variant for none, a refusal or a state", r"^\s+(Nothing|NoKey|Unstarted|Unread|Wrong|Full|Refused\(Refusal\)),", r"Error|SessionRefusal"),
    ("1 numbers for kinds and forms", r"(\b\d+ => (Some\()?(Kind|Form)::|_ => (Kind|Form)::|\bKind::\w+ => \d|first == \d|const (NUMBER|SHARED|MATE): usize|\b(kind|form): usize|Call::(Name|Build)\(\d)", None),
    ("1 numbers for refusals", r"(Refusal|SessionRefusal)::\w+(\(_\))? => \d+,", None),
    ("1 a number for what is not there", r"(None => 0,|return \(0, 0\)|_ => \(0, 0\)|step: 64,|party: 0,|\} else \{ 0 \}|^\s+0$)", None),
    ("3 loops over a range, while loops", r"^\s*(for \w+ in [^{]*\.\.|while )", None),
    ("4 equality, order, copying, conversion and printing by hand", r"\bfn (equal|fill|copy|is_held|is|yes_or_no|type_of|kind_at|kind_of|form_of|form_at|kind_number|refusal|refused_as|answer|number_of|numbered|granted|said|stopped|outcome|print_refusal|print_action|write_term|agent_name|term_name|reading|held|handle_at|last_put|is_marked|mark|comparisons|is_public|can_be_fresh|is_party|is_key|is_named|is_asymmetric)\b", None),
    ("5 a fact that many contracts repeat", r"(Sound self|self\.(now|old)\.used (≤|<|\+)|Inside \(held self|AllNamed \(length \(listed|AllKnown \(length \(listed|protocol\.now\.content)", None),
    ("5 parameters that travel together", r"^\s+(readings: &(mut )?\[Handle\]|slots: &(mut )?\[Handle\]|base: usize),", None),
    ("6 an array with its length beside it", r"^\s+(bytes|spans|nodes|lines|scripts|steps|pub\(crate\) scripts|pub\(crate\) steps): \[", None),
    ("6 arrays of marks", r"\[bool; (512|N|PLACES)\]", None),
    ("6 a list written as variants", r"^\s+(One|Two|Three|Four)\(&'a \[u8\]", None),
    ("7 a switch on which provider or step", r"match (self\.chosen|role|part)\b|let .* = part =>", None),
]
FAMILIES = r"(\w+_or_cut|hold_\w+|walk_(sender|message)|push_(fresh|mate)|give|address_to|perform_\w+|(start|send|receive)_task|sending|receiving|halves|contents|pair_at|sealed_at|make_(left|right)|check_(parts|key)|rehearse_on_\w+|plan_(seal|open|left|right))"


def sources(commit):
    if commit:
        names = subprocess.run(["git", "ls-tree", "-r", "--name-only", commit, "crates"], capture_output=True, text=True, check=True).stdout.split()
    else:
        names = subprocess.run(["git", "ls-files", "-co", "--exclude-standard", "crates"], capture_output=True, text=True, check=True).stdout.split()
    for name in sorted(names):
        if re.match(r"crates/\w+/src/.*\.rt$", name):
            if commit:
                text = subprocess.run(["git", "show", f"{commit}:{name}"], capture_output=True, text=True, check=True).stdout
            else:
                try:
                    text = open(name, encoding="utf-8").read()
                except FileNotFoundError:
                    continue
            yield name, text.split("\n")


def main():
    arguments = sys.argv[1:]
    loud = "-v" in arguments
    commit = next((a for a in arguments if a != "-v"), None)
    files = list(sources(commit))
    found = {label: [] for label, _, _ in POINTS}
    functions = {}
    for name, lines in files:
        inside = ""
        current = ""
        test = False
        for number, line in enumerate(lines, 1):
            if "#[cfg(test)]" in line:
                test = True
            head = re.match(r"\s*(?:pub(?:\(\w+\))? )?(?:enum|struct) (\w+)", line)
            if head:
                inside = head.group(1)
            function = re.match(r"\s*(?:pub(?:\(\w+\))? )?fn (\w+)", line)
            if function:
                inside = ""
                current = function.group(1)
                if not test:
                    functions.setdefault(function.group(1), []).append(f"{name}:{number}")
            if test or line.strip().startswith("//"):
                continue
            for label, pattern, without in POINTS:
                if re.search(pattern, line) and not (without and re.search(without, inside)):
                    if label.startswith("1 an own") and not inside:
                        continue
                    # how many places or agents a name takes is no number of its kind
                    if current in ("places_for", "opened_by") and label.startswith("1 numbers for kinds"):
                        continue
                    found[label].append(f"{name}:{number}: {line.strip()[:90]}")
    makings = ("atom", "join", "left", "right", "seal", "open", "digest", "entry", "mate")
    twins = []
    for function, places in sorted(functions.items()):
        repeated = len(places) > 1 and function not in ("main", "new", "blank", "len", "same", "fits", "from", "fmt", "try_from", "make", "load", "initial", "begin", "build", "name", "step", "perform", "answer", "number", "value", "cut", "push", "put", "read", "write", "send", "receive", "equals", "opening", "admits", "perform_all")
        if (repeated and function not in makings) or (re.fullmatch(FAMILIES, function) and function != "perform_all"):
            twins += [f"{p}: {function}" for p in places]
        if function in makings:
            twins += [f"{p}: {function}" for p in places if "provider/src/store" in p]
    found["2 functions that another one resembles, by name"] = twins
    for label in sorted(found):
        print(f"{len(found[label]):4}  {label}")
        if loud:
            for place in found[label]:
                print("        " + place)
    proofs = [n for n in subprocess.run(["git", "ls-tree", "-r", "--name-only", commit or "HEAD", "crates"], capture_output=True, text=True, check=True).stdout.split() if "/proofs/" in n]
    print(f"{len(proofs):4}  8 files of proofs")


main()
