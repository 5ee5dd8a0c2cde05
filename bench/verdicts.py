#!/usr/bin/env python3
"""Compares the verdicts of two programs: `certify` of the notes of random scripts, which the first one's `live` made, and of the same notes changed
at one place: a ticket, a core, a number or an outcome is another one, a line is left out, stands twice, or changes places with another, or a byte
isn't printable. Both are to say the same, byte for byte, and to end with the same status. It tells how many were certified, refused and faults.
Usage: bench/verdicts.py ONE OTHER [SCRIPTS [SEED]], 1,000 and 0 where left out; ONE and OTHER are programs, built by bench/unproved.py or proved
"""
import collections
import random
import re
import subprocess
import sys

from sanitized import script

CHANGES = 2  # of each script's notes


def said(program, words, text):
    """What the program says and ends with."""
    ran = subprocess.run([program, *words], input=text, capture_output=True, timeout=600)
    return ran.returncode, ran.stdout, ran.stderr


def other_number(rng, line):
    """The line with another number at one place."""
    found = list(re.finditer(rb"0x[0-9a-f]+|\d+", line))
    place = rng.choice(found)
    text = place[0].decode()
    value = int(text, 0) + rng.choice([1, 1, -1, 4096, 2**32])
    if value < 0:
        value = 1
    return line[: place.start()] + (hex(value) if text.startswith("0x") else str(value)).encode() + line[place.end() :]


def other_outcome(rng, line, lines):
    """The line with the outcome of another one."""
    return line.split(b" = ")[0] + b" = " + rng.choice(lines).split(b" = ")[-1]


def changed(rng, text):
    """The notes, changed at one place."""
    lines = text.split(b"\n")[:-1]
    notes = [at for at, line in enumerate(lines) if b" = " in line]
    at, other = rng.choice(notes), rng.choice(notes)
    kind = rng.randrange(7)
    if kind == 0:
        del lines[at]
    elif kind == 1:
        lines.insert(other, lines[at])
    elif kind == 2:
        one, two = lines[at].split(b" ", 1), lines[other].split(b" ", 1)
        lines[at], lines[other] = one[0] + b" " + two[1], two[0] + b" " + one[1]
    elif kind == 3:
        lines[at] = other_outcome(rng, lines[at], [lines[note] for note in notes])
    elif kind == 4 and rng.randrange(4) == 0:
        lines[at] = lines[at][:3] + b"\x01" + lines[at][3:]
    else:
        lines[at] = other_number(rng, lines[at])
    return b"\n".join(lines) + b"\n"


def main():
    if len(sys.argv) not in (3, 4, 5):
        sys.exit(__doc__)
    one, other = sys.argv[1:3]
    count = int(sys.argv[3]) if len(sys.argv) > 3 else 1000
    first = int(sys.argv[4]) if len(sys.argv) > 4 else 0
    told = collections.Counter()
    for seed in range(first, first + count):
        status, notes, errors = said(one, ["live"], script(seed).encode())
        if status or errors:
            sys.exit(f"bench/verdicts.py: script {seed} didn't run: {errors.decode()}")
        rng = random.Random(seed)
        for text in [notes, *(changed(rng, notes) for _ in range(CHANGES))]:
            here, there = said(one, ["certify"], text), said(other, ["certify"], text)
            if here != there:
                sys.exit(f"bench/verdicts.py: script {seed}: {here} and {there}\n{text.decode(errors='replace')}")
            told[here[0]] += 1
        if not told[0]:
            sys.exit(f"bench/verdicts.py: the notes of script {seed} are not certified")
    print(f"{count} scripts: the same verdicts; {told[0]} texts of notes are certified, {told[1]} refused, and {told[2] + told[3]} faults")


if __name__ == "__main__":
    main()
