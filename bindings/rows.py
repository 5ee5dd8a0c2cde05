#!/usr/bin/env python3
"""The worked rows of crates/test_words/data/calls.rows that end well, each trace given to a command, whose text must be the row's.
Usage: rows.py COMMAND WORD.."""
import pathlib
import subprocess
import sys

top = pathlib.Path(__file__).resolve().parent.parent
source = (top / "crates/test_words/data/calls.rows").read_text()
rows = wrong = 0


def lines_of(lines):
    return "".join(line + "\n" for line in lines if line and not line.startswith("#!"))


for row in source.split("\n== run\n")[1:]:
    trace, *parts = row.split("\n-- ")
    said = {head: lines_of(lines) for head, *lines in (part.split("\n") for part in parts)}
    if set(said) != {"out"} or "\\" in row:
        continue
    ran = subprocess.run(sys.argv[1:], input=lines_of(trace.split("\n")), capture_output=True, text=True, timeout=60)
    rows += 1
    if ran.stdout != said["out"] or ran.returncode != 0:
        wrong += 1
        print(f"{trace!r}: {ran.stdout!r} {ran.stderr!r}, expected {said['out']!r}")
print(f"{rows - wrong} of {rows} rows")
sys.exit(wrong > 0 or rows < 60)
