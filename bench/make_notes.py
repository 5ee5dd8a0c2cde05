#!/usr/bin/env python3
"""Turns a trace into notes: `radixvm run` makes each step of each call by itself, behind a pipe, and each line that comes to
something is written with its ticket and its outcome. Of a line of a whole call (`cC! REQ`, `finish`) come a note for its beginning and
one for each step, up to its reply or its wait; what comes to nothing (`idle`) is left out.

Usage: make_notes.py PROGRAM NOTES < TRACE; it ends with the first line behind which there are so many notes.
"""

import subprocess
import sys


class Machine:
    """The program behind a pipe, which answers each line."""

    def __init__(self, program):
        self.run = subprocess.Popen([program, "run"], stdin=subprocess.PIPE, stdout=subprocess.PIPE)

    def tell(self, line):
        self.run.stdin.write(line.encode() + b"\n")
        self.run.stdin.flush()

    def ask(self, line):
        self.tell(line)
        return self.run.stdout.readline().decode().rstrip("\n")


def steps(machine, line):
    """The steps that a line makes, one by one, each with what it comes to."""
    core, *words = line.split(" ")
    is_call = core.endswith("!")
    core = core.rstrip("!")
    if is_call:
        begun = f"{core} call {' '.join(words)}"
        yield begun, machine.ask(begun)
    elif words != ["finish"]:
        yield line, machine.ask(line)
        return
    outcome = "step"
    while outcome == "step":
        outcome = machine.ask(f"{core} go")
        yield f"{core} go", outcome


def main(program, wanted):
    machine = Machine(program)
    ticket = 0
    for line in sys.stdin:
        line = line.rstrip("\n")
        if line.startswith(("vm ", "file ")):
            machine.tell(line)
            print(line)
            continue
        for event, outcome in steps(machine, line):
            if outcome != "idle":
                print(f"{ticket} {event} = {outcome}")
                ticket += 1
        if ticket >= wanted:
            return


main(sys.argv[1], int(sys.argv[2]))
