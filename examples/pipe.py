#!/usr/bin/env python3
"""The program at the other end of a pipe: a line in, its reply out, and many lines at once. The program is the one that program.sh finds."""

import pathlib
import subprocess

found = subprocess.run([pathlib.Path(__file__).resolve().parent / "program.sh"], stdout=subprocess.PIPE, text=True, check=True)
program = subprocess.Popen([found.stdout.strip(), "run"], stdin=subprocess.PIPE, stdout=subprocess.PIPE, text=True)


def tell(*lines):
    program.stdin.write("".join(line + "\n" for line in lines))
    program.stdin.flush()


def ask(*lines):
    """The replies to some lines of events. A pipe holds only so much: ask for a thousand at once, not for a million."""
    tell(*lines)
    return [program.stdout.readline().rstrip("\n") for _ in lines]


tell("vm 1 4")  # no event, so no reply
print(*ask("c0! mmap 0x10000 4096 rw- pfa"))
print(*ask(*(f"c0! store {0x10000 + i} {i}" for i in range(4)), "c0! load 0x10003"))
program.stdin.close()
print("status", program.wait())
