#!/usr/bin/env python3
"""Random traces, given to a command and to ./radixvm run, which must write the same.
Usage: lists.py ROUNDS PROGRAM COMMAND WORD..; with `steps` last only lines that are one event, with `log` beside run --log."""
import random
import subprocess
import sys

rounds, program, command = int(sys.argv[1]), sys.argv[2], sys.argv[3:]
by_steps = "steps" in command
words = ["run", "--log"] if "log" in command else ["run"]


def request(rng):
    at = rng.choice([0x10000, 0x11000, 0x12000, 0x3FF000, 0x400000, 0x8000000000, 0, 0x7FFFFFFFF000, 0x10001])
    at += rng.choice([0, 0, 0, 1, 7, 4096])
    size = rng.choice([1, 4096, 8192, 12288, 0, 2**63, 2**47, 5000])
    prot = "".join(rng.choice([c, c, "-"]) for c in "rwx")
    flags = "".join(c for c in "psfa" if rng.random() < (0.5, 0.3, 0.6, 0.7)["psfa".index(c)]) or "-"
    file = "" if "a" in flags and rng.random() < 0.5 else f" {rng.choice([0, 0, 1, 2])} {rng.choice([0, 4096, 1])}"
    return rng.choice(
        [f"mmap {at:#x} {size} {prot} {flags}{file}"] * 3
        + [f"munmap {at:#x} {size}", f"mprotect {at:#x} {size} {prot}"]
        + [f"load {at:#x}", f"fetch {at:#x}", f"store {at:#x} {rng.randrange(256)}"] * 2
    )


def line(rng, cores):
    core, page = rng.randrange(cores + 1 if cores < 64 else cores), rng.choice([0x10000, 0x11000, 0x400000, 0, 0x8000000000])
    whole = [] if by_steps else [f"c{core}! {request(rng)}"] * 8 + [f"c{core} finish"] * 6
    return rng.choice(
        whole
        + [f"c{core} call {request(rng)}"] * (3 if by_steps else 1)
        + [f"c{core} go"] * (12 if by_steps else 3)
        + [f"c{core} take"] * 3
        + [f"c{core} {word}" for word in ("flush", "review", "whole", "giveup")]
        + [f"c{core} frame {rng.randrange(5)}", f"c{core} guess {page:#x}", f"c{core} walk {page:#x}", f"c{core} evict {page:#x}", f"fold {page:#x}"]
    )


for seed in range(rounds):
    rng = random.Random(seed)
    cores = rng.choice([1, 2, 3, 64])
    head = [f"vm {cores} {rng.choice([0, 1, 4, 50])} {rng.choice([5, 4096])}", "file 0 rw 5000 7", "file 1 r 4096 0"]
    lines = head + [line(rng, min(cores, 4)) for _ in range(400)]
    # a core past the last is bad to the program's reader where it is above 63 alone
    trace = "\n".join(lines) + "\n"
    ours = subprocess.run(command, input=trace, capture_output=True, text=True, timeout=60)
    theirs = subprocess.run([program, *words], input=trace, capture_output=True, text=True, timeout=120)
    if (ours.stdout, ours.returncode) != (theirs.stdout, theirs.returncode) or ours.stdout.count("\n") - ours.stdout.count("log ") != 400:
        print(f"seed {seed}: {ours.returncode} {ours.stderr!r}, {theirs.returncode} {theirs.stderr!r}")
        for number, (a, b, said) in enumerate(zip(ours.stdout.splitlines(), theirs.stdout.splitlines(), lines[3:])):
            if a != b:
                print(f"line {number + 4}, {said}: {a}, expected {b}")
                break
        sys.exit(1)
print(f"{rounds} random traces of 400 events, the same text: {' '.join(command[1:]) or 'one batch'}")
