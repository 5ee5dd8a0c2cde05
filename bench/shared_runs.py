#!/usr/bin/env python3
"""Random scripts, run by `live --one-machine`: of each core the lines of what it was told have to be the script's calls, in their order, and the
log's lines of that core; where no reply is that no frame was free, `audit --any-place` has to find the log legal, and so has
bench/plain_map.py. Beside them the scripts that are named.
Usage: shared_runs.py PROGRAM SCRIPTS [SEED [SCRIPT..]]"""
import random
import re
import sys

from audit_traces import FIRST_SEED, TRACES, request, run
from plain_map import judge

CALLS = 200


def script(rng):
    """A script of some cores, a line in ten of which is no call."""
    cores = rng.choice([1, 2, 3, 4, 8, 64])
    head = [f"vm {cores} {rng.choice([2, 16, 4096])}", "file 0 rw 5000 7", "file 1 r 4096 0", "file 2 w 4096 9"]
    lines = [f"c{rng.randrange(min(cores, 8))}{rng.choice(['! ' + request(rng)] * 9 + [' flush', ' review'])}" for _ in range(CALLS)]
    return head + lines


def words_of(call):
    """The core and the words of a call, each number as a number, and the file and offset that may be left out."""
    words = [str(int(word, 0)) if re.fullmatch(r"0x[0-9a-f]+|[0-9]+", word) else word for word in call.split()]
    if len(words) == 6 and words[1] == "mmap":
        words += ["0", "0"]
    if words[1] == "mmap":
        words[5] = "".join(letter for letter in "psfa" if letter in words[5]) or "-"
    return words


def calls_of(core, lines):
    """A core's calls, as words."""
    return [words_of(line) for line in lines if line.startswith(f"c{core}! ")]


def check(name, lines):
    """Runs a script, and compares what came out. Answers how many calls it has, and whether cores took turns."""
    cores = int(next(line for line in lines if line.startswith("vm ")).split()[1])
    out = run(["live", "--one-machine"], "\n".join(lines) + "\n")
    told = [line[2:] for line in out if line.startswith("# ")]
    rest = [line for line in out if not line.startswith("# ")]
    log = [line for line in rest if "! " in line]
    if out != rest[: len(rest) - len(log)] + ["# " + line for line in told] + log:
        sys.exit(f"{name}: lines stand elsewhere")
    if told != sorted(told, key=lambda line: int(line[1 : line.index("!")])):
        sys.exit(f"{name}: not in order of cores")
    for core in range(cores):
        mine = [line for line in told if line.startswith(f"c{core}! ")]
        if mine != [line for line in log if line.startswith(f"c{core}! ")]:
            sys.exit(f"{name}: core {core} was told other replies than the log's")
        if calls_of(core, lines) != [words_of(line.rpartition(" = ")[0]) for line in mine]:
            sys.exit(f"{name}: core {core} made other calls than the script's")
    if len(log) != sum("! " in line for line in lines if not line.startswith("#")):
        sys.exit(f"{name}: {len(log)} calls")
    # A plain page map never wants for frames.
    if not any(line.endswith(" = noframe") for line in log):
        said = run(["audit", "--any-place"], "\n".join(out) + "\n")
        if said != [f"legal {len(log)}"] or judge(rest, True) != said:
            sys.exit(f"{name}: {said}\n" + "\n".join(out))
    return len(log), log != told


def main():
    calls = turns = 0
    for seed in range(FIRST_SEED, FIRST_SEED + TRACES):
        made, took = check(f"seed {seed}", script(random.Random(seed)))
        calls, turns = calls + made, turns + took
    for name in sys.argv[4:]:
        with open(name, encoding="ascii") as file:
            check(name, file.read().splitlines())
    print(f"{TRACES} random scripts and {len(sys.argv[4:])} more, {calls} calls of the random ones: all told as logged, and legal; in {turns} cores took turns")


if __name__ == "__main__":
    main()
