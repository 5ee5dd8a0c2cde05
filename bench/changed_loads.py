#!/usr/bin/env python3
"""Judges long histories of calls that overlap, in each of which one load's byte was changed to one that nobody stored, by
`radixvm audit --overlapping`: each has no order, and has to be told so, with no more than a few lines.
Usage: bench/changed_loads.py [CALLS [HISTORIES]], 400000 and 30 where left out; RADIXVM_PROGRAM names the program. THREADS is 4 where it isn't given, and
PAGES 8; with FILES=1 half of the mappings are of a file. RULE is one more word of `audit`, as --kernel."""
import collections
import os
import random
import sys

from overlapping import history, judge


def main():
    calls, histories = (int(sys.argv[at]) if len(sys.argv) > at else usual for at, usual in ((1, 400_000), (2, 30)))
    threads, pages, has_files = int(os.environ.get("THREADS", "4")), int(os.environ.get("PAGES", "8")), bool(os.environ.get("FILES"))
    rule = os.environ.get("RULE", "").split()
    told = collections.Counter()
    for seed in range(histories):
        lines = history(seed, threads, calls, pages, has_files)
        loads = [at for at, line in enumerate(lines) if "! load" in line and line.split(" = ")[1].isdigit()]
        at = random.Random(seed).choice(loads)
        front, byte = lines[at].split(" = ")
        changed = lines[:at] + [f"{front} = {(int(byte) + 101) % 256}"] + lines[at + 1:]
        text, status, took, errors = judge("\n".join(changed) + "\n", "--overlapping", *rule)
        told[status] += 1
        if status == 0:
            sys.exit(f"seed {seed}: line {at + 1} was changed, and the history is called legal")
        print(f"seed {seed}, line {at + 1} changed: {text} in {took:.1f} s {errors.strip()}", flush=True)
    print(f"{histories} changed loads: {told[1]} told to have no order, {told[3]} undecided")


if __name__ == "__main__":
    main()
