#!/usr/bin/env python3
"""Prints by which rule of `radixvm audit --overlapping` the kernel that it runs on answers calls of 4 threads that overlap: a table of how many recorded
histories are legal by each rule. Of each kind that isn't legal it prints the shortest answer of the program, one that shows calls without an order if it can.
Usage: examples/kernel/rules.py [RUNS [CALLS]], 20 and 2000 (of each thread) where left out. The program is the one that ../program.sh finds."""
import pathlib
import subprocess
import sys
import tempfile

TOP = pathlib.Path(__file__).resolve().parent.parent.parent
PROGRAM = subprocess.run([TOP / "examples" / "program.sh"], stdout=subprocess.PIPE, text=True, check=True).stdout.strip()
RULES = [("at one moment", []), ("kernel", ["--kernel"])]
# what is recorded, and kernel.c's words after its THREADS and CALLS
MIXES = [("pages, mapped and protected", ["8", "0"]), ("pages, unmapped too", ["2", "1"]), ("ranges of up to 8 pages", ["8", "8"])]


def judged(history, flags):
    done = subprocess.run([PROGRAM, "audit", "--overlapping", *flags], input=history, capture_output=True, text=True)
    if not done.stdout.startswith(("legal", "no order", "undecided")):
        sys.exit(f"{done.stdout}{done.stderr}")
    return done.stdout


def main():
    runs, calls = (int(sys.argv[at]) if len(sys.argv) > at else usual for at, usual in ((1, 20), (2, 2000)))
    with tempfile.TemporaryDirectory() as folder:
        kernel = f"{folder}/kernel"
        source = TOP / "examples/kernel/kernel.c"
        subprocess.run(["cc", "-O2", "-pthread", "-I", TOP / "include", "-o", kernel, source], check=True)
        legal, shortest = {}, {}
        for mix, words in MIXES:
            for seed in range(1, runs + 1):
                history = subprocess.run([kernel, "4", str(calls), *words, str(seed)], capture_output=True, text=True, check=True).stdout
                for rule, flags in RULES:
                    said = judged(history, flags)
                    legal[mix, rule] = legal.get((mix, rule), 0) + said.startswith("legal")
                    if not said.startswith("legal"):
                        shortest[mix, rule] = min(shortest.get((mix, rule), said), said, key=lambda text: (text.count("\n") < 2, len(text)))
    width = max(len(mix) for mix, _ in MIXES)
    print(" " * width, *(f"{rule:>16}" for rule, _ in RULES))
    for mix, _ in MIXES:
        print(f"{mix:{width}}", *(f"{f'{legal[mix, rule]} of {runs} legal':>16}" for rule, _ in RULES))
    for (mix, rule), said in shortest.items():
        print(f"\n{mix}, {rule}:\n{said}", end="")


if __name__ == "__main__":
    main()
