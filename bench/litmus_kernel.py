#!/usr/bin/env python3
"""Runs litmus tests on the kernel of this machine: `radixvm litmus --to-c` writes each as a C program, which is compiled and run, and its counts go to
`litmus --observed`. The tests are those of examples/litmus, and an munmap of 2, 512 and 2048 pages against loads of the first and the last one. What a
kernel does is its own affair: a test is wrong only where a part of this chain is, as where runs are lost, or a count is judged otherwise than by the list.
Usage: bench/litmus_kernel.py [RUNS], 20000 where left out; RADIXVM_PROGRAM names the program, CC the compiler."""
import os
import pathlib
import re
import subprocess
import sys
import tempfile

TOP = pathlib.Path(__file__).resolve().parent.parent
PROGRAM = os.environ.get("RADIXVM_PROGRAM", str(TOP / "crates/radixvm/out/radixvm"))
CC = os.environ.get("CC", "cc")
BASE, PAGE = 0x10000, 4096


def wide(pages):
    """An munmap of so many pages, each of which was stored to, against loads of the first and the last one."""
    last = hex(BASE + (pages - 1) * PAGE)
    stores = "".join(f"c0! store {BASE + k * PAGE:#x} {1 if k == 0 else 2 if k == pages - 1 else 9}\n" for k in range(pages))
    return (f"vm 2 {4 * pages + 16}\nc0! mmap {BASE:#x} {pages * PAGE} rw- pfa\n{stores}c1! load {BASE:#x}\nc1! load {last}\ntogether\n"
            f"c0! munmap {BASE:#x} {pages * PAGE}\nc1! load {BASE:#x}\nc1! load {last}\n")


def listed(path):
    """The outcomes that the program lists."""
    out = subprocess.run([PROGRAM, "litmus", path], capture_output=True, text=True, check=False).stdout
    return {line.split(": ", 1)[1] for line in out.split("\n") if re.match(r"\d+: ", line)}


def check(name, text, runs, folder):
    """What is wrong with the chain for a test; prints what the kernel did."""
    test, source, binary, counts = (folder / f"{name}{ending}" for ending in (".litmus", ".c", "", ".counts"))
    test.write_text(text)
    made = subprocess.run([PROGRAM, "litmus", "--to-c", test], capture_output=True, text=True, check=False)
    if made.returncode or made.stderr:
        return f"--to-c: status {made.returncode}: {made.stderr}"
    source.write_text(made.stdout)
    built = subprocess.run([CC, "-O2", "-Wall", "-Wextra", "-Werror", "-pthread", source, "-o", binary], capture_output=True, text=True, check=False)
    if built.returncode:
        return f"{CC}: {built.stderr}"
    ran = subprocess.run([binary, str(runs)], capture_output=True, text=True, check=False, timeout=600)
    if ran.returncode:
        return f"the program ends with {ran.returncode}: {ran.stderr}"
    counts.write_text(ran.stdout)
    judged = subprocess.run([PROGRAM, "litmus", "--observed", counts, test], capture_output=True, text=True, check=False)
    lines = [line for line in judged.stdout.split("\n") if re.match(r"\d+: ", line)]
    print(f"{name}, {runs} runs:", "; ".join(f"[{line}]" for line in lines))
    outcomes = listed(test)
    due = [line + ("" if line.split(": ", 1)[1] in outcomes else " (outside)") for line in ran.stdout.rstrip("\n").split("\n")]
    if lines != due:
        return f"judged {lines}, due {due}"
    if judged.returncode != any(line.endswith(" (outside)") for line in due) or judged.stderr:
        return f"--observed: status {judged.returncode}: {judged.stderr}"
    total = sum(int(line.split(": ")[0]) for line in due)
    return None if total == runs else f"{total} outcomes of {runs} runs"


def main():
    runs = int(sys.argv[1]) if len(sys.argv) > 1 else 20000
    tests = [(path.stem, path.read_text(), runs) for path in sorted((TOP / "examples/litmus").glob("*.litmus"))]
    tests += [(f"unmap-{pages}-pages", wide(pages), max(runs // pages, 20)) for pages in (2, 512, 2048)]
    bad = 0
    with tempfile.TemporaryDirectory() as folder:
        for name, text, count in tests:
            if wrong := check(name, text, count, pathlib.Path(folder)):
                bad += 1
                print(f"{name}: {wrong}")
    print(f"{len(tests)} tests, {bad} wrong")
    sys.exit(bad != 0)


if __name__ == "__main__":
    main()
