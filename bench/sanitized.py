#!/usr/bin/env python3
"""Runs threads under ThreadSanitizer: random scripts of two to eight threads by `live --certify`, on few frames, shared files and pages that all change.
It keeps the text of the program's module as bench/unproved.py does, unproved, and has clang instrument each function of it (`sanitize_thread`). The
steps on the word of tickets are made relaxed, so that locks alone order what threads do: then no run may be reported, and each is certified. After
that the locks are hidden (their steps are made relaxed too), and one of the first scripts has to be reported. Relaxed steps are the same instructions
of x86-64 but for stores, so the program works in both. It wants gcc with its libtsan, and `setarch`.
Usage: bench/sanitized.py [SCRIPTS [SEED]], 300 and 0 where left out
"""
import pathlib
import random
import re
import subprocess
import sys
import tempfile

from unproved import CLANG, KIT, TOP, kept_module, without_checks

# The functions that step on a word that is shared: those of locks, and those of the word of tickets.
LOCKS, WORD = "core::sync::", "core::raw_atomic::"
FIRST = 10  # so many scripts at most until a hidden lock is reported
TASKS = 30


def with_relaxed(lines, names):
    """The lines of a module whose atomic steps are relaxed in functions of these names; and how many were."""
    made, inside, count = [], False, 0
    for line in lines:
        if line.startswith("define"):
            inside = re.search(r'@"?([^"(]*)', line)[1].startswith(names)
        elif inside and re.search(r"\b(cmpxchg|atomicrmw|load atomic|store atomic)\b", line):
            line, count = re.sub(r"seq_cst( seq_cst)?", lambda both: "monotonic monotonic" if both[1] else "monotonic", line), count + 1
        made.append(line)
    return made, count


def program(lines, names, out, work):
    """The instrumented program of a module's lines, with the steps relaxed of functions of these names."""
    lines, count = with_relaxed(lines, names)
    if not count:
        sys.exit(f"bench/sanitized.py: the module has no step of {names}")
    text, compiled = work / "module.ll", work / "program.o"
    text.write_text("".join(re.sub(r"^(define .*\)[^\n{]*)\{", r"\1sanitize_thread {", line) for line in lines) + "\ndeclare void @llvm.assume(i1 noundef)\n")
    words = ["--target=x86_64-unknown-linux-gnu", "-fsanitize=thread", "-O1", "-fPIC", "-Wno-override-module", "-c", "-x", "ir"]
    subprocess.run([CLANG, *words, text, "-o", compiled], check=True)
    shim = TOP / "bindings/c/tsan.c"
    subprocess.run(["gcc", "-O1", "-fno-builtin", "-fsanitize=thread", shim, compiled, KIT / "c/libos_c.a", KIT / "c/liblibc_c.a", "-lm", "-o", out], check=True)
    return count


def task(rng):
    """One thing that a core does, mostly on the same few pages as the others."""
    page = rng.choice([0x10000, 0x11000, 0x12000, 0x1FF000, 0x200000, 0x8000000000])
    at, length = page + rng.choice([0, 1, 904, 4095]), rng.choice([4096, 4096, 8192, 16384, 2**21])
    prot = rng.choice(["rw-"] * 4 + ["r--", "---", "rwx"])
    kind = rng.choice(["pfa", "sfa", "pf", "sf", "pa"])
    file = "" if "a" in kind else f" {rng.choice([0, 0, 1])} {rng.choice([0, 0, 4096])}"
    return rng.choice(
        [f"! mmap {page if 'f' in kind else 0:#x} {length} {prot} {kind}{file}"] * 4
        + [f"! munmap {page:#x} {length}"] * 2
        + [f"! mprotect {page:#x} {length} {prot}"]
        + [f"! load {at:#x}", f"! store {at:#x} {rng.randrange(256)}"] * 4
        + [f"! fetch {at:#x}", " flush", " flush", " review"]
    )


def script(seed):
    """A script of two to eight cores, each of which does so many tasks."""
    rng = random.Random(seed)
    cores = rng.choice([2, 3, 4, 8])
    head = [f"vm {cores} {rng.choice([1, 2, 3, 8, 4096])}", "file 0 rw 5000 7", "file 1 rw 8192 9"]
    return "\n".join(head + [f"c{core}{task(rng)}" for _ in range(TASKS) for core in range(cores)]) + "\n"


def run(out, seed):
    """What the program says of a script, and whether ThreadSanitizer reports a race."""
    words = ["setarch", "-R", out, "live", "--certify"]
    ran = subprocess.run(words, input=script(seed), capture_output=True, text=True, timeout=600, env={"TSAN_OPTIONS": "exitcode=66"})
    return ran.stdout, ran.stderr, "data race" in ran.stderr or ran.returncode == 66


def main():
    if len(sys.argv) > 3:
        sys.exit(__doc__)
    count = int(sys.argv[1]) if len(sys.argv) > 1 else 300
    first = int(sys.argv[2]) if len(sys.argv) > 2 else 0
    with tempfile.TemporaryDirectory() as folder:
        work = pathlib.Path(folder)
        text, _ = kept_module(TOP / "crates/radixvm", work)
        lines = list(without_checks(text.open(), {}))
        draws = program(lines, (WORD,), work / "seen", work)
        hidden = program(lines, (WORD, LOCKS), work / "hidden", work) - draws
        for seed in range(first, first + count):
            said, errors, is_reported = run(work / "seen", seed)
            if is_reported or errors or not said.startswith("certified "):
                sys.exit(f"bench/sanitized.py: script {seed}: {said}{errors}")
        print(f"{count} scripts of two to eight threads are certified, and ThreadSanitizer reports nothing; {draws} steps on words are relaxed")
        for tried in range(FIRST):
            if run(work / "hidden", first + tried)[2]:
                print(f"with {hidden} steps of locks hidden it reports a race, at script {tried + 1} of {FIRST}")
                return
        sys.exit("bench/sanitized.py: ThreadSanitizer sees no race where the locks are hidden")


if __name__ == "__main__":
    main()
