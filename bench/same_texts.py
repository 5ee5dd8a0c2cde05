#!/usr/bin/env python3
"""Tells whether two programs write the same, byte for byte, with the same status: for all examples, for each shape of make_shape.sh at a tenth of its
lines, and for random traces, whose text goes through each word: run with its flags, maps, live --certify, certify (of notes that the first
program's threads wrote), audit (of the replies of run --echo, as they are and with one changed), import (of a log in strace's form with the same
calls), and picture. Usage: same_texts.py ONE OTHER [TRACES [SEED]], 300 and 0 where left out."""
import concurrent.futures
import os
import pathlib
import random
import re
import subprocess
import sys
import tempfile

TOP = pathlib.Path(__file__).resolve().parent.parent
ONE, OTHER = sys.argv[1:3]
TRACES = int(sys.argv[3]) if len(sys.argv) > 3 else 300
SEED = int(sys.argv[4]) if len(sys.argv) > 4 else 0
PAGES = [0x10000, 0x11000, 0x12000, 0x13000, 0x1FF000, 0x200000, 0x8000000000, 0x8000001000, 0x10000000000]
REPLAYS = [["run"], ["run", "--log"], ["run", "--echo"], ["run", "--brief"], ["run", "--summary"], ["maps"], ["picture"], ["picture", "--steps"], ["picture", "--lives"]]


def request(rng, files):
    page = rng.choice(PAGES)
    at = page + rng.choice([0, 0, 1, 903, 904, 4095])
    change = rng.choice([page] * 9 + [page + 1, 0, 0x7FFFFFFFF000, 0x800000000000])
    length = rng.choice([4096, 4096, 8192, 5000, 16384, 2**21] * 4 + [0, 2**47, 2**63])
    prot = rng.choice(["rw-"] * 4 + ["".join(rng.choice([c, "-"]) for c in "rwx")])
    flags = rng.choice(["p"] * 5 + ["s"] * 5 + ["ps", ""]) + rng.choice(["f", "f", ""]) + rng.choice(["a", ""] if files else ["a"]) or "-"
    file = "" if "a" in flags else f" {rng.choice([0, 0, 0, 1, 2, 3])} {rng.choice([0, 0, 4096, 4096, 8192, 1, 2**47])}"
    place = rng.choice([change, 0]) if "f" not in flags else change
    return rng.choice(
        [f"mmap {place:#x} {length} {prot} {flags}{file}"] * 3
        + [f"munmap {change:#x} {rng.choice([length, length, 2**39])}", f"mprotect {change:#x} {length} {prot}"]
        + [f"load {at:#x}", f"store {at:#x} {rng.randrange(256)}"] * 3
        + [f"fetch {at:#x}"]
    )


def event(rng, cores):
    core, page = rng.randrange(cores), rng.choice(PAGES)
    steps = [f"c{core} finish", f"c{core} take", f"c{core} take", f"c{core} go", f"c{core} call {request(rng, True)}"] if cores > 1 else [f"c{core} go"]
    rest = [f"c{core} {word}" for word in ("flush", "review", "giveup", "frame 3", f"walk {page:#x}", f"evict {page:#x}")] + [f"fold {page:#x}"]
    bad = ["c0! frob", "c99! load 0", "", "# a comment", "c0  go", "c1 take now", "x" * 260] if rng.random() < 0.01 else []
    return rng.choice(bad or [f"c{core}! {request(rng, True)}"] * 10 + steps * 5 + rest)


def trace(rng):
    cores = rng.choice([1, 2, 3, 64])
    frames = rng.choice([2, 16, 4096])
    head = [f"vm {cores} {frames}", "file 0 rw 5000 7", "file 1 r 4096 0", "file 2 w 4096 9"]
    return "\n".join(head + [event(rng, min(cores, 4)) for _ in range(rng.choice([20, 100, 300]))]) + "\n"


def script(rng):
    cores = rng.choice([1, 2, 4])
    head = [f"vm {cores} {rng.choice([16, 4096])}", "file 0 rw 5000 7", "file 1 r 4096 0", "file 2 w 4096 9"]
    tasks = [rng.choice([f"c{rng.randrange(cores)}! {request(rng, True)}"] * 8 + [f"c{rng.randrange(cores)} flush", f"c{rng.randrange(cores)} review"]) for _ in range(60)]
    return "\n".join(head + tasks) + "\n"


def log(rng):
    """Calls as strace writes them."""
    rights = ["PROT_NONE", "PROT_READ", "PROT_READ|PROT_WRITE", "PROT_READ|PROT_EXEC"]
    lines = ['7 execve("./a", ["./a"], 0x7ffc /* 3 vars */) = 0']
    for _ in range(80):
        pid, at, size = rng.choice([7, 7, 8]), rng.choice(PAGES), rng.choice([4096, 8192, 5000])
        flags = "MAP_PRIVATE" + rng.choice(["|MAP_FIXED", ""]) + "|MAP_ANONYMOUS"
        file = rng.random() < 0.3
        kinds = [f"mmap({at:#x}, {size}, {rng.choice(rights)}, {flags}, -1, 0) = {at:#x}"] * 3
        kinds += [f"munmap({at:#x}, {size}) = 0", f"mprotect({at:#x}, {size}, {rng.choice(rights)}) = 0", f"brk(NULL) = {0x5568290e4000:#x}"]
        kinds += [f"mprotect({at:#x}, {size}, PROT_READ) = -1 ENOMEM (Cannot allocate memory)", f"brk({0x5568290e4000 + size:#x}) = {0x5568290e4000 + size:#x}"]
        kinds += [f"mremap({at:#x}, {size}, 16384, MREMAP_MAYMOVE) = {at + 2**21:#x}", f"madvise({at:#x}, {size}, MADV_DONTNEED) = 0"]
        kinds += ["clone(child_stack=0x7f, flags=CLONE_VM|CLONE_THREAD) = 8", "+++ exited with 0 +++" if pid == 8 else "getpid() = 7", "what is this"]
        if file:
            kinds = [f"mmap({at:#x}, {size}, PROT_READ, MAP_PRIVATE|MAP_FIXED, 3</usr/lib/a.so>, 0x1000) = {at:#x}"]
        lines.append(f"{pid} {rng.choice(kinds)}")
    return "\n".join(lines) + "\n"


def ran(program, words, text):
    done = subprocess.run([program, *words], input=text.encode(), capture_output=True, timeout=300, cwd=TOP)
    return done.returncode, done.stdout, done.stderr


def compare(name, words, text):
    one, other = ran(ONE, words, text), ran(OTHER, words, text)
    if one != other:
        with tempfile.NamedTemporaryFile("w", suffix=".text", delete=False) as kept:
            kept.write(text)
        return f"{name}: {' '.join(words)} differs on {kept.name}: {one[0]} {one[2][:200]} and {other[0]} {other[2][:200]}"
    return None


def changed(rng, lines):
    places = [at for at, said in enumerate(lines) if " = " in said and not said.endswith((" = step", " = idle")) and " = wait" not in said]
    if not places:
        return lines
    at = rng.choice(places)
    other = rng.choice(["done", "bus", "einval", "enomem", "segv maperr", "0", "17", hex(rng.choice(PAGES))])
    return lines[:at] + [lines[at].rpartition(" = ")[0] + " = " + other] + lines[at + 1 :]


def one_trace(seed):
    rng, told = random.Random(seed), []
    text, tasks, calls = trace(rng), script(rng), log(rng)
    for words in REPLAYS:
        told.append(compare(f"seed {seed}", words, text))
    echoed = ran(ONE, ["run", "--echo"], text)[1].decode().split("\n")
    replies = [said for said in echoed if not (said.endswith(" = idle") and ("! " in said or " finish" in said))]
    for lines in (replies, changed(rng, replies)):
        for words in (["audit"], ["audit", "--any-place"]):
            told.append(compare(f"seed {seed}", words, "\n".join(lines)))
    told.append(compare(f"seed {seed}", ["live", "--certify"], tasks))
    notes = ran(ONE, ["live"], tasks)[1].decode()
    told.append(compare(f"seed {seed}", ["certify"], notes))
    told.append(compare(f"seed {seed}", ["certify"], notes.replace(" = done", " = bus", 1)))
    told.append(compare(f"seed {seed}", ["certify"], re.sub(r"\n5 c", "\n6 c", notes, count=1)))
    told.append(compare(f"seed {seed}", ["import"], calls))
    return len(told), [line for line in told if line]


def examples():
    for path in sorted((TOP / "examples").glob("**/*")):
        if path.suffix in (".trace", ".notes", ".script", ".replies", ".log", ".maps"):
            text = path.read_text()
            for words in [*REPLAYS, ["live", "--certify"], ["certify"], ["audit"], ["audit", "--any-place"], ["import"], ["import", "--lackey"]]:
                yield compare(path.name, words, text)
    for topic in [[], *([topic] for topic in "import audit picture trace outcomes log maps faults cores notes threads none".split())]:
        yield compare("help", ["help", *topic], "")
    for words in (["--version"], ["-h"], ["frob"], ["run", "none.trace"], ["run", "--frob"], []):
        yield compare("words", words, "")


def shapes():
    for line in subprocess.run([TOP / "bench/make_shape.sh"], capture_output=True, text=True).stdout.strip().split("\n"):
        name, lines = line.split()[:2]
        text = subprocess.run([TOP / "bench/make_shape.sh", name, str(int(lines) // 10)], capture_output=True, text=True).stdout
        for words in (["run"], ["run", "--log"], ["maps"], ["run", "--summary"]):
            yield compare(name, words, text)


def main():
    count, bad = 0, []
    for told in (*examples(), *shapes()):
        count += 1
        bad += [told] if told else []
    with concurrent.futures.ThreadPoolExecutor(os.cpu_count()) as pool:
        for many, lines in pool.map(one_trace, range(SEED, SEED + TRACES)):
            count += many
            bad += lines
    print("\n".join(bad[:20]))
    print(f"{count} texts, {len(bad)} differ; {TRACES} random traces from seed {SEED}")
    sys.exit(1 if bad else 0)


main()
