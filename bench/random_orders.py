#!/usr/bin/env python3
"""Judges random histories of calls that overlap by `radixvm audit --overlapping`. A simulator makes them: each call takes effect on the plain page map at
a moment between its begin and its end, so each history has an order, and has to be called legal. They are of all kinds: 2 to 8 threads, one page or some,
single pages or ranges, files and private copies, mappings without an address, calls that are refused or find no memory, times in common.
Usage: bench/random_orders.py [HISTORIES [SEED [CALLS]]], 500, 0 and 300 where left out: so many calls at most; RADIXVM_PROGRAM names the program. With
BUSY=1 all have 8 threads on few pages, whose calls are hardly ever not under way: these are the hardest."""
import collections
import os
import pathlib
import random
import subprocess
import sys
import time

from plain_map import PAGE, File, Map, arguments

TOP = pathlib.Path(__file__).resolve().parent.parent
PROGRAM = os.environ.get("RADIXVM_PROGRAM", str(TOP / "crates/radixvm/out/radixvm"))
BASE = 0x10000
RIGHTS = ["rw-", "rw-", "rw-", "r--", "r-x", "rwx", "---", "-w-", "--x"]


class Shape:
    """What a history is like."""

    def __init__(self, choose, calls):
        is_busy = bool(os.environ.get("BUSY"))
        self.threads = 8 if is_busy else choose.randint(2, 8)
        self.pages = choose.choice([1, 2, 3] if is_busy else [1, 2, 3, 4, 6, 8, 12])
        self.most = min(choose.choice([1, 1, 2, 3, 4, 12]), self.pages)
        self.offsets = choose.choice([(0,), (0, 2048), (0, 1, 2048, 4095)])
        self.values = 256 if is_busy else choose.choice([2, 4, 256])
        self.files = choose.choice([0, 1, 1, 2])
        self.has_copies = choose.random() < 0.5
        self.is_placed = choose.random() < 0.3
        self.any_place = self.is_placed and choose.random() < 0.5
        self.accesses = choose.choice([0.4, 0.6, 0.8, 0.95])
        self.lacking = choose.choice([0, 0, 0.05, 0.2])
        self.refused = choose.choice([0, 0.03])
        self.width = choose.choice([2, 3] if is_busy else [1, 1, 3])
        self.has_ties = choose.random() < 0.3
        self.calls = calls if is_busy else min(calls, choose.choice([10, 30, 100, calls]))
        self.copies = choose.choice([0, 0.1, 0.4])


def access(choose, shape, address):
    at, kind = hex(address + choose.choice(shape.offsets)), choose.random()
    if kind < 0.45:
        return ["load", at]
    return ["store", at, str(choose.randrange(shape.values))] if kind < 0.9 else ["fetch", hex(address)]


def refused(choose, address, length, prot):
    return choose.choice([["munmap", hex(address + 1), length], ["munmap", hex(address), "0"], ["mprotect", hex(address + 7), length, prot],
                          ["mprotect", hex(address), "0", prot], ["mmap", hex(address), "0", prot, "pfa"],
                          ["mmap", hex(address), length, prot, "sf", "5", "0x0"], ["mmap", "0x800000000000", length, prot, "pfa"],
                          ["mmap", hex(address), length, prot, "sf", "5", "0x7"]])


def request(choose, shape):
    page = choose.randrange(shape.pages)
    address = BASE + page * PAGE
    if choose.random() < shape.accesses:
        return access(choose, shape, address)
    length, prot = str(choose.randint(1, min(shape.most, shape.pages - page)) * PAGE), choose.choice(RIGHTS)
    if choose.random() < shape.refused:
        return refused(choose, address, length, prot)
    kind = choose.random()
    if kind < 0.5:
        return ["munmap", hex(address), length] if kind < 0.25 else ["mprotect", hex(address), length, prot]
    back = choose.choice(["a"] + ["s"] * (shape.files > 0) + ["p", "p"] * (shape.files > 0 and shape.has_copies))
    fixed = "" if shape.is_placed and choose.random() < 0.5 else "f"
    if not fixed and choose.random() < 0.5:
        address = choose.choice([0, address + 5])
    if back == "a":
        return ["mmap", hex(address), length, prot, choose.choice("ps") + fixed + "a"]
    return ["mmap", hex(address), length, prot, back + fixed, str(choose.randrange(shape.files)), hex(choose.randrange(3) * PAGE)]


def copy(plain, words):
    """Gives a store's page its copy, where one is due."""
    page = plain.pages.get(int(words[1], 16) // PAGE)
    if page is None or "w" not in page.prot or not page.back or page.back[0] == "shared" or page.own is not None:
        return
    if plain.files[page.back[1]].byte(page.back[2] * PAGE) is not None:
        page.own = {offset: plain.shown(page, offset) for offset in range(PAGE)}


def effect(choose, shape, plain, core, words):
    """The reply to a call that takes effect now."""
    is_free = shape.any_place and words[0] == "mmap" and "f" not in words[4]
    wish = hex(BASE + choose.randrange(shape.pages + 2) * PAGE) if is_free else ""
    due, change = getattr(plain, words[0])(core, wish, *arguments(words[1:]))
    if choose.random() < shape.lacking:
        is_served = words[0] in ("load", "store", "fetch") and (due == "done" or due.isdigit())
        return "noframe" if is_served and choose.random() < 0.5 else "nomemory"
    change()
    return due


def files(choose, shape, plain):
    """The lines of the files."""
    for number in range(shape.files):
        mode, length = choose.choice(["rw", "rw", "rw", "r"]), choose.choice([PAGE, PAGE + 100, 2 * PAGE, 3 * PAGE])
        seed = choose.randrange(256)
        plain.files.append(File(mode, length, seed))
        yield f"file {number} {mode} {length} {seed}"


def history(choose, shape):
    """The lines of threads that are always busy."""
    plain, clock, made, lines, under = Map(shape.any_place), 0, 0, [], [None] * shape.threads
    head = [f"vm {shape.threads} 64", *files(choose, shape, plain)]
    while made < shape.calls or any(under):
        core = choose.randrange(shape.threads)
        clock += choose.randrange(2) if shape.has_ties else 1
        if under[core] is None:
            if made < shape.calls:
                under[core], made = [clock, request(choose, shape), None], made + 1
            continue
        begin, words, reply = under[core]
        if reply is None and words[0] == "store" and choose.random() < shape.copies:
            copy(plain, words)
        elif reply is None:
            under[core][2] = effect(choose, shape, plain, core, words)
        elif choose.randrange(shape.width) == 0:
            clock = max(clock, begin + 1)
            lines.append(f"{begin} {clock} c{core}! {' '.join(words)} = {reply}")
            under[core] = None
            clock += shape.has_ties  # the next call of this core begins behind it
    choose.shuffle(lines)
    return head, lines


def main():
    count, calls = (int(sys.argv[at]) if len(sys.argv) > at else usual for at, usual in ((1, 500), (3, 300)))
    seed = sys.argv[2] if len(sys.argv) > 2 else "0"
    told = collections.Counter()
    for number in range(count):
        choose = random.Random(f"{seed} {number}")
        shape = Shape(choose, calls)
        head, lines = history(choose, shape)
        words, text = ["--any-place"] if shape.any_place else [], "\n".join(head + lines) + "\n"
        start = time.time()
        done = subprocess.run([PROGRAM, "audit", "--overlapping", *words], input=text, capture_output=True, text=True)
        if done.returncode not in (0, 4):
            sys.exit(f"{done.stdout}{done.stderr}\n{text}")
        told[done.returncode] += 1
        if done.returncode:
            print(f"history {number} of seed {seed}: {done.stdout.strip()}, in {time.time() - start:.1f} s; {vars(shape)}", flush=True)
    print(f"{count} histories with an order: {told[0]} legal, {told[3]} undecided")
    sys.exit(told[3] != 0)


if __name__ == "__main__":
    main()
