#!/usr/bin/env python3
"""Judges histories of calls that overlap by `radixvm audit --overlapping`: random ones that a simulator makes from the plain map, so that they have
an order, the same with a changed byte of a load, and how fast they are judged. What is told as legal is judged again by its order, with --given.
Usage: bench/overlapping.py [CALLS [SEEDS]]; RADIXVM_PROGRAM names the program."""
import os
import pathlib
import random
import subprocess
import sys
import tempfile
import time

TOP = pathlib.Path(__file__).resolve().parent.parent
PROGRAM = os.environ.get("RADIXVM_PROGRAM", str(TOP / "crates/radixvm/out/radixvm"))
PAGE = 4096
BASE = 0x10000
FILE = PAGE * 2


class Map:
    """The plain page map: what each page is mapped to, and its bytes."""

    def __init__(self):
        self.pages = {}
        self.file = {}

    def file_byte(self, page, offset):
        at = page * PAGE + offset
        return self.file.get(at, (195 + at) % 256 if at < FILE else 0)

    def byte(self, page, offset):
        kind, at, _, own = self.pages[page]
        if kind == "a":
            return own.get(offset, 0)
        if kind == "p" and own is not None:
            return own[offset]
        return self.file_byte(at, offset) if at * PAGE < FILE else None

    def copy(self, page):
        """A private page's copy, if one is due."""
        entry = self.pages.get(page)
        if entry and entry[0] == "p" and entry[3] is None and "w" in entry[2] and entry[1] * PAGE < FILE:
            entry[3] = [self.file_byte(entry[1], offset) for offset in range(PAGE)]

    def access(self, what, addr, value):
        page, offset = addr // PAGE, addr % PAGE
        if page not in self.pages:
            return "segv maperr"
        prot = self.pages[page][2]
        if not {"load": prot != "---", "store": "w" in prot, "fetch": "x" in prot}[what]:
            return "segv accerr"
        byte = self.byte(page, offset)
        if byte is None:
            return "bus"
        if what != "store":
            return str(byte)
        self.copy(page)
        kind, at, _, own = self.pages[page]
        if kind == "s":
            self.file[at * PAGE + offset] = value
        else:
            own[offset] = value
        return "done"

    def call(self, request):
        words = request.split()
        if words[0] in ("load", "store", "fetch"):
            return self.access(words[0], int(words[1], 0), int(words[2]) if len(words) > 2 else 0)
        first, count = int(words[1], 0) // PAGE, int(words[2]) // PAGE
        pages = range(first, first + count)
        if words[0] == "munmap":
            for page in pages:
                self.pages.pop(page, None)
            return "done"
        if words[0] == "mprotect":
            if any(page not in self.pages for page in pages):
                return "enomem"
            for page in pages:
                self.pages[page][2] = words[3]
            return "done"
        for number, page in enumerate(pages):
            if "a" in words[4]:
                self.pages[page] = ["a", 0, words[3], {}]
            else:
                self.pages[page] = [words[4][0], int(words[6], 0) // PAGE + number, words[3], None]
        return words[1]


def request(choose, pages, has_files=True):
    page = choose.randrange(pages)
    addr = BASE + page * PAGE
    kind = choose.random()
    if kind < 0.35:
        return f"load {addr + 2048 * choose.randrange(2):#x}"
    if kind < 0.6:
        return f"store {addr + 2048 * choose.randrange(2):#x} {choose.randrange(256)}"
    if kind < 0.65:
        return f"fetch {addr:#x}"
    count = choose.randint(1, min(4, pages - page))
    prot = choose.choice(["rw-", "rw-", "rw-", "r--", "rwx", "---"])
    if kind < 0.75:
        return f"munmap {addr:#x} {count * PAGE}"
    if kind < 0.85:
        return f"mprotect {addr:#x} {count * PAGE} {prot}"
    flags = choose.choice(["pfa", "pfa", "sf", "pf"] if has_files else ["pfa", "sfa"])
    back = "" if "a" in flags else f" 0 {choose.randrange(3) * PAGE:#x}"
    return f"mmap {addr:#x} {count * PAGE} {prot} {flags}{back}"


def history(seed, threads, calls, pages=8, has_files=True):
    """Threads that are always busy: each call takes effect at some moment between its begin and its end."""
    choose = random.Random(seed)
    plain, clock, lines = Map(), 0, []
    under = [None] * threads
    made = 0
    while made < calls or any(under):
        core = choose.randrange(threads)
        clock += 1
        if under[core] is None:
            if made < calls:
                under[core] = [clock, request(choose, pages, has_files), None]
                made += 1
        elif under[core][2] is None:
            if under[core][1].startswith("store") and choose.random() < 0.2:
                plain.copy(int(under[core][1].split()[1], 0) // PAGE)
            else:
                under[core][2] = plain.call(under[core][1])
        else:
            begin, asked, reply = under[core]
            lines.append(f"{begin} {clock} c{core}! {asked} = {reply}")
            under[core] = None
    return [f"vm {threads} 64", f"file 0 rw {FILE} 195"] + lines


def judge(text, *words):
    start = time.time()
    done = subprocess.run([PROGRAM, "audit", *words], input=text, capture_output=True, text=True)
    return done.stdout.split("\n")[0], done.returncode, time.time() - start, done.stderr


def main():
    calls = int(sys.argv[1]) if len(sys.argv) > 1 else 20_000
    seeds = int(sys.argv[2]) if len(sys.argv) > 2 else 4
    wrong = 0
    for threads in (4, 8):
        for seed in range(seeds):
            lines = history(seed, threads, calls)
            text = "\n".join(lines) + "\n"
            with tempfile.TemporaryDirectory() as folder:
                order = folder + "/order"
                told, status, took, errors = judge(text, "--overlapping", "--order", order)
                print(f"{threads} threads, seed {seed}: {told}, {calls / took:,.0f} calls a second {errors.strip()}")
                wrong += told != f"legal {calls}" or status != 0
                given = judge(text, "--overlapping", "--given", order)
                wrong += given[:2] != (f"legal {calls}", 0)
                print(f"  by its order: {given[0]}")
            loads = [at for at, line in enumerate(lines) if "! load" in line and line.split(" = ")[1].isdigit()]
            at = random.Random(seed).choice(loads[len(loads) // 2:])
            front, byte = lines[at].split(" = ")
            changed = lines[:at] + [f"{front} = {(int(byte) + 101) % 256}"] + lines[at + 1:]
            told = judge("\n".join(changed) + "\n", "--overlapping")
            print(f"  line {at + 1} changed: {told[0]}")
            wrong += told[1] not in (1, 3)
    print("all right" if wrong == 0 else f"{wrong} wrong")
    sys.exit(wrong != 0)


if __name__ == "__main__":
    main()
