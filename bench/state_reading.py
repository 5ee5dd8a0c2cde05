#!/usr/bin/env python3
"""Reads random traces with a machine of its own, and compares the state that it comes to with that of `radixvm state`, line by line,
at the end of each trace and behind one of its lines, as text and, read back by Python, as JSON. The machine is made of dictionaries, works call by call, and
knows fixed mappings, anonymous and shared with a file, accesses, shootdowns, takes, walks, evictions, flushes and reviews (bench/frame_counts.py).
It shares nothing with the program but what the documents say.
Then it reads the traces of examples/lessons behind each of their lines, with the machine of bench/lesson_reading.py.
Usage: bench/state_reading.py [TRACES [SEED]]; RADIXVM_PROGRAM names the program."""
import os
import pathlib
import random
import subprocess
import sys

from frame_counts import FrameCounts
from lesson_reading import read_lessons
from state_objects import text_of

TOP = pathlib.Path(__file__).resolve().parent.parent
PROGRAM = os.environ.get("RADIXVM_PROGRAM", str(TOP / "radixvm"))
FIRST, CORES = 16, 4
# Of each kind of trace its frames, its pages, and what its mappings show: no file, or a file's bytes from there on.
KINDS = [(6, 8, [0, 0, 4096]), (9, 8, [None, 0, 4096]), (4096, 8, [None, None, 0, 4096, 8192]), (4096, 90, [None])]


class Machine:
    def __init__(self, frames):
        self.pages, self.cached, self.counts = {}, {}, FrameCounts(CORES, frames)
        self.tables = [{} for _ in range(CORES)]
        self.tlbs = [[] for _ in range(CORES)]  # [page, frame, write, exec], the oldest filled first
        self.inboxes = [[] for _ in range(CORES)]  # [from, first, end, cleared], the oldest first
        self.calls = [None] * CORES  # the word of a call that waits, its pages, and what it does to a page

    def locked(self, page):
        return any(call and call[1] <= page < call[2] for call in self.calls)

    def drop(self, core, first, end):
        self.tlbs[core] = [e for e in self.tlbs[core] if not first <= e[0] < end]

    def clear(self, core, first, end):
        self.tables[core] = {p: e for p, e in self.tables[core].items() if not first <= p < end}

    def change(self, core, word, first, end, new):
        """A change of pages: the cores that are recorded there have to drop them first."""
        if word == "mprotect" and any(p not in self.pages for p in range(first, end)):
            return
        told = {c for p in range(first, end) if p in self.pages for c in self.pages[p]["cores"]}
        self.clear(core, first, end)
        self.drop(core, first, end)
        self.calls[core] = (word, first, end, new)
        for other in sorted(told - {core}):
            self.inboxes[other].append([core, first, end, False])
        self.finish(core)

    def finish(self, core):
        call = self.calls[core]
        if call is None or any(m[0] == core for box in self.inboxes for m in box):
            return
        word, first, end, new = call
        for page in range(first, end):
            if word == "mprotect":
                self.pages[page].update(prot=new, cores=set())
                continue
            lost = self.pages.pop(page, {"frame": None})["frame"]
            if lost is not None:
                self.counts.add(core, lost, -1)
            if word == "mmap":
                prot, file = new
                self.pages[page] = {"prot": prot, "file": None if file is None else file + page - first, "frame": None, "cores": set()}
        self.calls[core] = None

    def fill(self, core, page):
        self.tlbs[core] = self.tlbs[core][-63:] + [[page, *self.tables[core][page]]]

    def give(self, core, info):
        """Gives a page its file's frame, or a free one, if there is one."""
        if info["file"] in self.cached:
            info["frame"] = self.cached[info["file"]]
            self.counts.add(core, info["frame"], 1)
            return True
        info["frame"] = frame = self.counts.take()
        if frame is not None:
            self.counts.begin(frame, 1 if info["file"] is None else 2)
        if frame is not None and info["file"] is not None:
            self.cached[info["file"]] = frame
        return frame is not None

    def access(self, core, page, right):
        def permits(entry):
            return right == "r" or entry[1 if right == "w" else 2]
        held = [e for e in self.tlbs[core] if e[0] == page]
        if held and permits(held[0][1:]):
            return
        self.drop(core, page, page + 1)
        if not held and page in self.tables[core] and permits(self.tables[core][page]):
            return self.fill(core, page)
        info = self.pages.get(page)
        if info is None or not (info["prot"] != "---" if right == "r" else right in info["prot"]):
            return
        if info["frame"] is None and not self.give(core, info):
            return
        info["cores"].add(core)
        self.tables[core][page] = (info["frame"], "w" in info["prot"], "x" in info["prot"])
        self.fill(core, page)

    def take(self, core):
        if self.inboxes[core]:
            sender, first, end, cleared = self.inboxes[core][0]
            if cleared:
                self.drop(core, first, end)
                self.inboxes[core].pop(0)
            else:
                self.clear(core, first, end)
                self.inboxes[core][0][3] = True

    def walk(self, core, page):
        if page in self.tables[core] and all(e[0] != page for e in self.tlbs[core]):
            self.fill(core, page)

    def text(self):
        out = [f"epoch {self.counts.epoch}"]
        for core in range(CORES):
            if self.calls[core]:
                word, first, end, _ = self.calls[core]
                out.append(f"core {core} {word} awaits cores for {first * 4096:#x}-{end * 4096:#x}")
                out.append(f"core {core} holds {first * 4096:#x}-{end * 4096:#x}")
            entries = [("tlb", *entry) for entry in self.tlbs[core]]
            entries += [("table", page, *self.tables[core][page]) for page in sorted(self.tables[core])]
            for place, page, frame, write, execute in entries:
                going = [m[3] for m in self.inboxes[core] if m[1] <= page < m[2]]
                tail = (" stale: cleared" if going[0] else " stale: posted") if going else ""
                out.append(f"core {core} {place} {page * 4096:#x} frame {frame} r{'w' if write else '-'}{'x' if execute else '-'}{tail}")
            for sender, first, end, cleared in self.inboxes[core]:
                out.append(f"core {core} inbox from {sender} {first * 4096:#x}-{end * 4096:#x} {'second' if cleared else 'first'} take due")
        return "\n".join([*out, *self.mappings(), *self.used(), *self.counts.lines()]) + "\n"

    def mappings(self):
        """Neighbouring pages of one protection are one line if they have no file, or continue in it."""
        runs = []
        for page, info in sorted(self.pages.items()):
            prot, file = info["prot"], info["file"]
            if runs and runs[-1][1:4] == [page, prot, file]:
                runs[-1][1] = page + 1
                runs[-1][3] = file if file is None else file + 1
            else:
                runs.append([page, page + 1, prot, file if file is None else file + 1, file])
        behind = [(first, end, prot, "anon" if file is None else f"shared 0 {file * 4096:#x}") for first, end, prot, _, file in runs]
        return [f"{first * 4096:#x}-{end * 4096:#x} {prot} {back}" for first, end, prot, back in behind]

    def used(self):
        """The pages that have a frame or a recorded core."""
        out = []
        for page, info in sorted(self.pages.items()):
            frame = "" if info["frame"] is None else f" frame {info['frame']}"
            cores = "".join(f" {c}" for c in sorted(info["cores"]))
            if frame or cores:
                out.append(f"page {page * 4096:#x}{frame}" + (f" cores{cores}" if cores else ""))
        return out


class Tracer:
    """Draws lines of a trace, which the machine acts on, and keeps the state behind each of them."""

    def __init__(self, draw):
        frames, self.pages, self.files = draw.choice(KINDS)
        self.draw, self.machine, self.flushers = draw, Machine(frames), draw.sample(range(CORES), draw.randint(1, CORES))
        self.lines, self.states = [f"vm {CORES} {frames}", "file 0 rw 65536 0"], [self.machine.text()] * 2

    def put(self, said):
        self.lines.append(said)
        self.states.append(self.machine.text())

    def events(self, core, *kinds):
        """Lines that have a core and a word alone."""
        machine = self.machine
        does = {"take": machine.take, "finish": machine.finish, "flush": machine.counts.flush, "review": machine.counts.review}
        for kind in kinds:
            does[kind](core)
            self.put(f"c{core} {kind}")

    def settle(self):
        """All messages are taken, and all calls end."""
        for core in range(CORES):
            self.events(core, *["take"] * sum(2 - message[3] for message in self.machine.inboxes[core]))
        for core in range(CORES):
            self.events(core, "finish")

    def epoch(self):
        """All cores flush until they are marked, so that an epoch ends, and some review."""
        for core in range(CORES):
            self.events(core, *["flush"] * len(self.machine.counts.changes[core]), "flush")
        for core in self.draw.sample(range(CORES), self.draw.randint(0, CORES)):
            self.events(core, "review")

    def lend(self):
        """A page of the file is mapped, read by some core, which counts its frame up, and unmapped by one that flushes, which counts it down."""
        core, page = self.draw.choice(self.flushers), FIRST + self.draw.randrange(self.pages)
        self.settle()
        self.change(core, "mmap", page, page + 1)
        self.settle()
        self.access(self.draw.randrange(CORES), page, "load")
        self.change(core, "munmap", page, page + 1)
        self.settle()
        self.events(core, "flush")

    def opening(self):
        """Core 0 maps all pages, and gives each its frame."""
        self.machine.change(0, "mmap", FIRST, FIRST + self.pages, ("rwx", None))
        self.put(f"c0! mmap {FIRST * 4096:#x} {self.pages * 4096} rwx pfa")
        for page in range(FIRST, FIRST + self.pages):
            self.access(0, page, "store")

    def access(self, core, page, word):
        """An access, unless it would wait for a slot."""
        if self.machine.calls[core] is None and not self.machine.locked(page):
            self.machine.access(core, page, {"load": "r", "store": "w", "fetch": "x"}[word])
            self.put(f"c{core}! {word} {page * 4096:#x}" + (" 7" if word == "store" else ""))

    def change(self, core, kind, first, end):
        """A call that changes pages, unless it would wait for a slot."""
        if self.machine.calls[core] or any(self.machine.locked(page) for page in range(first, end)):
            return
        new = prot = self.draw.choice(["r--", "rw-", "rw-", "r-x", "rwx", "rwx", "---"])
        tail = {"mprotect": f" {prot}", "munmap": ""}.get(kind)
        if kind == "mmap":
            file = self.draw.choice(self.files)
            new, tail = (prot, file and file // 4096), f" {prot} pfa" if file is None else f" {prot} sf 0 {file}"
        self.machine.change(core, kind, first, end, new)
        self.put(f"c{core}! {kind} {first * 4096:#x} {(end - first) * 4096}{tail}")

    def line(self):
        draw, machine = self.draw, self.machine
        core, page = draw.randrange(CORES), FIRST + draw.randrange(self.pages)
        words = ["mmap", "mmap", "mmap", "munmap", "mprotect", "walk", "evict", "finish", "review", "settle", "flush", "flush", "flush"]
        words += ["lend"] if None in self.files else 8 * ["lend"] + ["epoch", "epoch", "review", "review"]
        kind = draw.choice(words + 3 * ["take"] + 14 * ["access"] + ["epoch"] * (draw.random() < 0.25))
        if kind in ("settle", "epoch", "lend"):
            getattr(self, kind)()
        elif kind == "walk":
            machine.walk(core, page)
            self.put(f"c{core} walk {page * 4096:#x}")
        elif kind == "evict":
            machine.drop(core, page, page + 1)
            self.put(f"c{core} evict {page * 4096:#x}")
        elif kind == "access":
            self.access(core, page, draw.choice(["load", "store", "fetch"]))
        elif kind in ("mmap", "munmap", "mprotect"):
            self.change(core, kind, page, min(FIRST + self.pages, page + draw.choice([1, 2, 3, self.pages])))
        else:
            self.events(draw.choice(self.flushers) if kind in ("flush", "review") else core, kind)


def trace(draw):
    """A trace, and the state behind each of its lines."""
    tracer = Tracer(draw)
    if tracer.pages > 8:
        tracer.opening()
    for _ in range(draw.randint(1, 150)):
        tracer.line()
    return tracer.lines, tracer.states


def compare(words, text, due):
    """What the program writes of the text, if it is that."""
    wrote = subprocess.run([PROGRAM, "state", *words], input=text, capture_output=True, text=True, check=False)
    if wrote.stdout != due or wrote.returncode != 0:
        sys.exit(f"{' '.join(['state', *words])} of\n{text}comes to\n{wrote.stdout}{wrote.stderr}and not to\n{due}")
    objects = subprocess.run([PROGRAM, "state", "--json", *words], input=text, capture_output=True, text=True, check=False)
    if text_of(objects.stdout) != due or objects.returncode != 0:
        sys.exit(f"{' '.join(['state --json', *words])} of\n{text}comes to\n{objects.stdout}{objects.stderr}and not to\n{due}")
    return wrote.stdout


def main():
    count, seed = (int(word) for word in (sys.argv[1:] + ["200", "1"])[:2]) if len(sys.argv) > 2 else (int((sys.argv[1:] or ["200"])[0]), 1)
    draw = random.Random(seed)
    shown = dict.fromkeys(("", "stale", "count frame", "queue frame", "flushed", "dirty"), 0)
    for _ in range(count):
        made, states = trace(draw)
        text = "\n".join(made) + "\n"
        at = draw.randint(1, len(made))
        wrote = compare([], text, states[-1]) + compare(["--at", str(at)], text, states[at - 1])
        for word in shown:
            shown[word] += sum(word in said for said in wrote.splitlines())
    words = ", ".join(f"{number} {word}" for word, number in shown.items() if word)
    print(f"{count} traces of seed {seed}, each at its end and behind one of its lines: {shown['']} lines of state ({words}) are those of the second reading")
    print(read_lessons(PROGRAM))


if __name__ == "__main__":
    main()
