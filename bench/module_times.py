#!/usr/bin/env python3
"""Tells where the time of proofs goes, in processor seconds: by kind of module, by function or file of lemmas, by module, and of several crates by crate.
Of a function `Lts` is the borrow checker's part, `Proof` what the tactics find, `Answers` what proof files say.

Usage: bench/module_times.py --watch REPOSITORY [COUNT] > TABLE
         notes what checks from nothing in that copy of the repository take, as `rt all check --jobs 4` there with no out/ folders; ended by SIGTERM or
         Ctrl-C, when it prints. Each check is to have one job. What else runs changes little, since it reads the processor time of each check's process.
       bench/module_times.py FOLDER [COUNT]
         reads when each file of an incremental folder was written, so by the clock: the folder is to be of one check from nothing, by one job, beside
         nothing else: `rm -rf out/incremental && rt check --jobs 1`.
COUNT is how many of each are told, 20 if it isn't given.
"""
import collections
import ctypes
import os
import pathlib
import re
import select
import signal
import struct
import sys
import time

PARTS = "Answers Carried Code Given Goals Invariants Key Kinds Layout Lts Met Mir Named Proof Reads Statement Symbol TheLink Tie View".split()
ENDING = re.compile(r"(\.decls)?\.oantt$")
# Of inotify: a file written and closed, one moved in, a folder or file made.
CLOSED, MOVED_IN, MADE = 0x8, 0x80, 0x100


def module_of(name):
    """The module of a file: its part of a function, and whose it is."""
    whose = ENDING.sub("", name)
    part = "lemmas" if "-proofs." in whose else "specs" if "-specs" in whose else "rest"
    while (found := whose.rpartition("."))[2].split("-")[0] in PARTS:
        whose, part = found[0], found[2].split("-")[0]
    return part, whose


class Times:
    """Seconds by crate, by kind of module, by function or file of lemmas, and by module."""

    def __init__(self):
        self.crates, self.kinds, self.owners, self.modules = (collections.Counter() for _ in range(4))

    def add(self, name, seconds):
        kind, whose = module_of(name)
        self.crates[re.sub(r"^Rattle-|-(proofs|specs)$", "", whose.split(".")[0])] += seconds
        self.kinds[kind] += seconds
        self.owners[whose] += seconds
        self.modules[name] += seconds

    def tell(self, count):
        """Prints the dearest, a line each."""
        print(f"{sum(self.kinds.values()):8.1f} seconds, {len(self.modules)} files")
        rows = [("by kind", self.kinds, count), ("by function, or file of specs or lemmas", self.owners, count), ("by module", self.modules, count)]
        if len(self.crates) > 1:
            rows.insert(0, ("by crate", self.crates, len(self.crates)))
        for title, counts, most in rows:
            print(f"-- {title}")
            for name, seconds in counts.most_common(most):
                print(f"{seconds:8.1f} {name}")


class Watcher:
    """Notes each module that a check below a folder has done, and what processor time its process had then."""

    def __init__(self, top):
        self.top, self.times = pathlib.Path(top).resolve(), Times()
        self.libc = ctypes.CDLL(None, use_errno=True)
        self.inotify = self.libc.inotify_init1(os.O_NONBLOCK)
        # The folder of each watch, and of each crate the process that checks it with its seconds so far.
        self.folders, self.checks = {}, {}
        for crate in (self.top / "crates").iterdir():
            self.watch(crate)

    def watch(self, folder):
        """Watches a folder of a crate, its out/, or what is in its out/incremental."""
        depth = len(folder.relative_to(self.top).parts)
        number = self.libc.inotify_add_watch(self.inotify, os.fsencode(folder), MADE if depth < 5 else CLOSED | MOVED_IN)
        if number < 0:
            return
        self.folders[number] = folder
        if depth < 5:
            for below in folder.iterdir():
                if below.is_dir() and (depth > 2 or below.name == "out") and (depth != 3 or below.name == "incremental"):
                    self.watch(below)

    def seconds_of(self, crate):
        """The processor seconds that the process which checks this crate has had, and those at its latest module."""
        found = self.checks.get(crate)
        try:
            if found:
                return time.clock_gettime(found[0]), found[1]
        except OSError:
            pass
        for process in pathlib.Path("/proc").glob("[0-9]*"):
            try:
                words = (process / "cmdline").read_bytes().split(b"\0")
                if words[0].endswith(b"/rattle") and pathlib.Path(os.readlink(process / "cwd")) == crate:
                    # The clock of a process's time, as clock_getcpuclockid gives it.
                    self.checks[crate] = [(~int(process.name) << 3) | 2, 0.0]
                    return time.clock_gettime(self.checks[crate][0]), 0.0
            except OSError:
                continue
        return None

    def note(self, folder, name):
        crate = self.top / pathlib.Path(*folder.relative_to(self.top).parts[:2])
        found = self.seconds_of(crate)
        if found:
            now, before = found
            self.checks[crate][1] = now
            self.times.add(name, now - before)

    def run(self, is_over):
        seen = set()
        while not is_over():
            if not select.select([self.inotify], [], [], 0.5)[0]:
                continue
            data, at = os.read(self.inotify, 1 << 16), 0
            while at < len(data):
                number, mask, _, size = struct.unpack_from("iIII", data, at)
                name = os.fsdecode(data[at + 16 : at + 16 + size].rstrip(b"\0"))
                folder, at = self.folders.get(number), at + 16 + size
                if folder and mask & MADE:
                    depth = len(folder.relative_to(self.top).parts)
                    if (folder / name).is_dir() and name == {2: "out", 3: "incremental"}.get(depth, name):
                        self.watch(folder / name)
                elif folder and name.endswith(".oantt") and (folder, name) not in seen:
                    seen.add((folder, name))
                    self.note(folder, name)


def read_folder(folder):
    """The times of a folder, by the clock."""
    times = Times()
    written = sorted((path.stat().st_mtime_ns, path) for path in pathlib.Path(folder).rglob("*.oantt"))
    for (before, _), (after, path) in zip(written, written[1:]):
        times.add(path.name, (after - before) / 1e9)
    return times


def main():
    words = sys.argv[1:]
    watches = words[:1] == ["--watch"]
    words = words[watches:]
    if len(words) not in (1, 2) or not pathlib.Path(words[0]).is_dir():
        sys.exit(__doc__)
    count = int(words[1]) if len(words) == 2 else 20
    if not watches:
        return read_folder(words[0]).tell(count)
    ended = []
    for number in (signal.SIGTERM, signal.SIGINT):
        signal.signal(number, lambda *_: ended.append(True))
    watcher = Watcher(words[0])
    watcher.run(lambda: ended)
    watcher.times.tell(count)


main()
