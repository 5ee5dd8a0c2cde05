#!/usr/bin/env python3
"""Tells while `rt ci` runs where its processor time goes: reads /proc each second, and at its end (SIGTERM) prints for each crate the
processor seconds of its library's proof, of its tests and programs, and of its must-fail edits. What began below another `rt` isn't counted.
Usage: bench/gate_crates.py PID, where PID is that of `rt ci` or of what waits for it; ended by kill.
"""
import collections
import os
import pathlib
import re
import signal
import sys
import time

TICK = os.sysconf("SC_CLK_TCK")
KINDS = ("library", "tests", "edits")


def stat_of(process):
    """The parent of a process, when it began, and its processor seconds, those of its ended children among them."""
    fields = (process / "stat").read_text().rsplit(")", 1)[1].split()
    return int(fields[1]), fields[19], sum(int(fields[at]) for at in (11, 12, 13, 14)) / TICK


def is_copy(process):
    """Tells whether the process is a copy that a rattle forked: its seconds are among those of its parent once it has ended."""
    return pathlib.Path(f"/proc/{stat_of(process)[0]}/cmdline").read_bytes().split(b"\0")[0].endswith(b"/rattle")


def is_below(process, top):
    """Tells whether the process was started by this one, or by one that it started."""
    pid = int(process.name)
    while pid not in (top, 0, 1):
        pid = stat_of(pathlib.Path(f"/proc/{pid}"))[0]
    return pid == top


def look(top, seen):
    """Notes of each rattle that runs below `top` the crate, the kind of its work, and its processor seconds so far."""
    for process in pathlib.Path("/proc").glob("[0-9]*"):
        try:
            words = (process / "cmdline").read_bytes().decode().split("\0")
            crate = re.search(r"--crate-name (\w+)", " ".join(words))
            if not words[0].endswith("/rattle") or not crate or not is_below(process, top) or is_copy(process):
                continue
            folder = os.readlink(process / "cwd")
            kind = "edits" if "/rt-edit-" in folder else "tests" if "--test" in words or "src/main.rt" in words else "library"
            _, began, seconds = stat_of(process)
            seen[(process.name, began)] = (crate[1], kind, seconds)
        except (OSError, UnicodeDecodeError, IndexError):
            continue


def tell(seen):
    """Prints the table."""
    sums = collections.defaultdict(collections.Counter)
    for crate, kind, seconds in seen.values():
        sums[crate][kind] += seconds
        sums["all"][kind] += seconds
    print(f"{'crate':18}" + "".join(f"{kind:>9}" for kind in KINDS))
    for crate in sorted(sums, key=lambda crate: (crate == "all", crate)):
        print(f"{crate:18}" + "".join(f"{sums[crate][kind]:9.0f}" for kind in KINDS))


def main():
    if len(sys.argv) != 2:
        sys.exit(__doc__)
    top, seen = int(sys.argv[1]), {}

    def end(*_):
        tell(seen)
        sys.exit(0)

    signal.signal(signal.SIGTERM, end)
    while True:
        look(top, seen)
        time.sleep(1)


main()
