#!/usr/bin/env python3
"""Random traces, whose replies by `run --echo` have to be legal to `audit --any-place`, and are judged by `audit` as bench/plain_map.py judges them: as
they are, and with one reply changed, by the first places and by any.
Usage: audit_traces.py PROGRAM TRACES [SEED]"""
import collections
import random
import subprocess
import sys

from plain_map import judge

PROGRAM, TRACES = sys.argv[1], int(sys.argv[2])
FIRST_SEED = int(sys.argv[3]) if len(sys.argv) > 3 else 0
LINES = 300
PAGES = [0x10000, 0x11000, 0x12000, 0x13000, 0x1FF000, 0x200000, 0x8000000000, 0x8000001000, 0x10000000000]


def request(rng):
    page = rng.choice(PAGES)
    at = page + rng.choice([0, 0, 1, 903, 904, 4095])
    change = rng.choice([page] * 9 + [page + 1, 0, 0x7FFFFFFFF000, 0x800000000000])
    length = rng.choice([4096, 4096, 8192, 5000, 16384, 2**21] * 4 + [0, 2**47, 2**63])
    prot = rng.choice(["rw-"] * 4 + ["".join(rng.choice([c, "-"]) for c in "rwx")])
    kind = rng.choice(["p"] * 5 + ["s"] * 5 + ["ps", ""])
    flags = kind + rng.choice(["f", "f", ""]) + rng.choice(["a", ""]) or "-"
    file = "" if "a" in flags else f" {rng.choice([0, 0, 0, 1, 2, 3])} {rng.choice([0, 0, 4096, 4096, 8192, 1, 2**47])}"
    place = rng.choice([change, 0]) if "f" not in flags else change
    return rng.choice(
        [f"mmap {place:#x} {length} {prot} {flags}{file}"] * 3
        + [f"munmap {change:#x} {rng.choice([length, length, 2**39])}", f"mprotect {change:#x} {length} {prot}"]
        + [f"load {at:#x}", f"store {at:#x} {rng.randrange(256)}"] * 3
        + [f"fetch {at:#x}"]
    )


def line(rng, cores):
    core, page = rng.randrange(cores), rng.choice(PAGES)
    return rng.choice(
        [f"c{core}! {request(rng)}"] * 10
        + [f"c{core} finish", f"c{core} take", f"c{core} take"] * (6 if cores > 1 else 0)
        + [f"c{core} flush", f"c{core} review", f"c{core} walk {page:#x}", f"c{core} evict {page:#x}", f"fold {page:#x}"]
    )


def run(words, text):
    ran = subprocess.run([PROGRAM, *words, "--brief"], input=text, capture_output=True, text=True, timeout=120)
    # of an illegal or an undecided reply standard error shows the request
    if ran.returncode not in (0, 1, 4) or (ran.stderr and ran.returncode == 0):
        sys.exit(f"{' '.join(words)}: {ran.returncode} {ran.stderr}")
    return ran.stdout.splitlines()


def replies(rng):
    """The lines of a run with their outcomes. A call that isn't begun, since its core's waits, has no reply, nor has an end of none."""
    cores = rng.choice([1, 2, 3, 64])
    head = [f"vm {cores} 4096", "file 0 rw 5000 7", "file 1 r 4096 0", "file 2 w 4096 9"]
    trace = head + [line(rng, min(cores, 4)) for _ in range(LINES)]
    told = run(["run", "--echo"], "\n".join(trace) + "\n")
    return [said for said in told if not (said.endswith(" = idle") and ("! " in said or " finish" in said))]


def changed(rng, lines):
    """The lines with another reply in place of one, which may be legal too."""
    at = rng.choice([at for at, said in enumerate(lines) if " = " in said and not said.endswith((" = step", " = idle")) and " = wait" not in said])
    asked, _, reply = lines[at].rpartition(" = ")
    others = ["done", "bus", "einval", "enomem", "eacces", "ebadf", "segv maperr", "segv accerr", "0", str(rng.randrange(256)), hex(rng.choice(PAGES))]
    if reply.startswith("0x"):
        others += [hex(int(reply, 16) + 4096), hex(int(reply, 16) + 2**30), hex(int(reply, 16) + 1)] * 3
    other = rng.choice([other for other in others if other != reply])
    return lines[:at] + [f"{asked} = {other}"] + lines[at + 1 :]


def main():
    counts = collections.Counter()
    for seed in range(FIRST_SEED, FIRST_SEED + TRACES):
        rng = random.Random(seed)
        legal = replies(rng)
        for is_changed, lines in ((False, legal), (True, changed(rng, legal))):
            for any_place in (False, True):
                said = run(["audit", "--any-place"] if any_place else ["audit"], "\n".join(lines) + "\n")
                # plain_map.py knows the order of the replies alone
                said[0] = said[0].replace("undecided", "illegal")
                want = judge(lines, any_place)
                if said != want or (any_place and not is_changed and not said[0].startswith("legal ")):
                    sys.exit(f"seed {seed}, changed {is_changed}, any place {any_place}: {said}, expected {want}\n" + "\n".join(lines))
                counts[is_changed, any_place, said[0].split()[0]] += 1
                counts["calls"] += int(said[0].split()[1]) if said[0].startswith("legal ") and not is_changed and any_place else 0
    print(f"{TRACES} random traces, {counts['calls']} calls: all legal, and judged as by plain_map.py; by first places {counts[False, False, 'legal']} are legal,")
    print(f"with one reply changed {counts[True, False, 'legal']}, and by any places {counts[True, True, 'legal']}")


if __name__ == "__main__":
    main()
