#!/usr/bin/env python3
"""Sends traces through `run --echo | audit`: those of examples/, and random ones of each kind. Their replies are those of a machine that is proved, so
each has to be legal, with --overlapping and without: but a text at whose end a call waits for a mapping that may have any place may be undecided, since
only some of its places are tried. What is legal is judged again by the order that is written. One reply in each random trace is then changed to one
that no page map gives there: no such text may be called legal.
Usage: echo_audit.py PROGRAM [TRACES [SEED]] (300 of each kind, and 0)"""
import collections
import pathlib
import random
import subprocess
import sys
import tempfile

PROGRAM = sys.argv[1]
TRACES = int(sys.argv[2]) if len(sys.argv) > 2 else 300
FIRST_SEED = int(sys.argv[3]) if len(sys.argv) > 3 else 0
TOP = pathlib.Path(__file__).resolve().parent.parent
PAGES = [0x10000, 0x11000, 0x12000, 0x13000]
STEPS = ["go"] * 12 + ["finish"] * 2 + ["take"] * 5 + ["flush", "review", "giveup"]


def request(rng, kind):
    page = rng.choice(PAGES)
    at, length = page + rng.choice([0, 1, 2048, 4095]), rng.choice([4096, 4096, 8192])
    prot = rng.choice(["rw-"] * 5 + ["r--", "r-x", "---"])
    of_file = kind != "anonymous" and rng.random() < 0.7
    flags = rng.choice("ps") + ("" if rng.random() < 0.1 else "f") + ("" if of_file else "a")
    file = f" 0 {rng.choice([0, 0, 4096, 8192])}" if of_file else ""
    return rng.choice(
        [f"mmap {page:#x} {length} {prot} {flags}{file}"] * 3
        + [f"munmap {page:#x} {length}", f"mprotect {page:#x} {length} {prot}"]
        + [f"load {at:#x}", f"store {at:#x} {rng.randrange(256)}"] * 4
        + [f"fetch {at:#x}"]
    )


def line(rng, kind, cores):
    core, page, what = rng.randrange(cores), rng.choice(PAGES), rng.random()
    if what < (0.5 if kind == "alone" else 0.25):
        return f"c{core}! {request(rng, kind)}"
    if what < 0.45:
        return f"c{core} call {request(rng, kind)}"
    if what < 0.85:
        return f"c{core} {rng.choice(STEPS)}"
    return rng.choice([f"c{core} walk {page:#x}", f"c{core} evict {page:#x}", f"fold {page:#x}", f"c{core} frame {rng.randrange(6)}", f"c{core} whole"]
                      + [f"c{core} guess {0x8000000000 * (core + 1) + 4096 * rng.randrange(9):#x}"])


# Each kind: its cores, its frames and how many calls may begin.
KINDS = {"alone": (1, 64, 4096), "anonymous": (3, 64, 4096), "files": (3, 64, 4096), "frames": (2, 2, 4096), "calls": (2, 16, 20), "cores": (64, 64, 4096)}


def trace(rng, kind):
    cores, frames, calls = KINDS[kind]
    head = [f"vm {cores} {frames} {calls}", "# a comment", "file 0 rw 5000 7"]
    return head + [line(rng, kind, min(cores, 4) + (kind == "cores")) for _ in range(300)]


def run(words, text, statuses):
    ran = subprocess.run([PROGRAM, *words], input=text, capture_output=True, text=True, timeout=120)
    if ran.returncode not in statuses:
        sys.exit(f"{' '.join(words)}: {ran.returncode} {ran.stdout}{ran.stderr}, of this text:\n{text}")
    return ran.stdout


def is_cut(lines):
    """Whether the text ends while a call waits for a mapping that may have any place."""
    waiting = {}
    for said in lines:
        front, sign, text = said.rpartition(" = ")
        if not sign or text in ("idle", "full") or front.startswith("fold"):
            continue
        words = front.split()
        core, event = words[0].rstrip("!"), words[1]
        if words[0].endswith("!") and text.startswith(("wait", "stuck")) or event == "call":
            waiting[core] = words[words.index("mmap") + 4] if "mmap" in words else "f"
        elif event in ("finish", "go", "giveup", "frame", "guess", "whole") and not text.startswith(("wait", "step", "stuck")):
            waiting.pop(core, None)
    return any("f" not in flags for flags in waiting.values())


def changed(rng, lines):
    """The lines with a byte, or a mapping's address, that no page map gives: none, if there is neither."""
    at = [i for i, said in enumerate(lines) if said.rpartition(" = ")[2].isdigit() or said.rpartition(" = ")[2].startswith("0x")]
    if not at:
        return None
    at = rng.choice(at)
    front, _, reply = lines[at].rpartition(" = ")
    return lines[:at] + [f"{front} = {(int(reply) + 100) % 256 if reply.isdigit() else '0x1001'}"] + lines[at + 1 :]


def by_its_order(text):
    """The order that is found is written, is legal line by line, and is an order of the text again."""
    with tempfile.TemporaryDirectory() as folder:
        order = pathlib.Path(folder) / "order"
        run(["audit", "--overlapping", "--any-place", "--order", str(order)], text, (0,))
        run(["audit", "--any-place"], order.read_text(), (0,))
        run(["audit", "--overlapping", "--any-place", "--given", str(order)], text, (0,))


def main():
    counts = collections.Counter()
    for path in sorted((TOP / "examples").glob("*.trace")):
        echoed = run(["run", "--echo"], path.read_text(), (0,))
        print(f"{path.stem}: {run(['audit'], echoed, (0, 3)).splitlines()[0]}")
    for kind in KINDS:
        for seed in range(FIRST_SEED, FIRST_SEED + TRACES):
            rng = random.Random(f"{kind} {seed}")
            lines = run(["run", "--echo"], "\n".join(trace(rng, kind)) + "\n", (0,)).splitlines()
            text = "\n".join(lines) + "\n"
            statuses = (0, 3) if is_cut(lines) else (0,)
            said = run(["audit", "--any-place"], text, statuses)
            counts[kind, said.split()[0], "without memory" in said] += 1
            ordered = run(["audit", "--overlapping", "--any-place"], text, statuses)
            counts[kind, "by an order: " + ordered.split()[0], False] += 1
            if ordered.startswith("legal"):
                by_its_order(text)
            other = changed(rng, lines)
            if other:
                text = "\n".join(other) + "\n"
                counts[kind, "changed: " + run(["audit", "--any-place"], text, (1, 3)).split()[0], False] += 1
                counts[kind, "changed, by an order: " + run(["audit", "--overlapping", "--any-place"], text, (1, 3)).split()[0], False] += 1
    for (kind, verdict, lacks), count in sorted(counts.items()):
        print(f"{kind}: {verdict}{', some without memory' if lacks else ''}: {count}")


main()
