#!/usr/bin/env python3
"""Random litmus tests of 2 to 4 cores, with frames enough. Each has to have just the outcomes that a search of all merges on a plain page map finds, where
a store to a private page of a file may copy the page before; half of them ask for the mappings at the end. `radixvm litmus` has to say `exact`, and each
witness has to give its outcome when it is run. With --live RUNS the tests are run on threads so often; each run is certified, and its outcome has to be among those that are listed.
Usage: bench/litmus_random.py [--live RUNS] [TESTS [SEED]], 1000 and 0 where left out; RADIXVM_PROGRAM names the program."""
import copy
import os
import pathlib
import random
import re
import subprocess
import sys

from all_orders import BASE, FILE, PAGE, PAGES, acts, copies, key, request, start
from litmus import mappings_of, replies_of, told
from plain_map import arguments, line_of as mapping_line

TOP = pathlib.Path(__file__).resolve().parent.parent
PROGRAM = os.environ.get("RADIXVM_PROGRAM", str(TOP / "crates/radixvm/out/radixvm"))
HEAD = f"vm 4 256\nfile 0 rw {FILE} 195\n"


def run(words, text):
    return subprocess.run([PROGRAM, *words, "--brief"], input=text, capture_output=True, text=True, check=False)


def placed(choose):
    """A request that isn't an mmap at any place."""
    while True:
        words = request(choose)
        if words[0] != "mmap" or "f" in words[4]:
            return words


def made(choose):
    """An opening and the lists of a test: calls of cores; and whether it asks for the mappings. A whole test has 3 to 10 calls in its lists."""
    cores = choose.randint(2, 4)
    opening = [(0, ["mmap", hex(BASE), str(PAGES * PAGE), "rw-", "pfa"])] if choose.random() < 0.5 else []
    # ranges come first, and stores before loads: they wait for no other core then, which an opening of whole calls can't
    more = [(choose.randrange(cores), placed(choose)) for _ in range(choose.randint(0, 4))]
    opening += sorted(more, key=lambda call: {"store": 1, "load": 2, "fetch": 2}.get(call[1][0], 0))
    most = {2: 5, 3: 3, 4: 2}[cores]
    lists = {core: [placed(choose) for _ in range(choose.randint(1, most))] for core in range(cores)}
    return opening, lists, choose.random() < 0.5


def line_of(core, words):
    return f"c{core}! {' '.join(words)}\n"


def text_of(opening, lists, maps):
    front = "".join(line_of(core, words) for core, words in opening) + "together\n" if opening else ""
    return HEAD + front + "".join(line_of(core, words) for core in lists for words in lists[core]) + "final maps\n" * maps


def done(plain, core, words):
    """The reply that is due, and the map after the call."""
    after = copy.deepcopy(plain)
    due, change = getattr(after, words[0])(core, "", *arguments(words[1:]))
    acts(after, change)
    return due, after


def column(plain):
    """The mappings, as an outcome has them."""
    return " | ".join(mapping_line(*mapping) for mapping in plain.mappings()) or "nothing"


def searched(opening, lists, maps):
    """All outcomes, by a search of all merges."""
    plain = start()
    for core, words in opening:
        plain = done(plain, core, words)[1]
    cores, outcomes, seen = sorted(lists), set(), set()
    todo = [((0,) * len(cores), ((),) * len(cores), plain)]
    while todo:
        places, replies, plain = todo.pop()
        if (places, replies, key(plain)) in seen:
            continue
        seen.add((places, replies, key(plain)))
        if all(place == len(lists[core]) for place, core in zip(places, cores)):
            outcomes.add((*(reply for own in replies for reply in own), *[column(plain)] * maps))
        for at, core in enumerate(cores):
            if places[at] == len(lists[core]):
                continue
            words = lists[core][places[at]]
            due, after = done(plain, core, words)
            todo.append((replaced(places, at, places[at] + 1), replaced(replies, at, replies[at] + (due,)), after))
            if (copied := copies(plain, words)) is not None:
                todo.append((places, replies, copied))
    return outcomes


def replaced(row, at, value):
    return row[:at] + (value,) + row[at + 1 :]


def compared(opening, lists, maps):
    """What is wrong with what the program tells of a test, how many outcomes there are, and how many witnesses were run."""
    text = text_of(opening, lists, maps)
    out = run(["litmus"], text)
    if out.returncode or out.stderr:
        return [f"status {out.returncode}: {out.stderr}"], 0, 0
    mine, _, _, lines, end = told(out.stdout)
    wanted, wrong = searched(opening, lists, maps), []
    if end != ["exact"]:
        wrong.append(f"ends with {end}")
    if mine != wanted:
        wrong.append(f"lacks {sorted(wanted - mine)}, has {sorted(mine - wanted)}")
    shown = lines if len(lines) <= 8 else [*lines[:4], *lines[-4:]]
    for values in shown:
        number = lines.index(values) + 1
        trace = run(["litmus", "--witness", str(number)], text).stdout
        answers = replies_of(trace) or {}
        got = [reply for core in sorted(lists) for reply in answers.get(core, [])[-len(lists[core]) :]] + [mappings_of(trace)] * maps
        if got != values:
            wrong.append(f"witness {number}: due {values}, got {got}")
    return wrong, len(wanted), len(shown)


def lived(opening, lists, maps, runs):
    """The same of runs of the test on threads: what is wrong, how many outcomes are listed, and how many came about."""
    text = text_of(opening, lists, maps).replace("vm 4 256", "vm 4 256 64")
    listed = run(["litmus"], text).stdout.split("\n", 1)[0].removeprefix("outcomes ")
    out = run(["litmus", "--live", str(runs)], text)
    counts = [int(line.split(": ", 1)[0]) for line in out.stdout.split("\n") if re.match(r"\d+: ", line)]
    wrong = []
    if sum(counts) != runs or out.returncode or out.stderr or "(outside)" in out.stdout or not out.stdout.endswith("\nexact\n"):
        wrong.append(f"status {out.returncode}: {out.stdout}{out.stderr}")
    return wrong, int(listed), len(counts)


def main():
    words = sys.argv[1:]
    runs = 0
    if words[:1] == ["--live"]:
        runs, words = int(words[1]), words[2:]
    count, seed = (int(words[at]) if len(words) > at else usual for at, usual in ((0, 1000), (1, 0)))
    bad = outcomes = shown = 0
    for number in range(count):
        opening, lists, maps = made(random.Random(f"litmus {seed} {number}"))
        wrong, some, more = lived(opening, lists, maps, runs) if runs else compared(opening, lists, maps)
        for what in wrong:
            print(f"test {number} of seed {seed}: {what}\n{text_of(opening, lists, maps)}")
        bad, outcomes, shown = bad + bool(wrong), outcomes + some, shown + more
    last = f"{shown} of them in {runs} runs of each" if runs else f"{shown} witnesses run"
    print(f"{count} tests, {outcomes} outcomes, {last}; {bad} tests wrong")
    sys.exit(bad != 0)


if __name__ == "__main__":
    main()
