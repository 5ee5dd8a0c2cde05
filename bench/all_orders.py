#!/usr/bin/env python3
"""Compares `radixvm audit --overlapping` with a search of all orders, on short random histories of calls that overlap. Half of them have an order, by a
simulator that makes them; in the others one reply was changed, so that some have none. The program has to call a history legal where an order exists, and
must never do so where none does; what it calls legal is judged again by the order that it writes. It may tell that there is none only where that is so.
Usage: bench/all_orders.py [HISTORIES [SEED]], 400 and 0 where left out; RADIXVM_PROGRAM names the program."""
import collections
import os
import pathlib
import random
import subprocess
import sys
import tempfile

from plain_map import PAGE, File, Map, Page, arguments

TOP = pathlib.Path(__file__).resolve().parent.parent
PROGRAM = os.environ.get("RADIXVM_PROGRAM", str(TOP / "crates/radixvm/out/radixvm"))
BASE, PAGES, FILE = 0x10000, 4, PAGE + 100
LOOKED_AT = (0, 2048)  # offsets in a page
REPLIES = ["done", "enomem", "einval", "eacces", "segv maperr", "segv accerr", "bus", "noframe", "nomemory"]

# a call that isn't sure may as well have changed nothing
Call = collections.namedtuple("Call", "begin end core words reply sure", defaults=[True])


def again(plain):
    """The same map once more."""
    after = Map(plain.any_place)
    for number, page in plain.pages.items():
        after.pages[number] = Page(page.back, page.prot)
        after.pages[number].own = None if page.own is None else dict(page.own)
    for file in plain.files:
        after.files.append(File(file.mode, file.length, file.seed))
        after.files[-1].changed = dict(file.changed)
    return after


def copies(plain, words):
    """The map in which the page of a store has a copy of its own, if one is due; else none."""
    if words[0] != "store":
        return None
    page = plain.pages.get(int(words[1], 0) // PAGE)
    if page is None or "w" not in page.prot or not page.back or page.back[0] == "shared" or page.own is not None:
        return None
    if plain.files[page.back[1]].byte(page.back[2] * PAGE) is None:
        return None
    after = again(plain)
    copied = after.pages[int(words[1], 0) // PAGE]
    copied.own = {offset: after.shown(copied, offset) for offset in LOOKED_AT}
    return after


def acts(plain, change):
    """Makes a change; of pages that it copies only the bytes stay that calls look at."""
    change()
    for page in plain.pages.values():
        if page.own and len(page.own) > len(LOOKED_AT):
            page.own = {offset: page.own[offset] for offset in LOOKED_AT}


def takes_effect(plain, call):
    """The map after the call with its reply; none where the reply is wrong."""
    named = arguments(call.words[1:])
    due, change = getattr(plain, call.words[0])(call.core, call.reply, *named)
    if call.reply == "nomemory":
        return plain
    if call.reply == "noframe":
        return plain if call.words[0] in ("load", "store", "fetch") and (due == "done" or due.isdigit()) else None
    if due != call.reply:
        return None
    after = again(plain)
    acts(after, getattr(after, call.words[0])(call.core, call.reply, *named)[1])
    return after


def own_bytes(page):
    return tuple(page.own.get(offset, 0) for offset in LOOKED_AT)


def key(plain):
    """What tells maps apart, by the bytes that calls look at."""
    pages = tuple((number, page.back, page.prot, None if page.own is None else own_bytes(page)) for number, page in sorted(plain.pages.items()))
    return pages, tuple(tuple(sorted(file.changed.items())) for file in plain.files)


def has_order(start, calls):
    """Whether some order of the calls keeps time and gives each reply."""
    seen, todo = set(), [(frozenset(), start)]
    while todo:
        done, plain = todo.pop()
        if len(done) == len(calls):
            return True
        if (done, key(plain)) in seen:
            continue
        seen.add((done, key(plain)))
        rest = [at for at in range(len(calls)) if at not in done]
        last = min(calls[at].end for at in rest)
        for at in rest:
            if calls[at].begin > last:
                continue
            if (after := takes_effect(plain, calls[at])) is not None:
                todo.append((done | {at}, after))
            if not calls[at].sure:
                todo.append((done | {at}, plain))
            if (after := copies(plain, calls[at].words)) is not None:
                todo.append((done, after))
    return False


def request(choose):
    page = choose.randrange(PAGES)
    addr, kind = BASE + page * PAGE, choose.random()
    if kind < 0.35:
        return ["load", hex(addr + choose.choice(LOOKED_AT))]
    if kind < 0.65:
        return ["store", hex(addr + choose.choice(LOOKED_AT)), str(choose.randrange(1, 5))]
    if kind < 0.7:
        return ["fetch", hex(addr)]
    length, prot = str(choose.randint(1, min(3, PAGES - page)) * PAGE), choose.choice(["rw-", "rw-", "r--", "r-x", "---"])
    if kind < 0.8:
        return ["munmap", hex(addr), length]
    if kind < 0.87:
        return ["mprotect", hex(addr), length, prot]
    flags = choose.choice(["pfa", "sf", "pf", "pf"])
    return ["mmap", hex(addr), length, prot, flags, *([] if "a" in flags else ["0", hex(choose.randrange(3) * PAGE)])]


def start():
    plain = Map(False)
    plain.files.append(File("rw", FILE, 195))
    return plain


def history(choose):
    """Calls of busy threads, each of which takes effect between its begin and its end, at one moment; a store may copy its page before."""
    plain, clock, made, calls = start(), 0, 0, []
    threads, most = choose.randint(2, 4), choose.randint(4, 9)
    under = [None] * threads
    while made < most or any(under):
        core = choose.randrange(threads)
        clock += 1
        if under[core] is None:
            if made < most:
                words = request(choose)
                under[core], made = [clock, words, None], made + 1
            continue
        begin, words, reply = under[core]
        if reply is not None:
            calls.append(Call(begin, clock, core, words, reply))
            under[core] = None
        elif choose.random() < 0.3:
            plain = copies(plain, words) or plain
        else:
            due, change = getattr(plain, words[0])(core, "", *arguments(words[1:]))
            if choose.random() < 0.05:
                under[core][2] = "nomemory"
                continue
            acts(plain, change)
            under[core][2] = due
    return calls


def changed(choose, calls):
    """The same calls, one of which has another reply."""
    at = choose.randrange(len(calls))
    others = [str(choose.randrange(5)), str(choose.randrange(5)), *REPLIES] if calls[at].words[0] in ("load", "fetch", "store") else REPLIES[:4]
    return [*calls[:at], calls[at]._replace(reply=choose.choice([it for it in others if it != calls[at].reply])), *calls[at + 1 :]]


def judged(calls, folder, flags):
    text = f"vm 4 64\nfile 0 rw {FILE} 195\n" + "".join(f"{it.begin} {it.end} c{it.core}! {' '.join(it.words)} = {it.reply}\n" for it in calls)
    order = f"{folder}/order"
    pathlib.Path(order).unlink(missing_ok=True)
    told = subprocess.run([PROGRAM, "audit", "--overlapping", *flags, "--order", order], input=text, capture_output=True, text=True)
    if told.returncode == 0:
        alone = subprocess.run([PROGRAM, "audit", order], capture_output=True, text=True)
        is_legal = alone.returncode == 0
        if not flags:
            given = subprocess.run([PROGRAM, "audit", "--overlapping", "--given", order], input=text, capture_output=True, text=True)
            is_legal &= given.returncode == 0
        if not is_legal or told.stdout != f"legal {len(calls)}\n":
            sys.exit(f"the order of this history isn't legal: {told.stdout}{alone.stdout}{alone.stderr}\n{text}")
    if told.returncode not in (0, 1, 4, 5):
        sys.exit(f"{told.stdout}{told.stderr}\n{text}")
    return 1 if told.returncode == 5 else told.returncode, text


class Counts:
    """How many histories have an order, have none, have one that the program doesn't find, and are told to have none."""

    def __init__(self, flags):
        self.flags, self.some, self.none, self.undecided, self.shown = flags, 0, 0, 0, 0

    def judge(self, name, calls, has_one, folder):
        exists, (status, text) = has_order(start(), calls), judged(calls, folder, self.flags)
        if has_one and not exists:
            sys.exit(f"the search of all orders misses the simulator's own\n{text}")
        if status == 0 and not exists:
            sys.exit(f"{name} has no order, and is called legal\n{text}")
        if status == 1 and exists:
            sys.exit(f"{name} has an order, and is told to have none\n{text}")
        self.some, self.none, self.shown = self.some + exists, self.none + (not exists), self.shown + (status == 1)
        if exists and status:
            self.undecided += 1
            print(f"{name} has an order, and isn't called legal\n{text}")

    def tell(self):
        print(f"{' '.join(self.flags) or 'at one moment'}: {self.some} histories with an order, {self.undecided} of them undecided; {self.none} without, "
              f"none of them called legal, {self.shown} of them told to have none")


def main():
    count, seed = (int(sys.argv[at]) if len(sys.argv) > at else usual for at, usual in ((1, 400), (2, 0)))
    whole = Counts([])
    with tempfile.TemporaryDirectory() as folder:
        for number in range(count):
            choose = random.Random(f"{seed} {number}")
            calls = history(choose)
            if number % 2:
                calls = changed(choose, calls)
            name = f"history {number} of seed {seed}"
            whole.judge(name, calls, not number % 2, folder)
    whole.tell()
    sys.exit(whole.undecided != 0)


if __name__ == "__main__":
    main()
