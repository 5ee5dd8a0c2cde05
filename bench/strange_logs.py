#!/usr/bin/env python3
"""Imports strange logs of strace, each of a process whose pages are known at its end, and compares these pages with those that `radixvm maps` shows of the
trace. The lines have a random form (-t, -r, -i and so on), and calls are told in one line or in two; names have quotes, spaces and escaped newlines; errors
are told in other languages; numbers go up to 2^64; other calls take a line of 1 MB. In half of the logs some lines are cut: then the pages may differ
only where more lines are left out as not read, or as halves, than in the log with whole lines. Each line of a log has to be counted.
Usage: bench/strange_logs.py [LOGS [SEED]] (RADIXVM_PROGRAM names the program, ./radixvm if it isn't set)
"""
import os
import pathlib
import random
import re
import subprocess
import sys

PROGRAM = os.environ.get("RADIXVM_PROGRAM", str(pathlib.Path(__file__).resolve().parent.parent / "radixvm"))
PROT = {"r": ("PROT_READ", 1), "w": ("PROT_WRITE", 2), "x": ("PROT_EXEC", 4)}
FLAG = {"MAP_SHARED": 1, "MAP_PRIVATE": 2, "MAP_FIXED": 16, "MAP_ANONYMOUS": 32, "MAP_NORESERVE": 0x4000}
NAMES = ["/usr/lib/libc.so.6", '/tmp/a "b" c', "/tmp/x, y = 3", "/tmp/new\\nline", "/tmp/\\303\\244", "/memfd:x (deleted)", "/a(b[c]d)", "/tmp/a<b\\76"]
ERRORS = ["EINVAL (Invalid argument)", "ENOMEM (Nicht gen\u00fcgend Hauptspeicher verf\u00fcgbar)", "EACCES (\u8a31\u53ef\u304c\u3042\u308a\u307e\u305b\u3093)"]


class Form:
    """The options of strace that a log was made with."""

    def __init__(self, rng):
        self.rng, self.spell = rng, rng.choice(["abbrev", "raw", "verbose"])
        self.clock, self.since, self.number, self.address, self.took, self.comm = (rng.random() < 0.4 for _ in range(6))

    def bits(self, names, numbers):
        """Flags, in this form."""
        value, text = sum(numbers), "|".join(names) or "PROT_NONE"
        return {"abbrev": text, "raw": hex(value) if value else "0", "verbose": f"{hex(value) if value else '0'} /* {text} */"}[self.spell]

    def line(self, thread, text, ended=True):
        """A line of the thread."""
        clock = self.rng.choice(["12:34:56 ", "12:34:56.123456 ", "1795848845.613916 ", "1795848845 "]) if self.clock else ""
        since = ("(+     0.000123) " if self.clock else "     0.000123 ") if self.since else ""
        number = "[   9] " if self.number else ""
        address = "[00007f921ea0aca3] " if self.address else ""
        took = " <0.000031>" if self.took and ended else ""
        return f"{thread}{'<a b>' if self.comm else ''} {clock}{since}{number}{address}{text}{took}"


def call(form, rng, pages):
    """A call, as its text up to the closing parenthesis, what it gives, and its name; the pages change with it."""
    kind = rng.choice(["mmap", "mmap", "mmap", "munmap", "mprotect", "fail", "other"])
    first, count = 0x7f0000000 + rng.randrange(200), rng.randrange(1, 20)
    run, length = range(first, first + count), count * 4096 - rng.choice([0, 0, 1, 4095])
    rights = [letter for letter in "rwx" if rng.random() < 0.5]
    prot = form.bits([PROT[letter][0] for letter in rights], [PROT[letter][1] for letter in rights])
    shown = "".join(letter if letter in rights else "-" for letter in "rwx")
    if kind == "mmap":
        names = [rng.choice(["MAP_SHARED", "MAP_PRIVATE"]), "MAP_FIXED"] + (["MAP_NORESERVE"] if rng.random() < 0.2 else [])
        is_file = rng.random() < 0.4
        back = f"{rng.randrange(3, 99)}<{rng.choice(NAMES)}>, {hex(rng.randrange(200) * 4096) if rng.random() < .8 else 0}" if is_file else "-1, 0"
        names += [] if is_file else ["MAP_ANONYMOUS"]
        pages.update(dict.fromkeys(run, shown))
        hint = rng.choice(["NULL", hex(first * 4096), hex(2 ** 64 - 4096)])
        return f"mmap({hint}, {length}, {prot}, {form.bits(names, [FLAG[name] for name in names])}, {back}", hex(first * 4096), "mmap"
    if kind == "munmap":
        for page in run:
            pages.pop(page, None)
        return f"munmap({hex(first * 4096)}, {length}", "0", "munmap"
    if kind == "mprotect":
        run = [page for page in run if page in pages][:1]
        if run:
            pages[run[0]] = shown
            return f"mprotect({hex(run[0] * 4096)}, 4096, {prot}", "0", "mprotect"
    if kind == "other":
        return f'write(1, "{"mmap(0x1000, 4096) = 0 " * rng.choice([1, 1, 1, 1, 40000])}", {2 ** 64 - 1}', str(2 ** 64 - 1), "write"
    return f"mmap({hex(2 ** 64 - 4096)}, {2 ** 64 - 1}, {prot}, {form.bits(['MAP_PRIVATE'], [2])}, -1, 0", f"-1 {rng.choice(ERRORS)}", "mmap"


def log_of(rng):
    """The lines of a log, and the pages at its end."""
    form, pages, lines = Form(rng), {}, []
    share = "CLONE_VM|CLONE_THREAD|CLONE_SETTLS" if form.spell == "abbrev" else "0x3d0f00"
    gives = "101<a b>" if form.comm else "101"
    lines.append(form.line(100, f"clone3({{flags={share}, stack=0x7f0, stack_size=0x10}} => {{parent_tid=[101]}}, 88) = {gives}"))
    for _ in range(rng.randrange(1, 60)):
        thread = rng.choice([100, 101])
        text, gave, name = call(form, rng, pages)
        if rng.random() < 0.3:
            # Between the halves the other thread tells of a call that changes nothing.
            lines.append(form.line(thread, f"{text} <unfinished ...>", ended=False))
            lines.append(form.line(201 - thread, "futex(0x7f0, FUTEX_WAKE_PRIVATE, 1) = 0"))
            lines.append(form.line(thread, f"<... {name} resumed>) = {gave}"))
        else:
            lines.append(form.line(thread, f"{text}){' ' * rng.choice([1, 1, 20])}= {gave}"))
    return lines, pages


def imported(lines):
    """The pages that the trace of these lines shows at its end, how many of them are counted, and how many are told not to be read, or to be halves."""
    text = "\n".join(lines) + "\n"
    made = subprocess.run([PROGRAM, "import"], input=text.encode(), capture_output=True, check=False)
    told = made.stderr.decode()
    counts = re.search(r"import: (\d+) lines kept, (\d+) changed, (\d+) left out", told)
    if made.returncode not in (0, 2) or not counts:
        return None, 0, 0
    loud = sum(int(number) for number in re.findall(r"(\d+) left out: (?:in a form|the other half|other calls)", told))
    # A thread of which no line tells who made it is a process, and several are listed.
    loud += 10 ** 9 * (" processes; " in told)
    shown = subprocess.run([PROGRAM, "maps"], input=made.stdout, capture_output=True, check=False).stdout.decode() if made.stdout else ""
    pages = {}
    for line in shown.splitlines():
        first, end, prot = re.match(r"0x(\w+)-0x(\w+) (\S+)", line).groups()
        pages.update(dict.fromkeys(range(int(first, 16) >> 12, int(end, 16) >> 12), prot[:3]))
    return pages, sum(map(int, counts.groups())), loud


def main():
    """Tries all logs, and tells how many were wrong."""
    count, seed = (int(word) for word in (sys.argv[1:] + ["2000", "1"][len(sys.argv) - 1:])[:2])
    wrong = told = 0
    for number in range(count):
        rng = random.Random(seed * 1000003 + number)
        lines, truth = log_of(rng)
        pages, counted, loud = imported(lines)
        if pages != truth or counted != len(lines):
            wrong += 1
            print(f"log {number}: whole lines: {len(lines)} lines, {counted} counted; pages differ: {pages != truth}")
            continue
        if number % 2:
            cut = [line[:rng.randrange(len(line.split(" = ")[0]))] if rng.random() < 0.1 else line for line in lines]
            pages, counted, more = imported(cut)
            told += pages != truth
            if counted != len(cut) or (pages != truth and more <= loud):
                wrong += 1
                print(f"log {number}: cut lines: {counted} of {len(cut)} counted, {loud} and {more} left out")
    print(f"{count} logs, {wrong} wrong without a word; of {count // 2} with cut lines {told} came to other pages, and said so")
    sys.exit(1 if wrong else 0)


main()
