#!/usr/bin/env python3
"""Records real programs with strace, stops each in the middle, and compares the pages that `radixvm maps` shows at the end of the log's trace with
those that the kernel lists then in /proc/PID/maps: missing pages, extra pages, other rights; and the files and offsets that the trace and its comments
name for pages with those that the kernel names. The list of what is mapped at the beginning (--maps) is read where strace begins: of a program that
runs already, and that is stopped while strace attaches. Left out: the kernel's own pages, and the stack, which grows by itself. It needs strace and
leave to trace (ptrace). Status 0 where no page differs.
Usage: bench/import_live.py (RADIXVM_PROGRAM names the program, ./radixvm if it isn't set)
"""
import os
import pathlib
import re
import shutil
import signal
import subprocess
import sys
import tempfile
import time

TOP = pathlib.Path(__file__).resolve().parent.parent
PROGRAM = os.environ.get("RADIXVM_PROGRAM", str(TOP / "radixvm"))
BUSY = """
import threading, mmap, random, time
def f(k):
    a = []
    while True:
        a.append(bytearray(random.randrange(1, 400000)))
        mmap.mmap(-1, 65536).close()
        if len(a) > 40: a = a[random.randrange(40):]
"""
IMPORTING = """
import sys, importlib, time
time.sleep(2)
for name in sorted(sys.stdlib_module_names):
    if not name.startswith(("_", "antigravity", "this", "idlelib", "turtle", "tkinter")):
        try: importlib.import_module(name)
        except BaseException: pass
    time.sleep(.01)
time.sleep(60)
"""
FORKING = """
import os
time.sleep(2)
kept = [bytearray(random.randrange(1, 400000)) for _ in range(30)]
if os.fork() == 0: f(0)
f(1)
"""
NODE = """
let a = [];
setInterval(() => {
    for (let i = 0; i < 50; i++) a.push(Buffer.alloc(Math.floor(Math.random() * 300000)));
    if (a.length > 300) a = a.slice(200);
}, 5)
"""
PROGRAMS = {
    "python": ["python3", "-c", BUSY + "f(0)"],
    "python with nine threads": ["python3", "-c", BUSY + "for k in range(8): threading.Thread(target=f,args=(k,)).start()\nf(8)"],
    "python that opens libraries": ["python3", "-c", IMPORTING],
    "a child that python forks": ["python3", "-c", BUSY + FORKING],
    "ls": ["ls", "-lR", "/usr", "/proc", "/sys", "/opt", "/var"],
    "git": ["git", "-C", str(TOP), "log", "-p", "--stat", "-M", "-C"],
    "the C compiler": ["bash", "-c", "exec $(cc -print-prog-name=cc1) -quiet -O2 -o /dev/null @large.c"],
    "a pipeline": ["bash", "-c", "exec sort -S 30M <(find / -type f 2> /dev/null | while read name; do echo $name; done)"],
    "node": ["node", "-e", NODE],
    "bash": ["bash", "-c", "x=; while :; do x=$x$(printf %2000s a); [ ${#x} -gt 900000 ] && x=; done"],
    "perl": ["perl", "-e", "while(1){my @a=map{'x' x int(rand(200000))}1..50; select undef,undef,undef,.01}"],
    "awk": ["awk", "BEGIN{while(1){for(i=0;i<20000;i++)a[i%5000]=sprintf(\"%\" (i%900) \"s\",\"x\"); delete a}}"],
    "sort": ["bash", "-c", "exec sort -S 40M <(while :; do head -c 400000 /dev/urandom | base64; sleep .02; done)"],
    "gzip": ["bash", "-c", "exec gzip -c < <(while :; do head -c 300000 /dev/urandom; sleep .02; done) > /dev/null"],
    "C with brk and mremap": ["@heap"],
    "gdb": ["bash", "-c", "exec gdb -q -batch -ex 'shell sleep 2' -ex 'info functions a' -ex 'shell sleep 60' /usr/bin/python3"],
}
HEAP = r"""
#include <stdlib.h>
#include <unistd.h>
int main(void) {
    static char *p[200];
    for (unsigned long s = 1;; (s >> 20) % 64 == 0 && usleep(1000)) {
        s = s * 6364136223846793005u + 1442695040888963407u;
        unsigned long w = (s >> 33) % 200, n = (s >> 40) % 3000000;
        if (s >> 62 == 0) { free(p[w]); p[w] = 0; }
        else { p[w] = realloc(p[w], n + 1); p[w][n] = 1; }
    }
}
"""


# Of these the process is looked at that they made last.
OF_A_CHILD = {"a child that python forks"}


def pages_of(path, with_name):
    """The pages of a list as the kernel's or as radixvm writes it: each with its rights."""
    pages = {}
    for line in open(path):
        found = re.match(r"(?:0x)?([0-9a-f]+)-(?:0x)?([0-9a-f]+) (\S+)(.*)$", line)
        if not found or (with_name and re.search(r"\[(v\w+|stack)\]", found[4])):
            continue
        for page in range(int(found[1], 16) >> 12, int(found[2], 16) >> 12):
            pages[page] = found[3][:3]
    return pages


def shown_name(name):
    """A name as a trace shows it."""
    text, room = "", 180
    for byte in name:
        one = chr(byte) if 33 <= byte <= 126 and byte != 92 else f"\\x{byte:02x}"
        if len(text) + len(one) > room:
            return text + ".."
        text += one
    return text


def files_listed(path):
    """The pages of the kernel's list that a file backs: each with its name and the offset. The kernel writes a newline of a name as \\012."""
    files = {}
    for line in open(path, "rb"):
        first, end, off, name = re.match(rb"(\w+)-(\w+) \S+ (\w+) \S+ \S+ *(.*)", line).groups()
        # The kernel names pages so that processes share without a file.
        if name.startswith(b"/") and not name.startswith((b"/dev/zero (deleted)", b"/SYSV")):
            shown = shown_name(name.replace(b"\\012", b"\n"))
            for page in range(int(first, 16) >> 12, int(end, 16) >> 12):
                files[page] = shown, int(off, 16) + ((page << 12) - int(first, 16))
    return files


def files_traced(text):
    """The pages that a file backs at the end of a trace, as its lines and comments say: each with its name and the offset."""
    names, files, note = {}, {}, None
    for line in text.splitlines():
        words = line.split(" ")
        if words[:2] == ["#", "file"]:
            names[words[2]] = words[3]
        elif words[:2] == ["#", "anon"]:
            note = words[5], int(words[4], 16)
        elif words[1] in ("mmap", "munmap"):
            first = int(words[2], 16) >> 12
            run = range(first, first + (int(words[3]) + 4095) // 4096)
            back = note or ((names[words[6]], int(words[7], 16)) if words[1] == "mmap" and "a" not in words[5] else None)
            for page in run:
                files.pop(page, None)
                if back:
                    files[page] = back[0][:182], back[1] + ((page - first) << 12)
            note = None
    return files


def stack_in(path):
    """The pages of a list's stack."""
    ranges = [line.split()[0].split("-") for line in open(path) if "[stack]" in line]
    return {page for first, end in ranges for page in range(int(first, 16) >> 12, int(end, 16) >> 12)}


def stopped(pid):
    """Waits until all threads of the process are stopped."""
    for _ in range(200):
        tasks = pathlib.Path(f"/proc/{pid}/task").glob("*/stat")
        states = {task.read_text().rsplit(")", 1)[1].split()[0] for task in tasks}
        if states <= {"T", "t"}:
            return
        time.sleep(0.02)


def try_program(name, words, folder):
    """Records one program, and tells what differs."""
    words = [str(folder / "heap") if word == "@heap" else word.replace("@large.c", str(folder / "large.c")) for word in words]
    if not shutil.which(words[0]):
        print(f"{name}: there is no {words[0]}")
        return True
    log, start, end = folder / "log", folder / "start", folder / "end"
    child = subprocess.Popen(words, stdin=subprocess.DEVNULL, stdout=subprocess.DEVNULL, stderr=subprocess.DEVNULL, start_new_session=True)
    try:
        time.sleep(1)
        os.kill(child.pid, signal.SIGSTOP)
        stopped(child.pid)
        start.write_bytes(open(f"/proc/{child.pid}/maps", "rb").read())
        tracing = ["strace", "-f", "-tt", "-T", "-y", "-o", str(log), "-e", "trace=memory,process,desc", "-p", str(child.pid)]
        tracer = subprocess.Popen(tracing, stderr=subprocess.DEVNULL)
        time.sleep(1)
        os.kill(child.pid, signal.SIGCONT)
        time.sleep(float(os.environ.get("SECONDS_EACH", "3")))
        pid = int(pathlib.Path(f"/proc/{child.pid}/task/{child.pid}/children").read_text().split()[-1]) if name in OF_A_CHILD else child.pid
        os.kill(pid, signal.SIGSTOP)
        time.sleep(0.5)
        stopped(pid)
        end.write_bytes(open(f"/proc/{pid}/maps", "rb").read())
        text = log.read_bytes()
        tracer.terminate()
        tracer.wait()
    finally:
        os.killpg(child.pid, signal.SIGKILL)
        child.wait()
    log.write_bytes(text)
    made = subprocess.run([PROGRAM, "import", "--one-process", "--pid", str(pid), "--maps", str(start), str(log)], capture_output=True)
    shown = subprocess.run([PROGRAM, "maps", "--long"], input=made.stdout, capture_output=True)
    (folder / "shown").write_bytes(shown.stdout)
    mine, theirs = pages_of(folder / "shown", False), pages_of(end, True)
    first = pages_of(start, False)
    stack = stack_in(start) | stack_in(end)
    mine = {page: prot for page, prot in mine.items() if page not in stack}
    missing, extra = set(theirs) - set(mine), set(mine) - set(theirs)
    other = {page for page in set(mine) & set(theirs) if mine[page] != theirs[page]}
    named, right = files_traced(made.stdout.decode()), files_listed(end)
    # The pages of a file that mremap moved are of zero bytes, and its line is counted.
    moved = "changed: mremap" in made.stderr.decode()
    names = {page for page in set(named) | set(right) if named.get(page) != right.get(page) and not (moved and page not in named)}
    told = " ".join(made.stderr.decode().split("\n")[:40])
    changed = len(set(theirs) ^ set(first))
    print(f"{name}: {len(text)} bytes, {len(theirs)} pages, {changed} came or went; {len(missing)} missing, {len(extra)} extra, {len(other)} of other rights; "
          f"{len(right)} of files, {len(names)} of other files or offsets")
    for page in sorted(names)[:3]:
        print(f"    {page << 12:#x}: {named.get(page)}, {right.get(page)}")
    if missing or extra or other or names or made.returncode:
        print("   ", told)
    return not (missing or extra or other or names or made.returncode)


def main():
    """Tries all programs."""
    with tempfile.TemporaryDirectory() as name:
        folder = pathlib.Path(name)
        (folder / "heap.c").write_text(HEAP)
        (folder / "large.c").write_text("".join(f"int f{i}(int a, int b) {{ for (int i = 0; i < b; i++) a = a * {i} + b / (i + 1); return a; }}\n"
                                                for i in range(60000)))
        subprocess.run(["cc", "-O1", "-w", "-o", str(folder / "heap"), str(folder / "heap.c")], check=True)
        right = [try_program(name, words, folder) for name, words in PROGRAMS.items() if not sys.argv[1:] or name in sys.argv[1:]]
    sys.exit(0 if all(right) else 1)


main()
