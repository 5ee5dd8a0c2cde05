#!/usr/bin/env python3
"""Records real programs with strace, with 29 sets of its options, stops each in the middle, and compares the pages that `radixvm import` and `radixvm maps`
make of the log with those that the kernel lists then in /proc/PID/maps: of each process that lives then. Each is equal, refused (import's status isn't 0), or
wrong, with status 0. Left out are the pages that no line of a log tells: those of the program's own file and of its loader, which execve maps, with the
anonymous pages right after them; the kernel's own; and the stack, which grows by itself.
Usage: bench/real_logs.py [--only OPTIONS] [--program NAME] [--keep FOLDER] [--times N] [--first N] (RADIXVM_PROGRAM names the program, ./radixvm if it isn't set). It needs
strace and leave to trace. Status 0 where none is wrong.
"""
import argparse
import collections
import glob
import os
import pathlib
import re
import shutil
import signal
import subprocess
import sys
import tempfile
import time

TOP = pathlib.Path(__file__).resolve().parent.parent
PROGRAM = os.environ.get("RADIXVM_PROGRAM", str(TOP / "radixvm"))
CALLS = "trace=memory,process"
# Sets of options, by their words. A set without -o writes to standard error. `-p` is of a program that runs already.
OPTIONS = [
    f"-f -tt -T -y -o LOG -e {CALLS}",
    "-f -o LOG",
    "-f",
    "-f -tt -y",
    f"-f -e {CALLS}",
    f"-o LOG -e {CALLS}",
    f"-tt -T -e {CALLS}",
    f"-ff -ttt -o LOG -e {CALLS}",
    f"-ff -ttt -T -o LOG -e {CALLS}",
    f"-ff -tt -T -y -o LOG",
    f"-ff -o LOG -e {CALLS}",
    f"-f -r -o LOG -e {CALLS}",
    f"-f -i -o LOG -e {CALLS}",
    f"-f -k -o LOG -e {CALLS}",
    f"-f -n -o LOG -e {CALLS}",
    f"-f -X raw -o LOG -e {CALLS}",
    f"-f -X verbose -y -o LOG -e {CALLS}",
    f"-f -z -o LOG -e {CALLS}",
    f"-f -Z -o LOG -e {CALLS}",
    "-f -o LOG -e trace=%memory",
    "-f -y -o LOG -e trace=mmap,munmap,mprotect,mremap,brk",
    "-f -v -yy -s 200 -o LOG",
    f"-f --absolute-timestamps=format:unix,precision:ns --syscall-times=ns -o LOG -e {CALLS}",
    f"-f --decode-pids=comm -o LOG -e {CALLS}",
    f"-f -qqq -a 1 -o LOG -e {CALLS}",
    f"-f --seccomp-bpf -o LOG -e {CALLS}",
    f"-f --decode-fds=all -e abbrev=none -o LOG -e {CALLS}",
    f"-D -f -o LOG -e {CALLS}",
    f"-f -tt -T -y -o LOG -e {CALLS} -p PID",
]
BUSY = """
import os, threading, mmap, random, subprocess, sys, time
def f(k):
    a = []
    while True:
        a.append(bytearray(random.randrange(1, 400000)))
        mmap.mmap(-1, 65536).close()
        if len(a) > 40: a = a[random.randrange(40):]
"""
NODE = "let a = []; setInterval(() => { for (let i = 0; i < 50; i++) a.push(Buffer.alloc(Math.floor(Math.random() * 300000))); if (a.length > 300) a = a.slice(200) }, 5)"
SQLITE = """pragma journal_mode=wal; pragma mmap_size=200000000; create table t(a, b);
with recursive n(i) as (select 1 union all select i + 1 from n where i < 2000000) insert into t select i, hex(randomblob(40)) from n;
create index x on t(b); select count(*) from t a, t b where a.b > b.b;"""
PROGRAMS = {
    "python": ["PYTHON", "-c", BUSY + "f(0)"],
    "python, threads": ["PYTHON", "-c", BUSY + "for k in range(5): threading.Thread(target=f,args=(k,)).start()\nf(8)"],
    "python, a fork": ["PYTHON", "-c", BUSY + "kept = [bytearray(random.randrange(1, 400000)) for _ in range(30)]\nif os.fork() == 0: f(0)\nf(1)"],
    "python, a child": ["PYTHON", "-c", BUSY + "subprocess.Popen([sys.executable, '-c', 'while True: a = [bytearray(200000) for _ in range(50)]'])\nf(1)"],
    "node": ["node", "-e", NODE],
    "sqlite": ["sqlite3", "FOLDER/database", SQLITE],
    "bash": ["bash", "-c", "x=; (while :; do y=$y$(printf %3000s b); [ ${#y} -gt 900000 ] && y=; done) & while :; do x=$x$(printf %2000s a); [ ${#x} -gt 900000 ] && x=; done"],
    "perl": ["perl", "-e", "while(1){my @a=map{'x' x int(rand(200000))}1..50; select undef,undef,undef,.01}"],
    "sort": ["bash", "-c", "sort -S 40M <(while :; do head -c 400000 /dev/urandom | base64; sleep .02; done)"],
    "C with brk, mremap and madvise": ["FOLDER/heap"],
    "java": ["java", "-Xmx200m", "-XX:TieredStopAtLevel=1", "FOLDER/Busy.java"],
}
HEAP = r"""
#define _GNU_SOURCE
#include <pthread.h>
#include <stdlib.h>
#include <sys/mman.h>
#include <unistd.h>
static void *run(void *seed) {
    static __thread char *p[200];
    for (unsigned long s = (unsigned long)seed;; (s >> 20) % 64 == 0 && usleep(1000)) {
        s = s * 6364136223846793005u + 1442695040888963407u;
        unsigned long w = (s >> 33) % 200, n = (s >> 40) % 3000000;
        if (s >> 62 == 0) { free(p[w]); p[w] = 0; }
        else { p[w] = realloc(p[w], n + 1); p[w][n] = 1; }
        if (w == 7) {
            char *at = mmap(0, 40960, 3, MAP_PRIVATE | MAP_ANONYMOUS, -1, 0);
            mprotect(at + 8192, 4096, 1);
            mremap(at + 16384, 8192, 8192, MREMAP_MAYMOVE | 4, 0);
            munmap(at, 8192);
            madvise(at + 16384, 4096, MADV_DONTNEED);
        }
    }
}
int main(void) {
    pthread_t other;
    sbrk(123456);
    pthread_create(&other, 0, run, (void *)1);
    run((void *)2);
}
"""
JAVA = """public class Busy { public static void main(String[] x) throws Exception { for (int i = 0; i < 4; i++) new Thread(() -> {
    java.util.ArrayList<byte[]> l = new java.util.ArrayList<>(); while (true) { l.add(new byte[100000]); if (l.size() > 200) l.clear(); } }).start(); } }"""


def ranges_of(path):
    """The ranges of a list as the kernel's or as radixvm writes it, with rights and the rest of the line."""
    for line in open(path, errors="surrogateescape"):
        if found := re.match(r"(?:0x)?([0-9a-f]+)-(?:0x)?([0-9a-f]+) (\S+)(.*)$", line):
            yield int(found[1], 16) >> 12, int(found[2], 16) >> 12, found[3][:3], found[4]


def left_out_of(path, exe):
    """The ranges that execve mapped, that the kernel has for itself, and the stack's."""
    found, last_end = [], None
    for first, end, _, rest in ranges_of(path):
        name = rest.split(None, 3)[3].strip() if len(rest.split(None, 3)) > 3 else ""
        own = name == exe or re.search(r"/ld-linux[^/]*$|/ld-2[^/]*$", name)
        if own or re.fullmatch(r"\[(v\w+|stack)\]", name) or (not name and first == last_end):
            found.append((first, end))
            last_end = end if own else None
        else:
            last_end = None
    return found


def differences(mine, theirs, left_out):
    """How many pages are in theirs alone, in mine alone, and in both with other rights; how many are in theirs; and the first that differs."""
    cuts = sorted({end for ranges in (mine, theirs, left_out) for one in ranges for end in one[:2]})
    owners = [[], [], []]
    for owner, ranges in zip(owners, (mine, theirs, left_out)):
        rest = sorted(ranges)
        at = 0
        for cut in cuts:
            while at < len(rest) and rest[at][1] <= cut:
                at += 1
            owner.append(rest[at][-1] if at < len(rest) and rest[at][0] <= cut else None)
    missing = extra = other = count = 0
    first = None
    for index, (cut, after) in enumerate(zip(cuts, cuts[1:])):
        ours, its, out = (owner[index] for owner in owners)
        if out is None:
            size = after - cut
            count += size if its else 0
            missing, extra, other = missing + (size if its and not ours else 0), extra + (size if ours and not its else 0), \
                other + (size if ours and its and ours != its else 0)
            first = first or (cut if ours != its else None)
    return missing, extra, other, count, first


def traced_by(tracer):
    """The processes that a process traces: their numbers, and those of their threads."""
    found = collections.defaultdict(list)
    for status in map(pathlib.Path, glob.glob("/proc/[0-9]*/task/*/status")):
        try:
            if f"\nTracerPid:\t{tracer}\n" in status.read_text():
                found[int(status.parts[2])].append(status.parent)
        except OSError:
            continue
    return found


def are_still(traced):
    """Whether no thread runs: each is stopped, or ended."""
    for tasks in traced.values():
        for task in tasks:
            try:
                if (task / "stat").read_text().rsplit(")", 1)[1].split()[0] not in "tTZX":
                    return False
            except OSError:
                return False
    return True


def stop(tracer, folder):
    """Stops all that is traced, and answers the numbers of the processes: none runs, and the log doesn't grow, for a while."""
    still, before = 0, None
    for _ in range(200):
        traced = traced_by(tracer)
        for pid in traced:
            try:
                os.kill(pid, signal.SIGSTOP)
            except OSError:
                still = 0
        now = sorted(traced), sum(file.stat().st_size for file in folder.iterdir() if file.is_file())
        still = still + 1 if traced and are_still(traced) and now == before else 0
        if still == 6:
            return sorted(traced)
        before = now
        time.sleep(0.05)
    return []


def words_of(words, folder):
    real = {"PYTHON": os.path.realpath(sys.executable)}
    return [real.get(word, word.replace("FOLDER", str(folder))) for word in words]


def start(options, words, folder):
    """Starts a program and strace. Answers both, strace's number, and the file that it is to be read from, where it isn't written with -o."""
    tracing = [word.replace("LOG", str(folder / "log")) for word in options.split()]
    with open(folder / "err", "wb") as err:
        quiet = {"stdin": subprocess.DEVNULL, "stdout": subprocess.DEVNULL, "start_new_session": True}
        if "PID" in tracing:
            child = subprocess.Popen(words, stderr=subprocess.DEVNULL, **quiet)
            time.sleep(0.5)
            os.kill(child.pid, signal.SIGSTOP)
            time.sleep(0.2)
            shutil.copy(f"/proc/{child.pid}/maps", folder / "start")
            tracer = subprocess.Popen(["strace", *(word.replace("PID", str(child.pid)) for word in tracing)], stderr=subprocess.DEVNULL, **quiet)
            time.sleep(0.5)
            os.kill(child.pid, signal.SIGCONT)
            return [child, tracer]
        # the program's own standard error isn't in the log
        tracer = subprocess.Popen(["strace", *tracing, "bash", "-c", 'exec "$@" 2> /dev/null', "bash", *words], stderr=err, **quiet)
        return [tracer]


def tracer_of(started, options):
    """The number of strace's process: with -D another one than was started."""
    if "-D" not in options.split():
        return started[-1].pid
    for status in map(pathlib.Path, glob.glob("/proc/[0-9]*/status")):
        try:
            text = status.read_text()
        except OSError:
            continue
        if found := re.search(r"\nTgid:\t(\d+)\n", text):
            if "Name:\tstrace\n" in text and os.getsid(int(found[1])) == started[0].pid:
                return int(found[1])
    return started[-1].pid


def of_sessions(sessions):
    """The processes of these sessions: what was started, and all that came of it, strace first."""
    found = []
    for stat in glob.glob("/proc/[0-9]*/stat"):
        try:
            name, rest = pathlib.Path(stat).read_text().rsplit(")", 1)
            if int(rest.split()[3]) in sessions:
                found.append((not name.endswith("(strace"), int(stat.split("/")[2])))
        except OSError:
            continue
    return [pid for _, pid in sorted(found)]


def record(options, words, folder):
    """Records a program until it is stopped. Answers the files of the log, and for each process its number, its program and a copy of its list."""
    started = start(options, words, folder)
    lists = []
    try:
        time.sleep(float(os.environ.get("SECONDS_EACH", "1.5")))
        for pid in stop(tracer_of(started, options), folder):
            try:
                shutil.copy(f"/proc/{pid}/maps", folder / f"maps.{pid}")
                lists.append((pid, os.readlink(f"/proc/{pid}/exe"), folder / f"maps.{pid}"))
            except OSError:
                continue
        kept = folder / "kept"
        kept.mkdir()
        for log in sorted(folder.glob("log*")) if "LOG" in options else [folder / "err"]:
            shutil.copy(log, kept / log.name)
    finally:
        for pid in of_sessions([each.pid for each in started]):
            try:
                os.kill(pid, signal.SIGKILL)
            except OSError:
                continue
        for each in started:
            each.wait()
    return sorted(kept.iterdir()), lists


def judge(options, logs, pid, exe, list_file, folder):
    """Imports one process, and answers "equal", "refused" or "WRONG", and why."""
    flags = ["--one-process", "--maps", str(folder / "start")] if "-p PID" in options else []
    # a log of one process on a terminal has no numbers
    if "-f" in options.replace("-ff", "-f") and ("LOG" in options or b"[pid " in logs[0].read_bytes()):
        flags += ["--pid", str(pid)]
    made = subprocess.run([PROGRAM, "import", *flags, *map(str, logs)], capture_output=True)
    said = made.stderr.decode(errors="replace").strip().split("\n")
    if made.returncode:
        return "refused", said[0]
    shown = subprocess.run([PROGRAM, "maps", "--long"], input=made.stdout, capture_output=True)
    if shown.returncode:
        return "WRONG", f"maps: {shown.stderr.decode()}"
    (folder / "shown").write_bytes(shown.stdout)
    left_out = left_out_of(list_file, exe)
    if "-p PID" in options:
        left_out = [(first, end) for first, end, _, rest in [*ranges_of(list_file), *ranges_of(folder / "start")] if re.search(r"\[(v\w+|stack)\]", rest)]
    missing, extra, other, count, at = differences(*([one[:3] for one in ranges_of(path)] for path in (folder / "shown", list_file)), left_out)
    if at is None:
        return "equal", ""
    return "WRONG", f"{missing} missing, {extra} extra, {other} of other rights, of {count}; first {at << 12:#x}; {said[0]}"


def main():
    parser = argparse.ArgumentParser()
    parser.add_argument("--only")
    parser.add_argument("--program")
    parser.add_argument("--keep")
    parser.add_argument("--times", type=int, default=1)
    parser.add_argument("--first", type=int, default=1, help="the number of the first set of options")
    asked = parser.parse_args()
    counts = collections.Counter()
    for options in OPTIONS[asked.first - 1 :]:
        if asked.only and asked.only != options:
            continue
        of_options = collections.Counter()
        for name, words in [*PROGRAMS.items()] * asked.times:
            if asked.program and asked.program != name or not (words[0].isupper() or "FOLDER" in words[0] or shutil.which(words[0])):
                continue
            with tempfile.TemporaryDirectory() as made:
                folder = pathlib.Path(made)
                (folder / "heap.c").write_text(HEAP)
                (folder / "Busy.java").write_text(JAVA)
                if "FOLDER/heap" in words:
                    subprocess.run(["cc", "-O1", "-w", "-pthread", "-o", folder / "heap", folder / "heap.c"], check=True)
                logs, lists = record(options, words_of(words, folder), folder)
                for pid, exe, list_file in lists:
                    verdict, why = judge(options, logs, pid, exe, list_file, folder)
                    of_options[verdict] += 1
                    if verdict != "equal":
                        print(f"  {verdict}: {name}, {pid}: {why}", flush=True)
                    if verdict == "WRONG" and asked.keep:
                        shutil.copytree(folder, pathlib.Path(asked.keep) / f"{options.replace('/', '')[:60]} {name} {pid}", dirs_exist_ok=True)
                if not lists:
                    print(f"  {name}: nothing was stopped")
        print(f"{options}: {', '.join(f'{count} {verdict}' for verdict, count in sorted(of_options.items()))}", flush=True)
        counts += of_options
    print(", ".join(f"{count} {verdict}" for verdict, count in sorted(counts.items())))
    sys.exit(1 if counts["WRONG"] else 0)


main()
