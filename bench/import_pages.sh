#!/usr/bin/env bash
# Records programs with strace, imports each log, and compares the pages that `radixvm maps` shows at the end of its trace with
# those that the kernel lists in /proc/PID/maps, which the program itself reads at its end. Pages that the kernel maps before the
# program's first call (its own file, the stack, vdso) aren't in a log, and are left out where the log never names them. Then each
# log is imported behind the list of what is mapped where its program begins (--maps), and all pages are compared but the kernel's
# own, vvar, vdso and vsyscall; the stack, which grows by itself, as far as it was when the program began.
# Last, valgrind's lackey records each access of two programs, one of them without a C library, and of each such log the pages that its
# trace names are compared. Valgrind keeps the pages that brk gives back: those are left out where the trace has unmapped them.
# It needs strace, leave to trace (ptrace), and valgrind. Status 0 where no page differs.
# Usage: bench/import_pages.sh
set -euo pipefail
cd "$(dirname "$0")/.."
. bench/common.sh
cat > "$work/maps.py" <<'PY'
import os, sys, threading
blocks = []
def fill():
    for size in (100, 200000, 4000000):
        blocks.append(bytearray(size))
        bytearray(size)
threads = [threading.Thread(target=fill) for _ in range(int(sys.argv[1]))]
for thread in threads: thread.start()
for thread in threads: thread.join()
file, parts = os.open("/proc/self/maps", os.O_RDONLY), []
while True:
    part = os.read(file, 65536)
    if not part: break
    parts.append(part)
os.write(2, b"THE-END\n")
os.write(1, b"".join(parts))
PY
cat > "$work/heap.c" <<'C'
#define _GNU_SOURCE
#include <fcntl.h>
#include <stdlib.h>
#include <string.h>
#include <sys/mman.h>
#include <unistd.h>
static char list[1 << 20];
int main(int words, char **word)
{
    char *parts[200] = {0};
    size_t lengths[200] = {0}, seed = 1, rounds = words > 1 ? atoi(word[1]) : 4000, largest = words > 2 ? atoi(word[2]) : 3000000;
    for (size_t i = 0; i < rounds; i++) {
        seed = seed * 6364136223846793005u + 1442695040888963407u;
        size_t which = (seed >> 33) % 200, length = (seed >> 40) % largest;
        if (seed >> 62 == 0) {
            free(parts[which]);
            parts[which] = NULL;
        } else {
            parts[which] = realloc(parts[which], length + 1);
            parts[which][length] = 1;
        }
        lengths[which] = length;
    }
    int file = open("/proc/self/maps", O_RDONLY), count, held = 0;
    while ((count = read(file, list + held, sizeof list - held)) > 0) held += count;
    write(2, "THE-END\n", 8);
    return write(1, list, held) != held;
}
C
cat > "$work/at_exec.c" <<'C'
#include <signal.h>
#include <stdio.h>
#include <sys/personality.h>
#include <sys/ptrace.h>
#include <sys/wait.h>
#include <unistd.h>
/* Prints what is mapped where a program begins, at the addresses that it has without randomization, and ends it. */
int main(int count, char **words)
{
    pid_t pid = fork();
    if (count < 2 || pid == 0) {
        personality(ADDR_NO_RANDOMIZE);
        ptrace(PTRACE_TRACEME, 0, 0, 0);
        execvp(words[1], words + 1);
        _exit(127);
    }
    char path[64], part[4096];
    waitpid(pid, NULL, 0);
    snprintf(path, sizeof path, "/proc/%d/maps", pid);
    FILE *list = fopen(path, "r");
    for (size_t read; list && (read = fread(part, 1, sizeof part, list)) > 0;) fwrite(part, 1, read, stdout);
    kill(pid, SIGKILL);
    return list == NULL;
}
C
cc -O1 -w -o "$work/heap" "$work/heap.c"
cc -O1 -w -o "$work/at_exec" "$work/at_exec.c"
cc -O1 -w -nostdlib -static -fno-stack-protector -o "$work/touch" crates/test_import/data/touch.c
status=0
# The pages of the kernel's list and of the trace's end that differ: those that the trace names, or all but the kernel's own.
differ() {
    "$program" run --long "$work/trace" > "$work/replies"
    "$program" maps --long "$work/trace" > "$work/shown"
    echo "$1: $(grep -h " kept, " "$work/told" | paste -sd ";"); $(grep -cvE '^(0x[0-9a-f]+|done|[0-9]+)$' "$work/replies" || true) of $(wc -l < "$work/replies") requests refused"
    python3 - "$2" "$work/listed" "$work/shown" "$work/trace" "$work/start" "$work/log" <<'PY' || status=1
import re, sys
def lists(path):
    for line in open(path):
        match = re.match(r"(?:0x)?([0-9a-f]+)-(?:0x)?([0-9a-f]+) .*?(\S*)$", line)
        if match and not re.match(r"\[v", match[3]):
            yield match[3], range(int(match[1], 16) >> 12, int(match[2], 16) >> 12)
def pages(path, but=None):
    return {page for name, run in lists(path) if name != but for page in run}
named = set()
for line in open(sys.argv[4]):
    match = re.match(r"c\d+! m(?:un)?map (0x[0-9a-f]+) (\d+)", line)
    if match:
        named.update(range(int(match[1], 16) >> 12, (int(match[1], 16) + int(match[2]) + 4095) >> 12))
listed, shown = pages(sys.argv[2]), pages(sys.argv[3])
if sys.argv[1] == "named":
    listed &= named
elif sys.argv[1] == "accessed":
    ends = [int(end, 16) >> 12 for end in re.findall(r"sys_brk .*Success\((0x\w+)\)", open(sys.argv[6]).read())]
    given_back = {page for end in ends for page in range(end, max(ends))}
    listed = listed & named - (given_back - shown)
else:
    stack = {page for name, run in lists(sys.argv[5]) if name == "[stack]" for page in run}
    listed = pages(sys.argv[2], but="[stack]") | stack
print("  pages: %d in the kernel's list, %d at the trace's end, %d differ" % (len(listed), len(shown), len(listed ^ shown)))
sys.exit(1 if listed ^ shown else 0)
PY
}
compare() {
    local name=$1
    shift
    "$work/at_exec" "$@" > "$work/start" 2> /dev/null
    setarch -R strace -f -y -o "$work/log" -e trace=memory,process,write "$@" > "$work/listed" 2> /dev/null
    awk '/THE-END/ { exit } { print }' "$work/log" | grep -v ' write(' > "$work/log.part" || true
    "$program" import "$work/log.part" > "$work/trace" 2> "$work/told"
    differ "$name" named
    "$program" import --maps "$work/start" "$work/log.part" > "$work/trace" 2> "$work/told"
    differ "$name, behind its list" all
}
compare_accesses() {
    local name=$1
    shift
    valgrind --tool=lackey --trace-mem=yes --trace-syscalls=yes --log-file="$work/log" "$@" > "$work/listed" 2> /dev/null
    "$program" import --lackey "$work/log" > "$work/trace" 2> "$work/told"
    differ "$name, its accesses" accessed
}
compare "C with brk and mremap" "$work/heap"
compare "python with one thread" python3 "$work/maps.py" 1
compare "python with nine threads" python3 "$work/maps.py" 9
compare_accesses "no C library" "$work/touch"
compare_accesses "C with brk and mremap" "$work/heap" 300 300000
exit $status
