#!/usr/bin/env python3
"""Writes what comes of the logs in this folder: NAME.trace, which `radixvm import` makes of NAME.log, NAME.maps, which `radixvm maps` writes for that, and
NAME.svg, the lives of its mappings (`radixvm picture --lives`).
Usage: examples/real/make.py [--check | --record]; --check writes nothing, and tells which files are stale; --record makes the logs themselves anew, by strace,
but heap.log. The program is the one that ../program.sh finds."""
import pathlib
import shutil
import subprocess
import sys
import tempfile

HERE = pathlib.Path(__file__).resolve().parent
PROGRAM = subprocess.run([HERE.parent / "program.sh"], stdout=subprocess.PIPE, text=True, check=True).stdout.strip()
# What is recorded, in a new folder: a database that is killed while it is open, and a program with threads.
RECORD = """
mkfifo ask
strace -f -y -o database.log -e trace=memory,process sqlite3 /tmp/shop.db < ask > answers &
exec 3> ask
echo "pragma mmap_size = 50000000; create table t(a, b);
with recursive n(i) as (select 1 union all select i + 1 from n where i < 3000) insert into t select i, hex(randomblob(100)) from n;
select count(*) from t; insert into t select a, b from t; select sum(length(b)) from t;" >&3
until grep -q 1200000 answers; do sleep 0.1; done
kill -KILL $(pgrep -P $!)
wait
rm /tmp/shop.db
head -c 3000000 /dev/urandom > numbers
LC_ALL=C strace -f -ttt -T -y -o threads.log -e trace=memory,process xz -T2 --block-size=1MiB -0 numbers
"""
LOGS = ["database", "threads"]


def made(log, *words):
    """What the program writes for these words and a text, or a file's name."""
    return subprocess.run([PROGRAM, *words], input=log, stdout=subprocess.PIPE, stderr=subprocess.DEVNULL, check=True).stdout


def all_made():
    """Each file with its contents."""
    for name in ["heap", *LOGS]:
        trace = made((HERE / f"{name}.log").read_bytes(), "import")
        yield f"{name}.trace", trace
        yield f"{name}.maps", made(trace, "maps", *([] if name == "heap" else ["--names"]))
        yield f"{name}.svg", made(trace, "picture", "--lives")


def main():
    if sys.argv[1:] == ["--record"]:
        with tempfile.TemporaryDirectory() as folder:
            subprocess.run(["bash", "-ec", RECORD], cwd=folder, check=True)
            for name in LOGS:
                shutil.copy(f"{folder}/{name}.log", HERE)
    stale = [name for name, contents in all_made() if not (HERE / name).exists() or (HERE / name).read_bytes() != contents]
    if sys.argv[1:] == ["--check"]:
        sys.exit(f"examples/real/make.py: stale: {' '.join(stale)}" if stale else 0)
    for name, contents in all_made():
        (HERE / name).write_bytes(contents)


main()
