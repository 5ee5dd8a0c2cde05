#!/usr/bin/env python3
"""Runs the rows of crates/test_words/data on a built program, in seconds: crates/test_words/src/main.rt says how a row is written. Prints each row that
comes to something else, and counts them all. Rows that want a terminal are left out: `rt ci` runs those too.
It fails, too, where crates/test_words/args doesn't name each of these files, stdout next to it doesn't count their rows, or a file doesn't begin with a
comment.
Usage: bench/rows.py PROGRAM [FILE.rows..]
"""
import concurrent.futures
import os
import pathlib
import re
import subprocess
import sys

DATA = pathlib.Path(__file__).resolve().parent.parent / "crates/test_words/data"


def bytes_of(text):
    """What a text stands for: `\\xHH` is a byte, and `\\.` nothing."""
    return re.sub(rb"\\(?:x([0-9a-f]{2})|\.)", lambda found: bytes.fromhex(found[1].decode()) if found[1] else b"", text)


def line_of(line):
    """What a line stands for: `\\*N TEXT` is TEXT N times, and a line that ends with `\\c` has no newline."""
    text, end = (line[:-2], b"") if line.endswith(b"\\c") else (line, b"\n")
    repeated = re.fullmatch(rb"\\\*(\d+) (.*)", text, re.S)
    return (int(repeated[1]) * bytes_of(repeated[2]) if repeated else bytes_of(text)) + end


def lines_of(lines):
    """What the lines stand for, but comments and empty ones."""
    return b"".join(line_of(line) for line in lines.split(b"\n") if line and not line.startswith(b"#!"))


def is_part_right(part, came):
    """Tells whether one part of a row is what came."""
    head, _, lines = part.partition(b"\n")
    due, words = lines_of(lines), head.split(b" ", 3)
    stream = came.stdout if words[0] == b"out" else came.stderr
    if words[0] == b"status":
        return came.returncode == int(words[1])
    if len(words) == 1:
        return stream == due
    if words[1] == b"begins":
        return stream.startswith(due)
    return stream.count(bytes_of(words[3])) == int(words[2])


def is_right(parts, came):
    """Tells whether all parts of a row are what came, and what none names is nothing."""
    named = {part.split(b"\n")[0].split(b" ")[0] for part in parts}
    nothing = (b"out" in named or not came.stdout) and (b"err" in named or not came.stderr) and (b"status" in named or not came.returncode)
    return nothing and all(is_part_right(part, came) for part in parts)


def wrong_of(program, name, row):
    """The lists of words of a row that come to something else."""
    text, *parts = row.split(b"\n-- ")
    words, _, lines = text.partition(b"\n")
    wrong = []
    for given in (b" " + words).split(b" =="):
        given = [word for word in given.split(b" ") if word]
        if any(word in (b"@input", b"@output", b"@errors") for word in given):
            continue
        surroundings = dict(os.environ, NO_COLOR="1") if b"@NO_COLOR" in given else os.environ
        asked = [program, *(bytes_of(word) for word in given if not word.startswith(b"@"))]
        came = subprocess.run(asked, input=lines_of(lines), capture_output=True, cwd=DATA, env=surroundings, check=False)
        if not is_right(parts, came):
            wrong.append((name, b" ".join(given).decode(), came))
    return wrong


def is_listed():
    """Tells whether the program of the rows is asked for each file, takes it, and is to count its rows."""
    files = sorted(DATA.glob("*.rows"))
    counts = [(path.name, path.read_bytes().count(b"\n==")) for path in files]
    counted = "".join(f"{name}: {count} rows\n" for name, count in counts)
    asked = (DATA.parent / "args").read_text().split()
    if not all(path.read_bytes().startswith(b"#!") for path in files):
        return False
    return asked == [path.name for path in files] and counted == (DATA.parent / "stdout").read_text()


def main():
    if len(sys.argv) < 2 or not os.access(sys.argv[1], os.X_OK):
        sys.exit(__doc__)
    program = os.path.abspath(sys.argv[1])
    rows = [(name, row) for name in sys.argv[2:] or sorted(path.name for path in DATA.glob("*.rows"))
            for row in (DATA / name).read_bytes().split(b"\n==")[1:]]
    with concurrent.futures.ThreadPoolExecutor(os.cpu_count()) as pool:
        wrong = [it for found in pool.map(lambda it: wrong_of(program, *it), rows) for it in found]
    for name, words, came in wrong:
        print(f"{name}: {words}\n  status {came.returncode}\n  out {came.stdout[:600]}\n  err {came.stderr[:600]}")
    print(f"{len(rows)} rows, {len(wrong)} wrong")
    if not is_listed():
        print("crates/test_words: args or stdout isn't what data has, or a file of rows doesn't begin with #!")
    sys.exit(bool(wrong) or not is_listed())


main()
