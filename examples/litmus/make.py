#!/usr/bin/env python3
"""Writes next to each NAME.litmus what `radixvm litmus` writes for it, as NAME.out, and README.md, a page of all: what each test teaches (by the table of
../README.md, in whose order they come), its lines, its outcomes, and whether its clauses hold.
Usage: examples/litmus/make.py [--check]; --check writes nothing, and tells which files are stale. The program is the one that ../program.sh finds."""
import pathlib
import re
import subprocess
import sys

HERE = pathlib.Path(__file__).resolve().parent
PROGRAM = subprocess.run([HERE.parent / "program.sh"], stdout=subprocess.PIPE, text=True, check=True).stdout.strip()
FRONT = """# Ten litmus tests

A litmus test is a few calls of several cores. `radixvm litmus NAME.litmus` lists every outcome that some schedule gives, and judges the clauses. `exact`
is proved: each outcome has a run, and no other can come, except with noframe or nomemory. `radixvm litmus --witness K NAME.litmus` writes a trace that
has outcome K, and `--picture K` draws it. `radixvm help litmus` explains the lines. [make.py](make.py) makes this page.
"""


def run(*words):
    done = subprocess.run([PROGRAM, "litmus", *words], capture_output=True, text=True, check=False)
    if done.returncode not in (0, 1) or done.stderr:
        sys.exit(f"litmus {' '.join(words)}: status {done.returncode}: {done.stderr}")
    return done.stdout


def comment_and_lines(text):
    """The comment in front of a test, and its lines."""
    lines = text.split("\n")
    count = next(k for k, line in enumerate(lines) if not line.startswith("#"))
    return " ".join(line[1:].strip() for line in lines[:count]), "\n".join(lines[count:])


def section(name, lesson, text, out):
    """What the page says of one test."""
    _, lines = comment_and_lines(text)
    yield f"\n## {name}\n\n{lesson[0].upper() + lesson[1:]}.\n\n```\n{lines.rstrip()}\n```\n\n"
    said = [line for line in out.rstrip("\n").split("\n") if not line.startswith(("Observation", "outcomes"))]
    yield "```\n" + "\n".join(said) + "\n```\n"


def main():
    check = sys.argv[1:] == ["--check"]
    tests = [path.stem for path in HERE.glob("*.litmus")]
    lessons = {name: lesson for name, lesson in re.findall(r"^\| ([\w-]+) \| (.*) \|$", (HERE.parent / "README.md").read_text(), re.M) if name in tests}
    if sorted(lessons) != sorted(tests):
        sys.exit("the table of ../README.md hasn't exactly the tests that are here")
    files, page = {}, [FRONT]
    for name in lessons:
        out = run(str(HERE / f"{name}.litmus"))
        files[f"{name}.out"] = out
        page += section(name, lessons[name], (HERE / f"{name}.litmus").read_text(), out)
    files["README.md"] = "".join(page)
    stale = [name for name, text in files.items() if not (HERE / name).exists() or (HERE / name).read_text() != text]
    for name in stale:
        print(f"{name}: {'stale' if check else 'written'}")
        if not check:
            (HERE / name).write_text(files[name])
    print(f"{len(tests)} tests, {len(files) - len(stale)} of {len(files)} files as they were")
    sys.exit(1 if check and stale else 0)


if __name__ == "__main__":
    main()
