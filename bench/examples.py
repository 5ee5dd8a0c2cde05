#!/usr/bin/env python3
"""Runs each example of the help's texts, as a user would paste it, at the repository's root: it has to write something, nothing but a verdict may make its
status 1, and what the text says after "writes" in its last line has to be in what it wrote. The program is the built one, or RADIXVM_PROGRAM.
Usage: bench/examples.py"""
import glob
import os
import re
import subprocess
import sys
import tempfile

TOP = os.path.dirname(os.path.dirname(os.path.abspath(__file__)))
PROGRAM = os.environ.get("RADIXVM_PROGRAM", f"{TOP}/crates/radixvm/out/radixvm")


def examples():
    """Each help text's name, and its examples' commands, each with what is said of it."""
    for path in sorted(glob.glob(f"{TOP}/crates/word_help/src/*.rt")):
        source = open(path, encoding="utf-8").read()
        for name, text in re.findall(r'^pub const (\w+): &str = "\\\n(.*?)";$', source, re.M | re.S):
            text = re.sub(r'\\(["\\])', r"\1", text)
            for paragraph in text.split("\n\n"):
                if not paragraph.startswith("Example"):
                    continue
                lines = paragraph.split("\n")[1:]
                commands = re.sub(r"\\\n +", "", "\n".join(line for line in lines if line.startswith("  "))).split("\n")
                said = " ".join(line for line in lines if not line.startswith("  "))
                for number, command in enumerate(commands):
                    yield name, command.strip(), said if number == len(commands) - 1 else ""


def faults(folder):
    for name, command, said in examples():
        place = f"{folder}/files"
        os.makedirs(place, exist_ok=True)
        line = re.sub(r"> (\S+)$", rf"> {place}/out; test -s {place}/out", command)
        done = subprocess.run(["bash", "-o", "pipefail", "-c", line], cwd=TOP, capture_output=True, text=True, env={**os.environ, "PATH": f"{folder}:{os.environ['PATH']}"})
        if done.returncode > 1 or not done.stdout and ">" not in command:
            yield f"{name}: ends with status {done.returncode}: {command}: {done.stderr[:200]}"
        words = re.search(r"writes (.*?)(?:, each on| and that|\.$|\.? *$)", said)
        for part in re.split(r", and |, | and ", words[1]) if words else []:
            if part.strip(", ") not in done.stdout:
                yield f"{name}: doesn't write '{part}': {command}"


def main():
    if not os.path.exists(PROGRAM):
        sys.exit(f"examples.py: no program {PROGRAM}: build it, or set RADIXVM_PROGRAM")
    with tempfile.TemporaryDirectory() as folder:
        os.symlink(os.path.abspath(PROGRAM), f"{folder}/radixvm")
        found = list(faults(folder))
    for fault in found:
        print(fault)
    print(f"{len(list(examples()))} examples, {len(found)} wrong")
    sys.exit(1 if found else 0)


if __name__ == "__main__":
    main()
