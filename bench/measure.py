#!/usr/bin/env python3
"""Runs commands in turn with one file as their input, so many runs each, and prints for each command the median of its
processor time (user and system) in milliseconds, all on one line. Every run has to end well, and all have to write the same
text, byte for byte; with --own-texts each command has its own.

With --least it prints the least in place of the median: what else runs on the computer only adds to a time.

Usage: measure.py [--least] [--own-texts] RUNS INPUT COMMAND.. [-- COMMAND..]..
"""

import filecmp
import os
import resource
import statistics
import subprocess
import sys
import tempfile


def split_commands(words):
    commands = [[]]
    for word in words:
        if word == "--":
            commands.append([])
        else:
            commands[-1].append(word)
    return commands


def processor_time():
    """What ended children have used, in milliseconds."""
    used = resource.getrusage(resource.RUSAGE_CHILDREN)
    return 1000 * (used.ru_utime + used.ru_stime)


def run(command, input_path, output_path):
    """Runs the command once, and answers its processor time in milliseconds."""
    with open(input_path, "rb") as trace, open(output_path, "wb") as text:
        before = processor_time()
        status = subprocess.run(command, stdin=trace, stdout=text).returncode
        took = processor_time() - before
    if status != 0:
        sys.exit(f"measure.py: {' '.join(command)} ended with status {status}")
    return took


def main(words):
    flags = [word for word in words[:2] if word in ("--least", "--own-texts")]
    has_own_texts, told = "--own-texts" in flags, min if "--least" in flags else statistics.median
    runs, input_path, *rest = words[len(flags):]
    commands = split_commands(rest)
    times = [[] for _ in commands]
    with tempfile.TemporaryDirectory() as folder:
        for _ in range(int(runs)):
            for place, command in enumerate(commands):
                output_path = os.path.join(folder, str(place))
                times[place].append(run(command, input_path, output_path))
                if has_own_texts or place == 0:
                    continue
                if not filecmp.cmp(output_path, os.path.join(folder, "0"), shallow=False):
                    sys.exit(f"measure.py: {' '.join(command)} writes another text than {' '.join(commands[0])}")
    print(*(f"{told(each):.1f}" for each in times))


main(sys.argv[1:])
