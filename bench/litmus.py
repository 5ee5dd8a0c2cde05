#!/usr/bin/env python3
"""Runs litmus tests through `radixvm litmus`, and compares their sets of outcomes and what their clauses come to with those that another
simulator gave. Tests whose lists have an mmap without f, or whose sets have `noframe`, are passed over. A file NAME.out has an outcome in a line, core by
core, then what loads of the final addresses show, and then the mappings for a line `final maps`, divided by `, `; and then each clause behind `ok` or
`not`, with `(N of M)` for how many of the outcomes its condition holds. Each witness is run, too: its last replies have to be those of its outcome, with
core 0's loads of the final addresses behind them, and `maps` has to show its mappings.
Usage: bench/litmus.py TESTS EXPECTED; RADIXVM_PROGRAM names the program."""
import os
import pathlib
import re
import subprocess
import sys

TOP = pathlib.Path(__file__).resolve().parent.parent
PROGRAM = os.environ.get("RADIXVM_PROGRAM", str(TOP / "crates/radixvm/out/radixvm"))


def run(words, text=None):
    done = subprocess.run([PROGRAM, *words], input=text, capture_output=True, text=True)
    return done.stdout, done.returncode


def wanted(path):
    """The outcomes, and of each clause its text, whether it holds, and how many outcomes its condition holds of."""
    outcomes, clauses = set(), []
    for line in path.read_text().split("\n"):
        clause = re.fullmatch(r"\s*(ok|not)\s+(.*) \((\d+) of (\d+)\)\s*", line)
        if clause:
            clauses.append((clause[2], clause[1] == "ok", int(clause[3]), int(clause[4])))
        elif line.strip():
            outcomes.add(tuple(line.strip().split(", ")))
    return outcomes, clauses


def told(out):
    """The same as the program tells it, the lines of its outcomes, and how the search ended."""
    outcomes, verdicts, counts, lines, end = set(), [], [], [], []
    for line in out.split("\n"):
        numbered = re.fullmatch(r"(\d+): (.*)", line)
        verdict = re.fullmatch(r"((?:exists|never|forall) .*): (holds|fails|open)", line)
        count = re.fullmatch(r"Observation \S+ (Always|Sometimes|Never) (\d+) (\d+)", line)
        if numbered:
            values = []
            for part in numbered[2].split("; "):
                head, rest = part.split(" ", 1)
                values += rest.split(", ") if head[0] == "c" else [rest]
            outcomes.add(tuple(values))
            lines.append(values)
        elif verdict:
            verdicts.append((verdict[1], verdict[2]))
        elif count:
            counts.append((int(count[2]), int(count[3])))
        elif line and not line.startswith("outcomes "):
            end.append(line)
    return outcomes, verdicts, counts, lines, end


def replies_of(trace):
    """What the calls behind the opening are answered by a run of the trace, core by core."""
    out, status = run(["run", "--echo"], trace)
    if status:
        return None
    answers = {}
    for line in out.split("\n"):
        parts = re.fullmatch(r"c(\d+)(! .*| finish| go| call .*) = (.*)", line)
        if parts and not re.match(r"step|idle|full|wait|stuck", parts[3]):
            answers.setdefault(int(parts[1]), []).append(parts[3])
    return answers


def mappings_of(trace):
    """The mappings at the end of the trace, as a column has them."""
    return " | ".join(run(["maps"], trace)[0].splitlines()) or "nothing"


def check(test, expected):
    """What is wrong with a test."""
    wrong = []
    script = test.read_text()
    outcomes, clauses = wanted(expected)
    maps = "final maps\n" in script
    listed = script.split("together\n", 1)[-1]
    if any("noframe" in outcome for outcome in outcomes) or re.search(r"^c\d+! mmap \S+ \S+ \S+ [^f\s]+(\s|$)", listed, re.M):
        return None, 0
    out, status = run(["litmus"], script)
    mine, verdicts, counts, lines, end = told(out)
    if "exact" not in end:
        wrong.append(f"ends with {end}, status {status}")
    if mine != outcomes:
        wrong.append(f"lacks {sorted(outcomes - mine)}, has {sorted(mine - outcomes)}")
    for (text, holds, count, all_of), (said, verdict), (positive, negative) in zip(clauses, verdicts, counts):
        if text != said or verdict != ("holds" if holds else "fails") or (positive, negative) != (count, all_of - count):
            wrong.append(f"{text}: told {said}: {verdict}, {positive} and {negative}")
    if not len(clauses) == len(verdicts) == len(counts):
        wrong.append(f"{len(clauses)} clauses, told {len(verdicts)} and {len(counts)}")
    if status != (0 if all(c[1] for c in clauses) else 1):
        wrong.append(f"status {status}")
    cores = sorted({int(c) for c in re.findall(r"^c(\d+)! ", listed, re.M)})
    many = {c: len(re.findall(rf"^c{c}! ", listed, re.M)) for c in cores}
    for number, values in enumerate(lines, 1):
        trace, status = run(["litmus", "--witness", str(number)], script)
        answers = replies_of(trace) or {}
        finals = len(values) - sum(many.values()) - maps
        first = answers.get(0, [])
        answers[0], shown = first[: len(first) - finals], first[len(first) - finals :]
        got = [r for c in cores for r in answers.get(c, [])[-many[c] :]] + shown + [mappings_of(trace)] * maps
        if status or got != values:
            wrong.append(f"witness {number}: due {values}, got {got}, status {status}")
    return wrong, len(lines)


def main():
    tests, expected = map(pathlib.Path, sys.argv[1:3])
    bad = checked = witnesses = passed = 0
    for test in sorted(tests.glob("*.litmus")):
        wrong, count = check(test, expected / (test.stem + ".out"))
        if wrong is None:
            passed += 1
            continue
        checked += 1
        witnesses += count
        for what in wrong:
            print(f"{test.stem}: {what}")
        bad += bool(wrong)
    print(f"{checked} tests, {witnesses} witnesses, {bad} tests wrong, {passed} passed over")
    sys.exit(1 if bad or not checked else 0)


if __name__ == "__main__":
    main()
