#!/usr/bin/env python3
"""Tells which libraries of the repository a line of crates.txt names though its crate doesn't cite them, and how many ways lead down from all
libraries. Some kits go each of these ways at every gate, reading the crates on it: 3 ms a way, so that a million ways take an hour. Fails
where a line names too much, or where there are more ways than LIMIT. Usage: bench/lists.py"""
import functools
import pathlib
import re
import sys

TOP = pathlib.Path(__file__).resolve().parent.parent
LIMIT = 160_000


def lists():
    """Each crate of crates.txt with the libraries of its line, those of the kit too."""
    lines = [line.split("#")[0].strip() for line in (TOP / "crates.txt").read_text().split("\n")]
    return {line.split(":")[0].split()[0]: line.split(":")[1].split() for line in lines if line}


def cited(crate):
    """The words that a crate's files have where a library's name may stand."""
    files = [path for part in ("src", "specs", "proofs", "must-fail") for path in (TOP / "crates" / crate / part).rglob("*.*t")]
    return {word for path in files for found in re.findall(r"\bRattle\.(\w+)|\b(\w+)::|\buse\s+(?!Rattle\.)(\w+)", path.read_text()) for word in found}


def main():
    named = lists()
    spare = {crate: [it for it in below if it in named and it not in words] for crate, below in named.items() if (words := cited(crate))}

    @functools.lru_cache(None)
    def ways(crate):
        return 1 + sum(ways(it) for it in named[crate] if it in named)

    total = sum(ways(crate) for crate in named if not (TOP / "crates" / crate / "src/main.rt").exists())
    for crate, names in spare.items():
        if names:
            print(f"{crate} doesn't cite {', '.join(names)}")
    most = sorted(named, key=ways)[-4:]
    print(f"{len(named)} crates, {total} ways down from all libraries; most from {', '.join(f'{it} {ways(it)}' for it in reversed(most))}")
    return 1 if total > LIMIT or any(spare.values()) else 0


sys.exit(main())
