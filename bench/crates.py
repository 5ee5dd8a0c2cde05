#!/usr/bin/env python3
"""Writes the table of docs/ARCHITECTURE.md below its mark: of each family (a heading of crates.txt) its crates, each with how many crates stand
above it. Without a word it also prints of each crate the first line of its root file, which says what it is; with --lines how many lines of
code it has. With --check it writes nothing, and fails where that page differs, where a first line isn't one sentence of at most 120 bytes with its full stop, where a crate has more than
1,500 lines of code, where it stands before one that it uses, or where there are more than 81 crates.
A line of code isn't blank, and isn't of a comment, of a ghost item or of a contract's clause. Usage: bench/crates.py [--check | --lines]"""
import pathlib
import re
import sys

TOP = pathlib.Path(__file__).resolve().parent.parent
PAGE = TOP / "docs/ARCHITECTURE.md"
MARK = "<!-- bench/crates.py writes what is below. -->"
MOST_CRATES = 81
MOST_BYTES = 120
MOST_CODE = 1_500

# Crates that may be larger, each with the reason.
LARGER = {
    "core_steps": "steps made at once are methods of the engine, which another crate can't give it",
    "litmus_report": "49 lines too many, until its C is a crate of its own",
    "live_pages": "20 lines too many, until the set of free frames goes to frames",
    "order_search": "a search whose insides are to be planned anew",
    "word_import": "80 lines too many, until replies are a crate of their own",
}

GHOST = re.compile(r"ghost\b|(pub )?(requires|ensures|decreases|invariant|terminates)\b")


def listed():
    """The families of crates.txt in order: of each its heading, and of each of its crates the name and what it uses. The file's own comment
    in front is none."""
    families = []
    for at, line in enumerate((TOP / "crates.txt").read_text(encoding="utf-8").split("\n")):
        if line.startswith("# ") and at > 0:
            families.append((line[2:].strip(), []))
        elif line.strip() and not line.startswith("#"):
            head, _, below = line.partition(":")
            if not families:
                families.append(("Crates", []))
            families[-1][1].append((head.split()[0], below.split()))
    return families


def first_line(crate):
    """The first line of the crate's root file, without the marks of a comment."""
    source = TOP / "crates" / crate / "src"
    for name in ("lib.rt", "main.rt"):
        if (source / name).exists():
            line = (source / name).read_text(encoding="utf-8").split("\n", 1)[0]
            return line[3:].strip() if line.startswith("//!") else ""
    return ""


def is_sentence(text):
    """Whether a text is one sentence with its full stop, and short enough."""
    inside = re.sub(r"`[^`]*`", "", text[:-1])
    return text.endswith(".") and len(text.encode()) <= MOST_BYTES and not re.search(r"[.!?] ", inside)


def depth_of(line):
    """How many brackets a line leaves open, but for those in what it quotes."""
    bare = re.sub(r"'(\\.|[^'\\])'|\"(\\.|[^\"\\])*\"", "", line.split("//")[0])
    return sum(bare.count(it) for it in "{([") - sum(bare.count(it) for it in "})]")


def code_of(text):
    """How many lines of a source are code."""
    count, open_brackets, in_ghost = 0, 0, False
    for line in text.split("\n"):
        line = line.strip()
        if in_ghost:
            open_brackets += depth_of(line)
        elif line and not line.startswith("//"):
            in_ghost = bool(GHOST.match(line))
            open_brackets = depth_of(line) if in_ghost else 0
            count += not in_ghost
        in_ghost = in_ghost and open_brackets > 0
    return count


def code_in(crate):
    return sum(code_of(path.read_text(encoding="utf-8")) for path in (TOP / "crates" / crate / "src").rglob("*.rt"))


def above(families):
    """Of each crate how many crates use it, themselves or through others."""
    users = {}
    for _, crates in reversed(families):
        for crate, below in reversed(crates):
            for name in below:
                users.setdefault(name, set()).update({crate}, users.get(crate, ()))
    return {crate: len(users.get(crate, ())) for _, crates in families for crate, _ in crates}


def tables(families):
    """What stands below the mark: a row for each family."""
    counts = above(families)
    rows = [f"| {family} | {', '.join(f'{crate} {counts[crate]}' for crate, _ in crates)} |" for family, crates in families]
    return "\n".join(["| Family | Crates, each with how many use it, themselves or through others |", "|---|---|", *rows]) + "\n"


def faults(families, page, wanted):
    if page != wanted:
        yield "docs/ARCHITECTURE.md hasn't the table of crates.txt: run bench/crates.py"
    every = [crate for _, crates in families for crate, _ in crates]
    behind = set()
    for _, crates in families:
        for crate, below in crates:
            text, code = first_line(crate), code_in(crate)
            if not is_sentence(text):
                yield f"{crate}: its first line isn't one sentence of at most {MOST_BYTES} bytes with its full stop: {text[:60]}"
            if code > MOST_CODE and crate not in LARGER:
                yield f"{crate} has {code:,} lines of code, over {MOST_CODE:,}"
            if code <= MOST_CODE and crate in LARGER:
                yield f"{crate} has {code:,} lines of code and needs no exception of bench/crates.py"
            for name in below:
                if name in every and name not in behind:
                    yield f"{crate} stands before {name}, which it uses"
            behind.add(crate)
    for crate in sorted(LARGER.keys() - set(every)):
        yield f"bench/crates.py has an exception for {crate}, which is no crate"
    if len(every) > MOST_CRATES:
        yield f"there are {len(every)} crates, and {MOST_CRATES} at most"


def main():
    families = listed()
    page = PAGE.read_text(encoding="utf-8")
    front, mark, _ = page.partition(MARK)
    if not mark:
        sys.exit(f"docs/ARCHITECTURE.md has no line {MARK}")
    wanted = f"{front}{MARK}\n\n{tables(families)}"
    if "--lines" in sys.argv[1:]:
        for _, crates in families:
            for crate, _ in crates:
                print(f"{code_in(crate):6} {crate}")
    elif "--check" in sys.argv[1:]:
        found = list(faults(families, page, wanted))
        for fault in found:
            print(fault)
        sys.exit(1 if found else 0)
    else:
        PAGE.write_text(wanted, encoding="utf-8")
        for _, crates in families:
            for crate, _ in crates:
                print(f"{crate}: {first_line(crate)}")


main()
