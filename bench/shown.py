#!/usr/bin/env python3
"""Compares all that README.md, docs/ and examples/ show of the program with what it writes: each block of indented lines of a document after a comment
`<!-- output of: COMMAND -->`, a shell command in which `radixvm` is the program; each NAME.out of examples/, and shootdown.svg; and what the scripts
examples/litmus/make.py, examples/lessons/make.py and examples/real/make.py make. It fails where something differs; with --write it puts the output there.
Each text that these commands and the examples of help are given, and what comes of it, is a row of crates/test_words/data/shown.rows, which the gate runs:
so that file is made, and compared, too. No rows have pictures, HTML, what `live` writes, or what is read from two files.
The program is the one that examples/program.sh finds. Usage: bench/shown.py [--write]"""
import os
import pathlib
import re
import subprocess
import sys
import tempfile

import examples

TOP = pathlib.Path(__file__).resolve().parent.parent
ROWS = TOP / "crates/test_words/data/shown.rows"
FRONT = "#! What README.md, docs/, examples/ and the help show, made by bench/shown.py: the text that a command is given, and what it writes.\n"
# Stands for the program: keeps the arguments, the text and what came of it, and passes that on.
RECORDER = """#!/usr/bin/env python3
import os, subprocess, sys, tempfile
words = sys.argv[1:]
files = [k for k, word in enumerate(words) if os.path.isfile(word)]
text = open(words[files[0]], "rb").read() if files else b"" if words[:1] == ["help"] else sys.stdin.buffer.read()
came = subprocess.run([{program!r}, *words], input=None if files else text, capture_output=True)
if len(files) < 2 and not set(words) & {{"html", "picture", "live", "help", "--to-c", "--live"}}:
    said = [word for k, word in enumerate(words) if k not in files]
    folder = tempfile.mkdtemp(dir={kept!r})
    named = words[files[0]] if files else "standard input"
    litmus = os.path.basename(named).removesuffix(".litmus").encode()
    errors = came.stderr.replace(named.encode(), b"standard input")
    out = came.stdout.replace(b"Observation " + litmus + b" ", b"Observation litmus ")
    for name, value in [("words", " ".join(said).encode()), ("text", text), ("out", out), ("err", errors), ("status", b"%d" % came.returncode)]:
        open(os.path.join(folder, name), "wb").write(value)
sys.stdout.buffer.write(came.stdout)
sys.stdout.flush()
sys.stderr.buffer.write(came.stderr)
sys.exit(came.returncode)
"""
BLOCK = re.compile(r"<!-- output of: (.*?) -->\n\n((?:    .*\n)*)")
DOCUMENTS = ["README.md", *sorted(str(path.relative_to(TOP)) for path in [*TOP.glob("docs/*.md"), *TOP.glob("examples/**/*.md")])]
MAKERS = ["litmus", "lessons", "real"]
# What writes the files of examples/ that `run` doesn't.
COMMANDS = {
    "log.out": "radixvm run --log examples/log.trace",
    "maps.out": "radixvm maps examples/maps.trace",
    "load.out": "radixvm certify examples/load.notes",
    "refused.out": "radixvm certify examples/refused.notes",
    "threads.out": "radixvm live --certify examples/threads.script",
    "shared.out": "radixvm live --one-machine examples/shared.script | radixvm audit",
    "audit.out": "radixvm audit examples/audit.replies 2>/dev/null",
    "shootdown.svg": "radixvm picture examples/shootdown.trace",
}


def command_of(name):
    return COMMANDS.get(name, f"radixvm run examples/{name.removesuffix('.out')}.trace")


def lines_of(text):
    """A text as a row has it."""
    if not text:
        return ""
    whole = text.endswith(b"\n")
    lines = ["".join(chr(byte) if 32 <= byte < 127 and byte != 92 else f"\\x{byte:02x}" for byte in line) for line in text.removesuffix(b"\n").split(b"\n")]
    lines = [line or "\\." for line in lines]
    lines = [f"\\x{ord(line[0]):02x}{line[1:]}" if line.startswith(("#!", "==", "-- ")) else line for line in lines]
    return "\n".join(lines) + ("\n" if whole else "\\c\n")


def row_of(folder):
    """What was kept of one run, as a row."""
    words, text, out, err, status = ((folder / name).read_bytes() for name in ("words", "text", "out", "err", "status"))
    row = f"\n== {words.decode()}\n{lines_of(text)}"
    row += f"-- out\n{lines_of(out)}" if out else ""
    row += f"-- err\n{lines_of(err)}" if err else ""
    return row + (f"-- status {status.decode()}\n" if status != b"0" else "")


class Shown:
    """Compares texts with what the program writes, or writes them anew."""

    def __init__(self, folder, writes):
        self.env = {**os.environ, "PATH": f"{folder}:{os.environ['PATH']}", "RADIXVM": f"{folder}/radixvm"}
        # Two runs of `live` may write other orders: such commands are run by the program itself.
        self.bare = {**self.env, "PATH": f"{folder}/bare:{os.environ['PATH']}"}
        self.writes = writes
        self.count = self.differ = 0

    def output(self, command):
        done = subprocess.run(["bash", "-c", command], cwd=TOP, capture_output=True, text=True, env=self.bare if " live " in command else self.env)
        return done.stdout

    def compare(self, where, command, shown, now):
        self.count += 1
        if now != shown:
            self.differ += 1
            print(f"{where}: {command} writes\n{now}")

    def document(self, name):
        """The blocks of a document."""
        path = TOP / name
        text = path.read_text()

        def put(found):
            now = "".join(f"    {line}\n" for line in self.output(found[1]).splitlines())
            self.compare(name, found[1], found[2], now)
            return f"<!-- output of: {found[1]} -->\n\n{now}"

        new = BLOCK.sub(put, text)
        if self.writes and new != text:
            path.write_text(new)

    def example(self, name):
        """A file of examples/."""
        path = TOP / "examples" / name
        now = self.output(command_of(name))
        self.compare(f"examples/{name}", command_of(name), path.read_text(), now)
        if self.writes:
            path.write_text(now)

    def maker(self, name):
        """What a script of its own makes."""
        self.count += 1
        script = TOP / "examples" / name / "make.py"
        self.differ += subprocess.run([script, *([] if self.writes else ["--check"])], env=self.env).returncode != 0

    def rows(self, kept):
        """The rows of all that was run, each once."""
        now = FRONT + "".join(sorted({row_of(folder) for folder in kept.iterdir()}))
        self.count += 1
        if not ROWS.exists() or ROWS.read_text() != now:
            self.differ += 1
            print(f"{ROWS.relative_to(TOP)}: {'written' if self.writes else 'stale'}")
            if self.writes:
                ROWS.write_text(now)
        return now.count("\n==")


def main():
    program = subprocess.run([TOP / "examples/program.sh"], stdout=subprocess.PIPE, text=True)
    if program.returncode:
        sys.exit(program.returncode)
    with tempfile.TemporaryDirectory() as folder:
        kept = pathlib.Path(folder) / "kept"
        kept.mkdir()
        os.mkdir(f"{folder}/bare")
        os.symlink(program.stdout.strip(), f"{folder}/bare/radixvm")
        recorder = pathlib.Path(folder) / "radixvm"
        recorder.write_text(RECORDER.format(program=program.stdout.strip(), kept=str(kept)))
        recorder.chmod(0o755)
        shown = Shown(folder, "--write" in sys.argv[1:])
        for name in DOCUMENTS:
            shown.document(name)
        for name in sorted({path.name for path in (TOP / "examples").glob("*.out")} | COMMANDS.keys()):
            shown.example(name)
        for name in MAKERS:
            shown.maker(name)
        for _, command, _ in examples.examples():
            shown.output(re.sub(r"> \S+$", "> /dev/null", command))
        rows = shown.rows(kept)
    print(f"{shown.count} things shown, {shown.differ} differ; {rows} rows")
    sys.exit(1 if shown.differ and not shown.writes else 0)


if __name__ == "__main__":
    main()
