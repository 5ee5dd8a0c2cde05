#!/usr/bin/env python3
"""Writes next to each NAME.trace its picture, NAME.svg, its page, NAME.html, and README.md, which has all lessons: four
sentences, the trace, and the state after the line that shows it.
Usage: examples/lessons/make.py [--check]; --check writes nothing, and tells which files are stale. The program is the one that ../program.sh finds."""
import pathlib
import subprocess
import sys

HERE = pathlib.Path(__file__).resolve().parent
PROGRAM = subprocess.run([HERE.parent / "program.sh"], stdout=subprocess.PIPE, text=True, check=True).stdout.strip()
FRONT = """# Five lessons

Each lesson is a short trace. `radixvm run --echo NAME.trace` writes the outcome of each line. `radixvm state --at N NAME.trace` writes the state of the
machine after line N. `radixvm picture NAME.trace` draws what happened, and `radixvm {html} NAME.trace` writes a page of HTML that steps through it.
[make.py](make.py) makes this page and the other files here. `bench/state_reading.py` reads the state after each line a second time, with a simple machine.
"""
# The name of each lesson, its title, the line after which the state shows it, and four sentences.
LESSONS = [
    ("stale", "A stale translation", 11, """\
An munmap has to take the page from every core that may still use it, and can't reach into another core.
So core 0 sends a message (a kernel sends an IPI), and waits. Core 1's translation is stale, and may still be used, since the munmap has no reply yet.
Core 1 handles the message by two takes: the first clears its tables, the second its TLB. In between, as here, the TLB still translates the page.
Only after the second take does core 0 go on, and from its reply on no core reads the byte again."""),
    ("recorded", "Shootdown of only the recorded cores", 10, """\
Each page knows the cores that a fault gave it to: they are recorded, and no other core can have a translation of it.
Core 0 unmaps the first page, and so only cores 1 and 2 get a message; core 3 has used the second page alone, and goes on undisturbed.
Core 2's TLB had dropped the page before, but its tables still have it, so it has to take the message all the same.
A page that is mapped anew has no recorded cores, and its munmap at the end waits for nobody."""),
    ("locks", "Locks and folding", 11, """\
512 pages that are mapped at once lie in one slot, which is locked as a whole and takes the memory of one.
Core 0 changes one of them, so it splits the slot into 512, and locks the one that it needs.
Core 1 changes the next page at the same time, and waits only for the page that core 0 holds.
Once all 512 pages are alike again, and no call holds one, a fold joins them into one slot."""),
    ("epochs", "Refcache over three epochs", 12, """\
A frame may be used again only if no page has it, but a count that all cores share would slow each of them down.
So a core keeps its changes of counts to itself: after line 7 the state has `core 0 count frame 0 -1`, and frame 0's true count is 0, its global one still 1.
Line 11 adds this to the global count, which is 0 now, and puts the frame into core 0's queue, since another core may still keep a change of it.
A core with nothing to add is marked, as core 0 is here, and the last mark ends the epoch: when two have ended, and the count stayed 0, a review frees it."""),
    ("copies", "Private copies", 12, """\
A private page of a file shows the file's own frame until a core stores to it, so here both cores read what was stored through the shared mapping.
The first store gives the page a copy, which is a frame of its own, and core 1's translation leads to the file's frame: it is stale, and core 0 waits for it.
After core 1's two takes the store is done, and both cores find the copy with its byte.
From then on the page doesn't see what is stored to the file, and the file never sees the page's byte."""),
]


def run(*words):
    done = subprocess.run([PROGRAM, *words], capture_output=True, text=True, check=False)
    if done.returncode != 0:
        sys.exit(f"{' '.join(words)}: status {done.returncode}: {done.stderr}")
    return done.stdout


def section(name, title, line, text):
    """What the page says of one lesson."""
    trace = (HERE / f"{name}.trace").read_text()
    said = trace.split("\n")[line - 1]
    state = run("state", "--at", str(line), str(HERE / f"{name}.trace"))
    front = f"\n## {title}\n\n{text}\n\n[{name}.trace]({name}.trace), [picture]({name}.svg), [page]({name}.html):\n\n```\n{trace}```\n"
    return f"{front}\nThe state after line {line}, `{said}`:\n\n```\n{state}```\n"


def main():
    check, html = sys.argv[1:] == ["--check"], "html" if "\n  html " in run("help") else "page"
    if sorted(name for name, *_ in LESSONS) != sorted(path.stem for path in HERE.glob("*.trace")):
        sys.exit("these aren't the lessons whose traces are here")
    files = {"README.md": FRONT.format(html=html) + "".join(section(*lesson) for lesson in LESSONS)}
    for name, *_ in LESSONS:
        files[f"{name}.svg"] = run("picture", str(HERE / f"{name}.trace"))
        files[f"{name}.html"] = run(html, str(HERE / f"{name}.trace"))
    stale = [name for name, text in files.items() if not (HERE / name).exists() or (HERE / name).read_text() != text]
    for name in stale:
        print(f"{name}: {'stale' if check else 'written'}")
        if not check:
            (HERE / name).write_text(files[name])
    print(f"{len(LESSONS)} lessons, {len(files) - len(stale)} of {len(files)} files as they were")
    sys.exit(1 if check and stale else 0)


if __name__ == "__main__":
    main()
