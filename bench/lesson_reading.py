"""A simple machine that reads the traces of examples/lessons, and says what `radixvm state` has to show behind each of their lines. It takes steps of
range calls one by one, knows slots that are cut, locked and folded, pages of files and their private copies, counts of frames and epochs, and replays
accesses whole. It shares nothing with the program but what the help says. bench/state_reading.py runs it."""
import pathlib
import subprocess

from frame_counts import FrameCounts
from state_objects import text_of

LESSONS = pathlib.Path(__file__).resolve().parent.parent / "examples/lessons"
SIZES = [1 << 27, 1 << 18, 1 << 9, 1]  # pages of a slot, level by level


class Reader:
    def __init__(self, cores, frames):
        self.cores, self.counts, self.cut = cores, FrameCounts(cores, frames), set()
        self.pages = {}  # page: its rights, its file's page and whether that is shared, its frame, and the cores recorded there
        self.cached = {}  # the frame of a page of a file
        self.tables, self.tlbs = [{} for _ in range(cores)], [[] for _ in range(cores)]  # (frame, write, exec), and [page, entry]
        self.inboxes, self.calls = [[] for _ in range(cores)], [None] * cores  # [from, first, end, cleared]

    # ---- slots

    def slot(self, page):
        """The first page and the size of the slot that a page lies in, and its level."""
        level = 0
        while (level, page // SIZES[level]) in self.cut:
            level += 1
        return page // SIZES[level] * SIZES[level], SIZES[level], level

    def held(self, first, end, but=None):
        return any(call and c != but and any(a < end and first < b for a, b in call["held"]) for c, call in enumerate(self.calls))

    def fold(self, page):
        _, _, level = self.slot(page)
        node = page // SIZES[level - 1]
        first, end = node * SIZES[level - 1], (node + 1) * SIZES[level - 1]
        if level == 0 or any(self.slot(p)[2] > level for p in range(first, end, SIZES[level])) or self.held(first, end):
            return
        infos = [self.pages.get(p) for p in range(first, end)]
        if any(info and (info["frame"] is not None or info["cores"]) for info in infos):
            return
        if len({None if info is None else (info["prot"], info["back"] and info["back"][0]) for info in infos}) == 1:
            self.cut.discard((level - 1, node))

    # ---- shootdown

    def drop(self, core, first, end):
        self.tlbs[core] = [e for e in self.tlbs[core] if not first <= e[0] < end]

    def clear(self, core, first, end):
        self.tables[core] = {p: e for p, e in self.tables[core].items() if not first <= p < end}

    def tell(self, core, first, end):
        told = {c for p in range(first, end) if p in self.pages for c in self.pages[p]["cores"]}
        self.clear(core, first, end)
        self.drop(core, first, end)
        for other in sorted(told - {core}):
            self.inboxes[other].append([core, first, end, False])

    def take(self, core):
        if self.inboxes[core]:
            message = self.inboxes[core][0]
            (self.drop if message[3] else self.clear)(core, message[1], message[2])
            if message[3]:
                self.inboxes[core].pop(0)
            message[3] = True

    # ---- calls

    def begin(self, core, word, first, end, new=None):
        self.calls[core] = {"word": word, "first": first, "end": end, "new": new, "does": "checks its arguments", "at": first, "held": []}

    def lock(self, core, call):
        """Cuts or locks the next slot, unless another call holds it."""
        first, size, level = self.slot(call["at"])
        if self.held(first, first + size, core):
            return False
        if first < call["first"] or first + size > call["end"]:
            self.cut.add((level, first // size))
            return True
        call["held"].append((first, first + size))
        call["at"] = first + size
        if call["at"] >= call["end"]:
            call["does"] = "decides on"
        return True

    def change(self, core, call):
        for page in range(call["first"], call["end"]):
            info = self.pages.get(page)
            if call["word"] == "mprotect":
                info.update(prot=call["new"], cores=set())
                continue
            if info and info["frame"] is not None:
                self.counts.add(core, info["frame"], -1)
            self.pages.pop(page, None)
            if call["word"] == "mmap":
                prot, back = call["new"]
                self.pages[page] = {"prot": prot, "back": back and (back[0], back[1] + page - call["first"], back[2]), "frame": None, "cores": set()}

    def step(self, core):
        """One step of a core's call, and whether there was one."""
        call = self.calls[core]
        if call is None:
            return False
        does = call["does"]
        if does == "locks":
            return self.lock(core, call)
        if does == "awaits cores for":
            if any(message[0] == core for box in self.inboxes for message in box):
                return False
            if call["word"] == "store":
                self.copy(core, call["first"], call["frame"])
                self.calls[core] = None
                return True
            self.change(core, call)
        if does == "asks cores to drop":
            self.tell(core, call["first"], call["end"])
        if does == "unlocks":
            call["held"] = []
        if does == "answers":
            self.calls[core] = None
            return True
        order = ["checks its arguments", "locks", "decides on", "asks cores to drop", "awaits cores for", "unlocks", "answers"]
        call["does"] = order[order.index(does) + 1]
        return True

    def finish(self, core):
        while self.step(core):
            pass

    # ---- accesses

    def enter(self, core, page):
        """The core is recorded on the page, and its tables and TLB get it. A private page that shows its file isn't written."""
        info = self.pages[page]
        info["cores"].add(core)
        shows_file = info["back"] is not None and info["frame"] == self.cached.get(info["back"][:2])
        write = "w" in info["prot"] and not (shows_file and not info["back"][2])
        self.tables[core][page] = (info["frame"], write, "x" in info["prot"])
        self.drop(core, page, page + 1)
        self.tlbs[core].append([page, self.tables[core][page]])

    def copy(self, core, page, frame):
        info = self.pages[page]
        self.counts.begin(frame, 1)
        self.counts.add(core, info["frame"], -1)
        info.update(frame=frame, cores=set())
        self.enter(core, page)

    def fill(self, core, page):
        """The page's frame, which it may have to get; False where none is free."""
        info = self.pages[page]
        if info["frame"] is not None:
            return True
        key = info["back"] and info["back"][:2]
        if key in self.cached:
            info["frame"] = self.cached[key]
            self.counts.add(core, info["frame"], 1)
            return True
        frame = self.counts.take()
        if frame is None:
            return False
        info["frame"] = frame
        self.counts.begin(frame, 2 if key else 1)
        if key:
            self.cached[key] = frame
        return True

    def access(self, core, word, page):
        place = {"load": None, "store": 1, "fetch": 2}[word]
        for entry in [e for p, e in self.tlbs[core] if p == page]:
            if place is None or entry[place]:
                return
        if page not in [p for p, _ in self.tlbs[core]] and page in self.tables[core] and (place is None or self.tables[core][page][place]):
            self.tlbs[core].append([page, self.tables[core][page]])
            return
        self.drop(core, page, page + 1)
        info = self.pages.get(page)
        right = {"load": "r", "store": "w", "fetch": "x"}[word]
        if info is None or right not in info["prot"] or not self.fill(core, page):
            return
        if word == "store" and info["back"] and not info["back"][2] and info["frame"] == self.cached.get(info["back"][:2]):
            self.begin(core, "store", page, page + 1)
            self.tell(core, page, page + 1)
            self.calls[core].update(does="awaits cores for", at=page + 1, held=[(page, page + 1)], frame=self.counts.take())
            self.finish(core)
            return
        self.enter(core, page)

    # ---- lines

    def call(self, core, words):
        word, page = words[0], int(words[1], 0) // 4096
        if word in ("load", "store", "fetch"):
            return self.access(core, word, page)
        end = page + -(-int(words[2], 0) // 4096)
        new = words[3] if word == "mprotect" else None
        if word == "mmap":
            back = None if "a" in words[4] else (int(words[5]), int(words[6], 0) // 4096, "s" in words[4])
            new = (words[3], back)
        self.begin(core, word, page, end, new)
        return None

    def line(self, words):
        if words[0] == "fold":
            return self.fold(int(words[1], 0) // 4096)
        core = int(words[0].strip("c!"))
        if words[0].endswith("!"):
            self.call(core, words[1:])
            return self.finish(core)
        if words[1] == "call":
            return self.call(core, words[2:])
        if words[1] == "evict":
            page = int(words[2], 0) // 4096
            return self.drop(core, page, page + 1)
        return {"go": self.step, "finish": self.finish, "take": self.take, "flush": self.counts.flush,
                "review": self.counts.review}[words[1]](core)

    def call_line(self, core, call):
        word = "call" if call["does"] in ("unlocks", "answers") else call["word"]
        where = f" {self.spot(call, call['end'])}"
        return f"core {core} {word} {call['does']}" + ("" if call["does"] in ("checks its arguments", "answers") else where)

    def spot(self, call, end):
        return f"{call['first'] * 4096:#x}" + ("" if call["word"] == "store" else f"-{end * 4096:#x}")

    def held_lines(self, core, call):
        """The pages that a call holds, and the frame that it has taken."""
        if call["held"]:
            yield f"core {core} holds {self.spot(call, call['at'])}"
        if "frame" in call:
            yield f"core {core} took frame {call['frame']}"

    def text(self):
        """The lines of the state."""
        yield f"epoch {self.counts.epoch}"
        for core in range(self.cores):
            if self.calls[core]:
                yield self.call_line(core, self.calls[core])
                yield from self.held_lines(core, self.calls[core])
            entries = [("tlb", page, entry) for page, entry in self.tlbs[core]]
            for place, page, (frame, write, execute) in entries + [("table", page, entry) for page, entry in sorted(self.tables[core].items())]:
                going = [m[3] for m in self.inboxes[core] if m[1] <= page < m[2]]
                tail = (" stale: cleared" if going[0] else " stale: posted") if going else ""
                yield f"core {core} {place} {page * 4096:#x} frame {frame} r{'w' if write else '-'}{'x' if execute else '-'}{tail}"
            for sender, first, end, cleared in self.inboxes[core]:
                yield f"core {core} inbox from {sender} {first * 4096:#x}-{end * 4096:#x} {'second' if cleared else 'first'} take due"
        yield from self.mappings()
        yield from self.page_lines()
        yield from self.counts.lines()

    def mappings(self):
        """Neighbouring pages of one protection are one line if they have no file, or continue in it."""
        runs = []
        for page, info in sorted(self.pages.items()):
            back = info["back"]
            if runs and runs[-1][1] == page and runs[-1][2] == info["prot"] and runs[-1][4] == (back and (back[0], back[1] - 1, back[2])):
                runs[-1][1], runs[-1][4] = page + 1, back
            else:
                runs.append([page, page + 1, info["prot"], back, back])
        for first, end, prot, back, _ in runs:
            behind = f"{'shared' if back[2] else 'private'} {back[0]} {back[1] * 4096:#x}" if back else "anon"
            yield f"{first * 4096:#x}-{end * 4096:#x} {prot} {behind}"

    def page_lines(self):
        """The pages that have a frame, or on which cores are recorded."""
        for page, info in sorted(self.pages.items()):
            frame = "" if info["frame"] is None else f" frame {info['frame']}"
            cores = " cores " + " ".join(map(str, sorted(info["cores"]))) if info["cores"] else ""
            if frame or cores:
                yield f"page {page * 4096:#x}{frame}{cores}"


def read_lesson(program, path):
    """Compares the state behind each line; how many lines of state there were, or what is wrong."""
    lines, reader, count = path.read_text().rstrip("\n").split("\n"), None, 0
    for number, said in enumerate(lines, 1):
        words = said.split()
        if words[0] == "vm":
            reader = Reader(int(words[1]), int(words[2]))
        elif reader and said[0] != "#" and words[0] != "file":
            reader.line(words)
        if reader is None:
            continue
        done = subprocess.run([program, "state", "--at", str(number), str(path)], capture_output=True, text=True, check=False)
        objects = subprocess.run([program, "state", "--json", "--at", str(number), str(path)], capture_output=True, text=True, check=False)
        due = "".join(f"{text}\n" for text in reader.text())
        if done.stdout != due or done.returncode != 0:
            raise SystemExit(f"{path.name} behind line {number}, {said}, comes to\n{done.stdout}{done.stderr}and not to\n{due}")
        if text_of(objects.stdout) != due or objects.returncode != 0:
            raise SystemExit(f"{path.name} behind line {number}, {said}, comes to\n{objects.stdout}{objects.stderr}and not to the objects of\n{due}")
        count += due.count("\n")
    return count


def read_lessons(program):
    """What is told of all lessons."""
    paths = sorted(LESSONS.glob("*.trace"))
    count = sum(read_lesson(program, path) for path in paths)
    return f"{len(paths)} lessons, behind each of their lines: {count} lines of state are those of the second reading"
