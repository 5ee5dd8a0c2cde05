#!/usr/bin/env python3
"""Counts, out of the logs and lists in crates/test_import/data, what an import makes of each of their lines, by regular expressions and sets of
pages, and prints it as that program does. It shares no code with it. Usage: bench/import_counts.py > crates/test_import/stdout"""
import collections
import re

DATA = "crates/test_import/data/"
MIB = 1 << 20


def list_counts(lines, files, space):
    counts = collections.Counter()
    for line in lines:
        start, end, rights, offset, name = re.match(r"(\w+)-(\w+) (\S+) (\w+) \S+ \d+ *(.*)$", line).groups()
        start, end, offset = int(start, 16), int(end, 16), int(offset, 16)
        path = name if name.startswith("/") else None
        if start < 4096 or end > 1 << 47:
            counts["outside"] += 1
        elif name in ("[vvar]", "[vvar_vclock]", "[vdso]"):
            counts["kernel"] += 1
        else:
            kept = path is None or within(files, path, offset + end - start)
            counts["kept" if kept else "changed"] += 1
            space.map(start, end - start, rights[3] == "p", same(rights[:3], path, kept, offset - start))
    return counts


def same(rights, path, kept, place):
    """What the parts of a mapping have, too: rights, whether the trace has its file, the file, and where that begins."""
    return (rights, None, None, None) if path is None else (rights, kept, path, place)


def within(files, name, reach):
    """Whether a mapping of the file ends within its first MiB, and it is one of the first 16 of which one does."""
    if reach > MIB or (name not in files and len(files) == 16):
        return False
    files.add(name)
    return True


class Space:
    """What is mapped: of each range its first address, its end, whether it is private, and what each of its parts has, too."""

    def __init__(self):
        self.ranges = []

    def parts(self, start, end):
        """What is mapped of these addresses, or nothing, where a page of them isn't."""
        found = [(max(start, first), min(end, last), *rest) for first, last, *rest in self.ranges if max(start, first) < min(end, last)]
        return found if start < end and sum(last - first for first, last, *_ in found) == end - start else []

    def unmap(self, start, length):
        end = start + whole(length)
        self.ranges = [(first, last, *rest) for begin, stop, *rest in self.ranges
                       for first, last in ((begin, min(stop, start)), (max(begin, end), stop)) if first < last]

    def map(self, start, length, private, same):
        end = start + whole(length)
        if not any(first <= start and end <= last and rest == [private, same] for first, last, *rest in self.ranges):
            self.unmap(start, length)
            self.ranges.append((start, end, private, same))

    def protect(self, start, length, rights):
        end, before = start + whole(length), self.ranges
        self.unmap(start, length)
        inside = [(max(start, first), min(end, last), private, (rights, *same[1:])) for first, last, private, same in before]
        self.ranges += [one for one in inside if one[0] < one[1]]

    def move(self, start, old, to, new):
        """How many mappings an mremap comes to; `None` where a page isn't mapped."""
        old, new = whole(old), whole(new)
        parts = self.parts(start, start + old)
        if not parts:
            return None
        last = max(parts)
        kept = [] if start == to else self.parts(start, start + min(old, new))
        more = [last] if new > old else []
        self.unmap(start + new if start == to else start, max(old - new, 0) if start == to else old)
        for first, end, private, (rights, kind, file, place) in kept:
            self.map(to + first - start, end - first, private, (rights, kind, file, None if place is None else place + start - to))
        for _, _, private, (rights, kind, file, place) in more:
            self.map(to + old, new - old, private, (rights, kind, file, None if place is None else place + start - to))
        return len(kept) + len(more)


def whole(length):
    return (length + 4095) // 4096 * 4096


def guests(lines):
    """The threads that were made with their maker's address space, but as another process: each with its maker, and the line at which it leaves
    that space, since a program begins."""
    made, begun = {}, {}
    for line in lines:
        thread, text = line.split(None, 1)
        if text.endswith("<unfinished ...>"):
            begun[thread] = text
        text = begun.pop(thread, "") + text if "resumed>" in text else text
        child = re.search(r"= (\d+)$", text)
        if child and (text.startswith("vfork") or (re.match(r"clone3?\(.*CLONE_VM", text) and "CLONE_THREAD" not in text)):
            made[child[1]] = thread
    leaves = {}
    for number, line in enumerate(lines):
        thread, text = line.split(None, 1)
        if thread in made and re.match(r"(<\.\.\. )?execve.*= 0$", text):
            leaves.setdefault(thread, number)
    return {child: (maker, leaves.get(child, len(lines))) for child, maker in made.items()}


def rights_of(names):
    return "".join(sign if name in names else "-" for sign, name in (("r", "PROT_READ"), ("w", "PROT_WRITE"), ("x", "PROT_EXEC")))


def log_counts(lines, files, space):
    counts = collections.Counter()
    addresses = done = 0
    process = lines[0].split()[0]
    threads, waiting, heap = {process}, {}, None
    beside = guests(lines)
    for number, line in enumerate(lines):
        thread, text = line.split(None, 1)
        maker, leaves = beside.get(thread, (None, 0))
        if thread not in threads and not (maker in threads and number < leaves):
            counts["elsewhere"] += 1
            continue
        unfinished = text.endswith("<unfinished ...>")
        if unfinished and not text.startswith("munmap"):
            waiting[thread] = text[:-16]
            counts["half"] += 1
            continue
        if unfinished:
            # munmap acts here; how it ended stands in its thread's next line
            later = next(l for l in lines[number + 1:] if l.split()[0] == thread)
            text = text[:-16] + later.split("resumed>")[1]
        elif text.startswith("<... munmap resumed>"):
            counts["half"] += 1
            continue
        elif text.startswith("<..."):
            text = waiting.pop(thread) + text.split("resumed>")[1]
        call = re.match(r"\w*", text)[0]
        gave = text.rsplit("= ", 1)[-1]
        if call in ("clone", "clone3", "fork", "vfork"):
            counts["other"] += 1
            if "CLONE_THREAD" in text:
                threads.add(gave.split()[0])
        elif call == "madvise" and re.search(r"MADV_(DONTNEED(_LOCKED)?|FREE|REMOVE)\b", text) and not gave.startswith("-1"):
            start, length = (int(n, 0) for n in re.match(r"madvise\((\w+), (\w+)", text).groups())
            parts = space.parts(start, start + whole(length)) if "DONTNEED" in text else []
            counts["cleared" if parts else "drops"] += 1
            addresses += sum(private for _, _, private, _ in parts)
        elif call not in ("mmap", "munmap", "mprotect", "brk", "mremap"):
            counts["other"] += 1
        elif gave.startswith("-1"):
            counts["failed"] += 1
        elif call == "mmap":
            addresses += 1
            path = re.search(r", \d+<(.*)>, (\w+)\)", text)
            length = int(re.match(r"mmap\(\w+, (\d+)", text)[1])
            kept = path is None or within(files, path[1], int(path[2], 0) + length)
            counts["kept" if kept else "files"] += 1
            at = int(gave, 0)
            space.map(at, length, "MAP_PRIVATE" in text, same(rights_of(text), path and path[1], kept, int(path[2], 0) - at if path else None))
        elif call in ("munmap", "mprotect"):
            done += 1
            counts["kept"] += 1
            start, length = (int(n, 0) for n in re.match(r"\w+\((\w+), (\w+)", text).groups())
            space.unmap(start, length) if call == "munmap" else space.protect(start, length, rights_of(text))
        elif call == "brk":
            end = (int(gave, 0) + 4095) // 4096 * 4096
            if heap is None or heap == end:
                counts["still"] += 1
            else:
                counts["heap"] += 1
                addresses, done = (addresses + 1, done) if end > heap else (addresses, done + 1)
                if end > heap:
                    space.map(heap, end - heap, True, same("rw-", None, True, None))
                else:
                    space.unmap(end, heap - end)
            heap = end
        else:
            start, old, new = (int(n, 0) for n in re.match(r"mremap\((\w+), (\w+), (\w+)", text).groups())
            made = space.move(start, old, int(gave, 0), new)
            counts["unmapped" if made is None else "moves"] += 1
            addresses += made or 0
            done += made is not None and (start != int(gave, 0) or whole(new) < whole(old))
    return counts, addresses, done


def access_counts(lines):
    """Of a log of lackey. A page is there once it was mapped or accessed."""
    counts, replies = collections.Counter(), collections.Counter()
    there, files, heap, space = set(), set(), None, Space()
    pages = lambda start, end: range(start >> 12, (end + 4095) >> 12)
    for line in lines:
        access = re.match(r" ?([ILSM]) +([0-9a-f]+),(\d+)$", line)
        call = re.match(r"SYSCALL\S+ sys_(mmap|munmap|mprotect|brk|mremap) \( (.*) \).*--> .*(Success|Failure)\((0x\w+)\)", line)
        if access:
            start = int(access[2], 16)
            touched = pages(start >> 12 << 12, start + int(access[3]))
            counts["kept"] += 1
            replies["addresses"] += len(set(touched) - there)
            replies["bytes"] += len(touched) * (access[1] in "ILM")
            replies["done"] += len(touched) * (access[1] in "SM")
            for page in set(touched) - there:
                space.map(page << 12, 4096, True, same("rwx", None, True, None))
            there.update(touched)
            continue
        if call is None or call[3] == "Failure":
            counts["failed" if call else "other"] += 1
            continue
        numbers, gave = [int(number, 0) for number in call[2].split(", ")], int(call[4], 16)
        if call[1] == "mmap":
            _, length, _, flags, descriptor, offset = numbers
            if flags & 256:
                counts["grows"] += 1
                continue
            counts["kept" if flags & 32 or within(files, descriptor, offset + length) else "files"] += 1
            replies["addresses"] += 1
            there.update(pages(gave, gave + length))
            space.map(gave, length, flags & 2 != 0, same(numbers[2], None if flags & 32 else descriptor, True, offset - gave))
        elif call[1] == "brk":
            counts["still" if heap in (None, gave) else "heap"] += 1
            if heap not in (None, gave):
                replies["addresses" if heap < gave else "done"] += 1
                there.update(pages(heap, gave))
                space.map(heap, gave - heap, True, same("rw-", None, True, None))
            heap = gave
        elif call[1] == "mremap":
            counts["moves"] += 1
            replies["done"] += 1
            replies["addresses"] += space.move(numbers[0], numbers[1], gave, numbers[2])
            there.update(pages(gave, gave + numbers[2]))
        else:
            counts["kept"] += 1
            replies["done"] += 1
            space.unmap(*numbers[:2]) if call[1] == "munmap" else space.protect(*numbers[:3])
    return counts, replies


def told(counts, keys):
    return ", ".join("%s %d" % (key, counts[key]) for key in keys.split())


def tell_log(name, counts, replies):
    print("%s log: %s" % (name, told(counts, "kept heap moves files cleared half failed elsewhere")))
    print("%s log: %s" % (name, told(counts, "before unread still drops other")))
    print("%s replies: %s" % (name, told(replies, "addresses done bytes refused")))


def main():
    for name in ("heap", "ls", "python", "node", "gcc"):
        files, space = set(), Space()
        start = list_counts(open(DATA + name + ".maps").read().splitlines(), files, space)
        counts, addresses, done = log_counts(open(DATA + name + ".log").read().splitlines(), files, space)
        print("%s maps: %s" % (name, told(start, "kept changed kernel outside unread")))
        tell_log(name, counts, collections.Counter(addresses=addresses + start["kept"] + start["changed"], done=done))
    tell_log("touch", *access_counts(open(DATA + "touch.log").read().splitlines()))


main()
