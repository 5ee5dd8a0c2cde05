#!/usr/bin/env python3
"""Judges calls with their replies as `radixvm audit` does, by a plain page map that is a dictionary of pages: for tests beside the program. It says
the first reply that isn't legal, with what is due and the mappings around it, or how many replies are legal.
Usage: plain_map.py [--any-place] < TEXT"""
import sys

PAGE, PAGES, LIMIT, SHOWN = 4096, 2**35, 2**47, 4


class Page:
    """What a page is mapped to: `back` is None, or ("shared" or "private", the file's number, the page in it); `own` are its own bytes by offset,
    None where it has none."""

    def __init__(self, back, prot):
        self.back, self.prot, self.own = back, prot, None if back else {}


class File:
    def __init__(self, mode, length, seed):
        self.mode, self.length, self.seed, self.changed = mode, length, seed, {}

    def byte(self, at):
        """A byte of one of its pages; none where the page is wholly past its end."""
        if at // PAGE * PAGE >= self.length:
            return None
        return self.changed.get(at, (self.seed + at) % 256 if at < self.length else 0)


def nothing():
    pass


def covered(address, length):
    return range(address // PAGE, (address + length + PAGE - 1) // PAGE)


def are_valid(pages):
    return 1 <= pages.start and pages.stop <= PAGES


class Map:
    """Each request gives what is due, and what makes its change."""

    def __init__(self, any_place):
        self.any_place, self.pages, self.files = any_place, {}, []

    def mapped(self, pages):
        """Those of the pages that are mapped."""
        if len(pages) > len(self.pages):
            return [page for page in self.pages if page in pages]
        return [page for page in pages if page in self.pages]

    def room(self, window, count):
        """The least run of so many free pages in the window."""
        first = window.start
        for page in sorted(self.mapped(window)) + [window.stop]:
            if page - first >= count:
                return range(first, first + count)
            first = page + 1
        return None

    def place(self, core, reply, hint):
        """Where a mapping without `f` goes; at any place it is the one that the reply says, if it may be there."""
        if self.any_place and reply.startswith("0x") and int(reply, 16) % PAGE == 0:
            said = range(int(reply, 16) // PAGE, int(reply, 16) // PAGE + len(hint))
            if are_valid(said) and not self.mapped(said):
                return said
        if self.any_place and reply == "enomem" and self.room(range(1, PAGES), len(hint)) is None:
            return None
        if are_valid(hint) and not self.mapped(hint):
            return hint
        return self.room(range((core + 1) * 2**27, (core + 2) * 2**27), len(hint))

    def file_refusal(self, length, prot, flags, number, offset):
        if number >= len(self.files):
            return "ebadf"
        if offset + length > LIMIT:
            return "eoverflow"
        mode = self.files[number].mode
        if "r" not in mode or ("s" in flags and "w" in prot and "w" not in mode):
            return "eacces"
        return None

    def mmap(self, core, reply, address, length, prot, flags, number=0, offset=0):
        fixed, of_file, is_shared = "f" in flags, "a" not in flags, "s" in flags
        pages = covered(address, length)
        if length == 0 or is_shared == ("p" in flags) or (of_file and offset % PAGE) or (fixed and address % PAGE):
            return "einval", nothing
        if fixed and not are_valid(pages):
            return "enomem", nothing
        refusal = self.file_refusal(length, prot, flags, number, offset) if of_file else None
        if refusal:
            return refusal, nothing
        if not fixed:
            pages = self.place(core, reply, covered(address // PAGE * PAGE, length))
        if pages is None:
            return "enomem", nothing

        def change():
            for at, page in enumerate(pages):
                back = ("shared" if is_shared else "private", number, offset // PAGE + at)
                self.pages[page] = Page(back if of_file else None, prot)

        return hex(pages.start * PAGE), change

    def munmap(self, core, reply, address, length):
        pages = covered(address, length)
        if length == 0 or address % PAGE or not are_valid(pages):
            return "einval", nothing

        def change():
            for page in self.mapped(pages):
                del self.pages[page]

        return "done", change

    def mprotect(self, core, reply, address, length, prot):
        pages = covered(address, length)
        if address % PAGE:
            return "einval", nothing
        if length == 0:
            return "done", nothing
        if not are_valid(pages) or len(self.mapped(pages)) < len(pages):
            return "enomem", nothing
        for page in pages:
            back = self.pages[page].back
            if "w" in prot and back and back[0] == "shared" and "w" not in self.files[back[1]].mode:
                return "eacces", nothing

        def change():
            for page in pages:
                self.pages[page].prot = prot

        return "done", change

    def shown(self, page, offset):
        """The byte that a page shows, if it has bytes."""
        if page.own is not None:
            return page.own.get(offset, 0)
        return self.files[page.back[1]].byte(page.back[2] * PAGE + offset)

    def access(self, address, rights):
        """The page and the byte that it shows, or no page and the fault."""
        page = self.pages.get(address // PAGE)
        if page is None:
            return None, "segv maperr"
        if not any(right in page.prot for right in rights):
            return None, "segv accerr"
        byte = self.shown(page, address % PAGE)
        return (None, "bus") if byte is None else (page, str(byte))

    def load(self, core, reply, address):
        return self.access(address, "rwx")[1], nothing

    def fetch(self, core, reply, address):
        return self.access(address, "x")[1], nothing

    def store(self, core, reply, address, byte):
        page, fault = self.access(address, "w")
        if page is None:
            return fault, nothing

        def change():
            if page.back and page.back[0] == "shared":
                self.files[page.back[1]].changed[page.back[2] * PAGE + address % PAGE] = byte
                return
            if page.own is None:  # a private page is copied before its first store
                page.own = {offset: self.shown(page, offset) for offset in range(PAGE)}
            page.own[address % PAGE] = byte

        return "done", change

    def mappings(self):
        """Each with its first page, its end and what its first page is mapped to: neighbours are one where the second goes on from the first."""
        found = []
        for number in sorted(self.pages):
            page = self.pages[number]
            if found and found[-1][1] == number and found[-1][2].prot == page.prot:
                first, _, start = found[-1]
                if page.back == (start.back and (*start.back[:2], start.back[2] + number - first)):
                    found[-1] = (first, number + 1, start)
                    continue
            found.append((number, number + 1, page))
        return found

    def around(self, number):
        """The last mapping that ends at the page or before, and those behind it, in lines."""
        found = self.mappings()
        before = sum(end <= number for _, end, _ in found)
        return [line_of(*mapping) for mapping in found[max(before - 1, 0) :][:SHOWN]]


def line_of(first, end, start):
    """A mapping as `radixvm maps` writes it."""
    back = "anon" if start.back is None else f"{start.back[0]} {start.back[1]} {start.back[2] * PAGE:#x}"
    return f"{first * PAGE:#x}-{end * PAGE:#x} {start.prot} {back}"


def number_of(word):
    return int(word, 16) if word[:2] in ("0x", "0X") else int(word)


def arguments(words):
    """A request's words behind its name: numbers, but for a protection and flags."""
    return [word if set(word) <= set("rwxpsfa-") else number_of(word) for word in words]


def judge(lines, any_place=False):
    """What is said of the lines, in lines."""
    plain, waiting, calls = Map(any_place), {}, 0
    for at, line in enumerate(lines, 1):
        said, _, reply = line.rpartition(" = ")
        words = (said or line).split()
        if not words or line.startswith("#") or words[0] == "vm":
            continue
        core = words[0].strip("c!")
        if words[0] == "file":
            plain.files.append(File(words[2], number_of(words[3]), number_of(words[4])))
            continue
        if words[0].endswith("!"):
            asked = words[1:]
        elif words[1:] == ["finish"]:
            asked = waiting.pop(core)
        else:
            continue
        if reply.startswith("wait "):
            waiting[core] = asked
            continue
        named = arguments(asked[1:])
        due, change = getattr(plain, asked[0])(int(core), reply, *named)
        if due != reply:
            return [f"illegal {at}: replied {reply}, due {due}"] + plain.around(named[0] // PAGE)
        change()
        calls += 1
    return [f"legal {calls}"]


if __name__ == "__main__":
    told = judge(sys.stdin.read().splitlines(), "--any-place" in sys.argv)
    print("\n".join(told))
    sys.exit(0 if told[0].startswith("legal") else 1)
