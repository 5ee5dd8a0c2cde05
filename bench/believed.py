#!/usr/bin/env python3
"""Counts what a theorem's statement reaches: the definitions of specs/ that it names, those that these name, and so on.

    bench/believed.py             for each theorem of bench/believed.txt the definitions, their lines, and the files they stand in
    bench/believed.py --files     each file too, with its definitions and lines
    bench/believed.py --others    the files that none of these theorems reaches, each with what it is for

Lines are those of definitions: no comments, no empty lines, no `use`. Types declared in code (enums and structs) are counted apart, by
name. Then come the names that have two definitions in what one theorem reaches.

It fails where docs/GUARANTEES.md is behind: other numbers of lines and files; of a theorem in SHOWN, a file that it reaches and that no row
has under its mark, or a mark of a theorem that reaches the file no more; where a theorem reaches other files than those that
bench/believed.txt lists for it; and where a file of specs/ that no theorem reaches doesn't begin with a comment that says what it is for."""
import glob
import os
import re
import sys

ROOT = os.path.dirname(os.path.dirname(os.path.abspath(__file__)))
PAGE = 'docs/GUARANTEES.md'
# The theorems whose files the page's last table has.
SHOWN = 'HNTUO'
DEFINES = (
    re.compile(r'^\s*(?:abbrev|unfoldable|reducible)\s+pub\s+(\S+)\s*:'),
    re.compile(r'^(?:\s*pub )?(?:record|data)\s+(\S+)'),
    re.compile(r'^\s*(?:abbrev|unfoldable)\s+(\S+)\s*:'),
)
NAMED = re.compile(r'^use Rattle\.(\w+)\.specs\.([\w.]+)\.\{([^}]*)\}', re.M | re.S)
WHOLE = re.compile(r'^use Rattle\.(\w+)\.specs\.([\w.]+) as (\w+)', re.M)
WORD = re.compile(r'(?<![\w.])([\w◌&|≡-]+(?:\.[\w]+)*)')


class Specs:
    """The definitions of all specs/, by (crate, file, name), with the names that each file brings in."""

    def __init__(self):
        self.lines, self.brought, self.files = {}, {}, []
        for path in sorted(glob.glob(f'{ROOT}/crates/*/specs/*.antt')):
            crate, name = path.split('/')[-3], os.path.basename(path)[:-5]
            if name != 'Lib':
                self.files.append((crate, name))
                self.read(crate, name, open(path, encoding='utf-8').read())

    def read(self, crate, name, source):
        names, modules = {}, {}
        for owner, module, items in NAMED.findall(source):
            for item in filter(None, (item.strip() for item in items.split(','))):
                first, _, alias = item.partition(' as ')
                names[alias or first] = (owner, module, first)
        for owner, module, alias in WHOLE.findall(source):
            modules[alias] = (owner, module)
        self.brought[crate, name] = names, modules
        current = None
        for line in source.split('\n'):
            text = line.strip()
            if not text or text.startswith(('--', 'use ', 'pub mod')):
                continue
            found = next((m for m in (d.match(line) for d in DEFINES) if m), None)
            if found:
                current = (crate, name, found.group(1))
                self.lines[current] = []
            if current:
                self.lines[current].append(line)

    def named_by(self, key):
        """The definitions that this one names, and what it names of elsewhere."""
        crate, name, own = key
        names, modules = self.brought[crate, name]
        inside, outside = set(), set()
        for word in WORD.findall('\n'.join(self.lines[key])):
            first, _, rest = word.partition('.')
            if (crate, name, first) in self.lines:
                inside.add((crate, name, first))
            elif first in names:
                (inside if names[first] in self.lines else outside).add(names[first])
            elif first in modules and rest:
                outside.add((*modules[first], rest.split('.')[0]))
        inside.discard(key)
        return inside, outside

    def reached_from(self, roots):
        reached, outside, waiting = set(), set(), list(roots)
        while waiting:
            key = waiting.pop()
            if key not in reached:
                reached.add(key)
                inside, others = self.named_by(key)
                outside |= others
                waiting += inside
        return reached, outside


class Theorem:
    def __init__(self, title):
        self.title, self.roots, self.user = title, [], []


def theorems():
    """The list beside this script: a line `theorem: NAME`, and below it a definition a line, as CRATE/FILE.NAME; where the files that
    the theorem reaches are listed, a line `file: CRATE/specs/FILE.antt` for each."""
    found = []
    for line in open(f'{ROOT}/bench/believed.txt', encoding='utf-8'):
        line = line.split('#')[0].strip()
        if line.startswith('theorem:'):
            found.append(Theorem(line[8:].strip()))
        elif line.startswith('file:'):
            found[-1].user.append(line[5:].strip())
        elif line:
            crate, rest = line.split('/')
            file, name = rest.split('.')
            found[-1].roots.append((crate, file, name))
    return found


class Document:
    """What docs/GUARANTEES.md says: of each theorem its mark, its lines and its files; and of each file the marks of those that reach it."""

    def __init__(self):
        said = open(f'{ROOT}/{PAGE}', encoding='utf-8').read().split('\n')
        rows = [[cell.strip() for cell in line.strip('|').split('|')] for line in said if line.startswith('|')]
        self.theorems, self.marks = {}, {}
        for row in rows:
            if len(row) == 5 and len(row[0]) == 1 and row[0].isalpha():
                self.theorems[row[1].replace('`', '')] = row[0], [int(cell.replace(',', '')) for cell in row[3:]]
        for row in rows:
            if len(row) == 4 and ': ' in row[2]:
                for part in row[2].split(';'):
                    crate, names = part.strip().split(': ')
                    for name in names.split(', '):
                        self.marks[f'{crate}/specs/{name}.antt'] = self.marks_in(row[3])

    def marks_in(self, cell):
        """The marks that a cell names: `all`, `all but H U`, or those themselves."""
        every = {mark for mark, _ in self.theorems.values()}
        if cell.split()[0] != 'all':
            return set(cell.split())
        return every - set(cell.split()[2:])

    def faults(self, theorem, files, lines):
        mark, numbers = self.theorems.get(theorem.title, (None, None))
        if mark is None:
            yield f'no theorem of this name in {PAGE}: {theorem.title}'
            return
        if numbers != [lines, len(files)]:
            yield f'{PAGE} has other numbers than {lines} lines in {len(files)} files: {theorem.title}'
        for file in sorted({*files} | {*self.marks}) if mark in SHOWN else ():
            if (file in files) != (mark in self.marks.get(file, ())):
                yield f'{"not under" if file in files else "reached no more, but under"} {mark} in {PAGE}: {file}'
        if theorem.user and sorted(theorem.user) != sorted(files):
            for file in sorted({*theorem.user} ^ {*files}):
                yield f'{"listed, not reached" if file in theorem.user else "reached, not listed"}, in bench/believed.txt: {file}'


def tell_others(specs, marked):
    """The files that no theorem of the list reaches, each with the comment that it begins with."""
    for crate, name in specs.files:
        path = f'{crate}/specs/{name}.antt'
        if path not in marked:
            words = []
            for line in open(f'{ROOT}/crates/{path}', encoding='utf-8'):
                if not line.startswith('-- '):
                    break
                words.append(line[3:].strip())
            print(f'{path}: {" ".join(words)}')


def main():
    specs, document, faults = Specs(), Document(), []
    reached_files = set()
    for theorem in theorems():
        for root in theorem.roots:
            if root not in specs.lines:
                sys.exit(f'no definition {root[0]}/{root[1]}.{root[2]}')
        reached_files |= {f'{key[0]}/specs/{key[1]}.antt' for key in specs.reached_from(theorem.roots)[0]}
    if '--others' in sys.argv:
        return tell_others(specs, reached_files)
    for theorem in theorems():
        reached, outside = specs.reached_from(theorem.roots)
        declared = {(crate, module.split('.TheVariants')[0]) for crate, module, _ in outside if module.startswith('declared')}
        files = {}
        for key in reached:
            count = files.setdefault(f'{key[0]}/specs/{key[1]}.antt', [0, 0])
            count[0] += 1
            count[1] += len(specs.lines[key])
        lines = sum(count for _, count in files.values())
        print(f'{theorem.title}: {lines} lines, {len(reached)} definitions, {len(files)} files; {len(declared)} types of code')
        if '--files' in sys.argv:
            for file, (definitions, count) in sorted(files.items()):
                print(f'    {file}: {count} lines, {definitions} definitions')
        by_name = {}
        for key in reached:
            by_name.setdefault(key[2], []).append(f'{key[0]}/{key[1]}')
        for name, places in sorted(by_name.items()):
            if len(places) > 1:
                print(f'    defined twice: {name}, in {" and ".join(sorted(places))}')
        faults += document.faults(theorem, files, lines)
    for crate, name in specs.files:
        path = f'{crate}/specs/{name}.antt'
        if path not in reached_files and not open(f'{ROOT}/crates/{path}', encoding='utf-8').read().startswith('-- '):
            faults.append(f'no theorem reaches it, and it has no comment that says what it is for: {path}')
    for fault in faults:
        print(fault)
    sys.exit(1 if faults else 0)


main()
