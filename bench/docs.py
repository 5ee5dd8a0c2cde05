#!/usr/bin/env python3
"""Reads README.md, docs/*.md and examples/README.md, and tells what in them isn't so: a path that isn't there, a contract (CRATE::MODULE::FUNCTION)
whose function isn't, a clause that no contract named before it has, a function that a walk names in another module, a word of code that stands
nowhere in the sources, a command whose word, option or file isn't there, a reply beside README's first trace that isn't the program's, C or Rust
that no compiler takes, a crate or a document that is left out, nine words in a row that stand in two documents, a sentence of more than 30 words
or that begins with "Of", a word of ours where the field or plain English has another (`OURS`), a word that `help formats` lacks, a document over its
budget, or more than 72,000 bytes in README.md and docs/*.md. Such words and long sentences it also finds in all else that users read: the help, headers, bindings, examples, the
messages of the launcher. It runs `./radixvm help` for each topic that is named and, where the program is built (or
RADIXVM_PROGRAM names it), each command of it whose files are there. It ends with status 1 where it tells anything.
Usage: bench/docs.py"""
import functools
import glob
import os
import re
import shutil
import subprocess
import sys
import tempfile

ROOT = os.path.dirname(os.path.dirname(os.path.abspath(__file__)))
FOLDERS = "bench bindings crates docs edits examples include install proofs specs src".split()
FOREIGN = {"POSIX", "MAP_FIXED", "MAP_ANONYMOUS", "MAP_PRIVATE", "MAP_SHARED", "MAP_SHARED_VALIDATE", "SIGSEGV"}

# Words that texts for users don't use, each with what they say.
OURS = {
    "behind": "after, or below",
    "just": "exactly, or only",
    "beside": "next to, compared with, or during",
    "stand": "be",
    "stands": "is",
    "told": "reported, or replied",
    "amid": "during",
    "want of": "out of",
}

# Bytes that a document may have; together they have at most MOST_BYTES.
MOST_BYTES = 72_000
BUDGETS = {
    "README.md": 9_700,
    "docs/ARCHITECTURE.md": 5_000,
    "docs/COMPARISON.md": 3_000,
    "docs/CONTRIBUTING.md": 7_600,
    "docs/DECISIONS.md": 7_000,
    "docs/FAQ.md": 4_500,
    "docs/GLOSSARY.md": 4_000,
    "docs/GUARANTEES.md": 23_600,
    "docs/SPEED.md": 7_000,
    "docs/TOUR.md": 5_500,
}
MOST_WORDS = 30


@functools.cache
def read(path):
    with open(os.path.join(ROOT, path), encoding="utf-8") as file:
        return file.read()


def documents():
    return ["README.md", *sorted(os.path.relpath(path, ROOT) for path in glob.glob(f"{ROOT}/docs/*.md"))]


def blocks(text):
    """Each paragraph, item of a list, row of a table, and indented line."""
    found = []
    for line in text.split("\n"):
        if not line.strip():
            found.append([])
        elif line.startswith(("- ", "| ", "    ", "#")) or re.match(r"\d+\. ", line):
            found.append([line])
        else:
            found[-1:] = [(found[-1] if found else []) + [line]]
    return [" ".join(line.strip() for line in lines) if not lines[0].startswith("    ") else lines[0] for lines in found if lines]


# ---- sources

CRATES = sorted(os.listdir(f"{ROOT}/crates"))


def module_files(crate, modules):
    """The files of a module of a crate; without a module, of its root."""
    base = "/".join([f"crates/{crate}/src", *modules])
    if modules:
        candidates = [f"{base}.rt", f"{base}/mod.rt"]
    else:
        candidates = [f"{base}/lib.rt", f"{base}/main.rt"]
    return [path for path in candidates if os.path.exists(os.path.join(ROOT, path))]


def function_texts(source, name):
    """The functions of this name in a source, each from its head to its body."""
    return re.findall(rf"^ *(?:(?:pub(?:\([^)]*\))?|const|extern \"C\") )*fn {name}\b.*?^ *(?:\{{|\}}|\)[^\n]*;)", source, re.M | re.S)


def resolve(reference):
    """What a reference names: its files, and the texts of its functions; None where it names nothing."""
    crate, *parts = reference.split("::")
    modules = []
    while parts and module_files(crate, [*modules, parts[0]]):
        modules.append(parts.pop(0))
    files = module_files(crate, modules)
    if not files and len(parts) == 0:
        return None
    source = "\n".join(read(path) for path in files)
    if not parts:
        return files, []
    *owners, last = parts
    if owners and not re.search(rf"\b(struct|enum|trait|impl)\b[^{{;]*\b{owners[-1]}\b", source):
        return None
    if last[0].isupper():
        named = re.search(rf"\b(struct|enum|trait|impl)\b[^{{;]*\b{last}\b", source)
        return (files, []) if named else None
    texts = function_texts(source, last)
    return (files, texts) if texts else None


def words_of_sources():
    words = set()
    for folder in ["crates", "bench", "bindings", "edits", "examples", "include", "install"]:
        for path in glob.glob(f"{ROOT}/{folder}/**/*", recursive=True):
            if os.path.isfile(path) and not re.search(r"/out/|\.svg$|\.edit$|\.log$", path):
                words.update(re.findall(r"\w+", open(path, encoding="utf-8", errors="replace").read()))
    return words | set(re.findall(r"\w+", read("crates.txt") + read("radixvm")))


# ---- what may be wrong


def path_faults(text):
    spaced = re.sub(r"[`()\[\],;]", " ", text)
    for token in spaced.split():
        token = token.rstrip(".:").removeprefix("./")
        first = token.split("/")[0]
        if "/" not in token or "/out/" in token or first == "out" or re.search(r"[A-Z]{3,}(?!\w*\.md)|[=<>]|\.\.", token):
            continue
        if first in CRATES:
            token = f"crates/{token}"
        elif first not in FOLDERS[:8]:
            continue
        if not glob.glob(os.path.join(ROOT, token)):
            yield f"no such path: {token}"


def image_faults(document, text):
    for link in re.findall(r"!\[[^\]]*\]\(([^)]+)\)", text):
        if not os.path.exists(os.path.join(ROOT, os.path.dirname(document), link)):
            yield f"no such picture: {link}"


def reference_faults(text):
    """Of the blocks in order: references, and the clauses and functions that are named behind them."""
    before = []
    for block in blocks(text):
        here = []
        for match in re.finditer(r"`([a-z]\w*(?:::\w+)+)`|clauses? ((?:`\w+`(?:, | and )?)+)|\(((?:`\w+`(?:, )?)+)\)", block):
            reference, clauses, listed = match.groups()
            if reference:
                if reference.split("::")[0] not in CRATES:
                    continue
                found = resolve(reference)
                if found is None:
                    yield f"no such contract: {reference}"
                else:
                    here.append(found)
                continue
            for name in re.findall(r"`(\w+)`", clauses or listed):
                known = here or (before if clauses else [])
                texts = [text for _, heads in known for text in heads]
                files = [path for paths, _ in known for path in paths]
                is_clause = any(re.search(rf"\bensures {name}\b", text) for text in texts or [read(path) for path in files])
                if clauses and known and not is_clause:
                    yield f"no clause {name} of the contracts before it: {block[:70]}.."
                if listed and known and not is_clause and not any(function_texts(read(path), name) for path in files):
                    if not re.search(r"ends|IsAt|^[A-Z]", name):
                        yield f"neither a clause nor a function of what stands before it: {name}: {block[:70]}.."
        before = here or before


def word_faults(text, words):
    for span in set(re.findall(r"`([^`\n]+)`", text)):
        if re.fullmatch(r"[A-Za-z_]\w+[A-Za-z0-9]", span) and span not in words and span not in FOREIGN and not span.isupper():
            yield f"stands nowhere in the sources: {span}"


def commands(text):
    """The commands that a text names: code in backticks, which may go on in the next line, and indented lines."""
    for block in blocks(text):
        for span in [block.strip()] if block.startswith("    ") else re.findall(r"`([^`]+)`", block):
            if re.match(r"(\./radixvm|rt|rattle|(bench|edits|bindings|install)/\S+)( |$)", span):
                yield span


@functools.cache
def help_of(*words):
    return subprocess.run(["./radixvm", "help", *words], cwd=ROOT, capture_output=True, text=True, check=True).stdout


def usage():
    """The options of each command of the program, as its help has them."""
    listed = help_of().split("\nCommands:\n")[1].split("\n\n")[0]
    options = {"help": {"--help"}}
    for command in set(re.findall(r"^  (\w+) ", listed, re.M)) - {"help"}:
        said = help_of(command).split("\nUsage: ")[1].split("\n\n")[0]
        options[command] = {"--help", *re.findall(r"--[a-z-]+", said)}
    return options


def head_faults(options):
    """Heads that the help of a command lacks."""
    for command in options.keys() - {"help"}:
        for head in ("Usage: ", "Options:\n", "Example", "Status: "):
            if f"\n{head}" not in help_of(command):
                yield f"help {command} has no {head.strip()}"


@functools.cache
def told_by_rt():
    """What rt says of its own commands."""
    return subprocess.run(["rt"], stdout=subprocess.PIPE, stderr=subprocess.STDOUT, text=True).stdout


def command_faults(command, options):
    first, *words = command.split("#")[0].split("<")[0].split()
    if first == "./radixvm":
        if words and words[0] in re.findall(r"--[a-z-]+", open("radixvm").read()):
            return
        if not words or words[0] not in options:
            yield f"no such word: {command}"
        for word in words[1:]:
            if word.startswith("--") and word not in options.get(words[0], ()):
                yield f"no such option: {command}"
    elif first in ("rt", "rattle"):
        if shutil.which(first) and words:
            told = told_by_rt() if first == "rt" else "|check|build|fmt|"
            if not re.search(rf"\brt {words[0]}\b|[|]{words[0]}\b|\b{words[0]}[|]", told):
                yield f"no such command: {command}"
    elif os.path.exists(os.path.join(ROOT, first)):
        for word in words:
            if word.startswith("-") and word not in read(first):
                yield f"no such option: {command}"


PROGRAM = os.environ.get("RADIXVM_PROGRAM", f"{ROOT}/crates/radixvm/out/radixvm")


def run_faults(command):
    """Runs a command of the program, where that is cheap: help, which the launcher has at hand, and by the built program what reads a file."""
    words = command.split("#")[0].split()
    files = [word for word in words[1:] if "/" in word]
    is_help, has_files = words[1:2] == ["help"], files and all(os.path.exists(os.path.join(ROOT, file)) for file in files)
    if words[0] == "./radixvm" and (is_help or os.path.exists(PROGRAM) and has_files):
        line = " ".join(words if is_help else [PROGRAM if word == "./radixvm" else word for word in words])
        done = subprocess.run(["sh", "-c", line], cwd=ROOT, capture_output=True, text=True, stdin=subprocess.DEVNULL)
        if done.returncode > 1 or not done.stdout:
            yield f"ends with status {done.returncode}: {command}"


def first_trace_faults(text):
    """The table beside README's first command has the lines of that trace, and the replies that are kept beside it."""
    rows = re.findall(r"^\| `([^`]+)` \| (?:`([^`]+)` )?\| [^|`]*\|$", text, re.M)
    lines = [line for line in read("examples/first.trace").split("\n") if line and line[0] != "#"]
    replies = read("examples/first.out").split()
    rows = [row for row in rows if row[0] in lines]
    if [line for line, _ in rows] != lines or [reply for _, reply in rows if reply] != replies:
        yield "the table of the first trace isn't that of examples/first.trace and examples/first.out"


def c_faults(text):
    """The lines of C, as a function's body."""
    lines = [line for line in re.findall(r"^    (.*)$", text, re.M) if line.startswith("radixvm_")]
    if not shutil.which("cc"):
        return
    with tempfile.NamedTemporaryFile("w", suffix=".c") as file:
        file.write('#include "radixvm.h"\nint main(void) {\n' + "\n".join(lines) + "\nreturn 0;\n}\n")
        file.flush()
        done = subprocess.run(["cc", "-std=c11", "-Wall", "-Werror", "-fsyntax-only", "-I", f"{ROOT}/include", file.name], capture_output=True, text=True)
    if done.returncode or not lines:
        yield f"the C isn't taken: {done.stderr[:300]}"


def rust_faults(text):
    """The lines of Rust, as a function's body over bindings/rust."""
    lines = [line for line in re.findall(r"^    (.*)$", text, re.M) if line.startswith("let ")]
    if not shutil.which("cargo"):
        return
    with tempfile.TemporaryDirectory() as folder:
        os.mkdir(f"{folder}/src")
        with open(f"{folder}/Cargo.toml", "w") as file:
            file.write(f'[package]\nname = "said"\nversion = "0.1.0"\nedition = "2021"\n[dependencies]\nradixvm = {{ path = "{ROOT}/bindings/rust" }}\n')
        with open(f"{folder}/src/main.rs", "w") as file:
            file.write("fn main() -> Result<(), radixvm::Stopped> {\n" + "\n".join(lines) + "\nlet _ = replies;\nOk(())\n}\n")
        done = subprocess.run(["cargo", "check", "--offline", "-q"], cwd=folder, capture_output=True, text=True)
    if done.returncode or not lines:
        yield f"the Rust isn't taken: {done.stderr[:300]}"


def whole_faults():
    """What the documents say of all: each crate stands in the drawing's page, and README names each document."""
    drawn, first = read("docs/ARCHITECTURE.md"), read("README.md")
    for line in read("crates.txt").split("\n"):
        name = line.split(":")[0].split()[0] if line and line[0] != "#" else ""
        if name and not re.search(rf"^\|[^|]*\|.*\b{name} \d", drawn, re.M):
            yield f"docs/ARCHITECTURE.md has no row of the crate {name}"
    for document in documents():
        if document != "README.md" and document not in first:
            yield f"README.md doesn't name {document}"


def format_faults():
    """Words of commands and of requests that `help formats` lacks, or has and no line that the program reads begins so: the explanation of errors
    has all forms of lines, and asks the reader of lines of each."""
    grammar, forms = read("crates/word_help/src/traces.rt"), read("crates/word_faults/src/forms.rt")
    grammar = grammar[grammar.index("pub const FORMATS") :].replace('\\"', '"')
    productions = dict(re.findall(r"^  (\w+) +(= .*(?:\n {11}\|.*)*)", grammar, re.M))
    said = {word for name in ("vm", "file", "event", "step", "REQ") for word in re.findall(r'"([a-z]{3,}|vm|go)"', productions[name])}
    lines = forms.split("const FORMS", 1)[1].split('";', 1)[0].split("\n")[1:]
    read_so = {word for line in lines for word in re.findall(r"(?<![A-Za-z])([a-z]{2,})\b", line.split(" = ")[0])}
    for word in sorted(said ^ read_so):
        yield f"help formats and the forms of lines differ in {word}"


def version_faults():
    """What `--version` says of the header and of the kit, where that isn't what the header and README say."""
    said = re.search(r'VERSION_TEXT: &str = "(.*)";', read("crates/word_help/src/lib.rt"))
    if said:
        header = re.search(r"#define RADIXVM_VERSION (\d+)", read("include/radixvm.h"))[1]
        kit = re.search(r"Proved with `([^`]+)`", read("README.md"))[1]
        for part in (f"header {header},", kit):
            if part not in said[1]:
                yield f"--version doesn't say {part}"


def repeat_faults():
    """Nine words in a row that stand in two documents: each fact has one place."""
    places = {}
    for document in documents():
        words = re.findall(r"\w+", read(document).lower())
        here = {" ".join(words[at : at + 9]) for at in range(len(words) - 8)}
        for said in sorted(here & places.keys()):
            yield f"{document} says again what {places[said]} says: {said}"
        places.update(dict.fromkeys(here, document))


def words_faults(block):
    """Words that the field or plain English says otherwise. What the program writes itself, as `told N of M`, is left out."""
    plain = re.sub(r"`[^`]*`|\([^ )]*\)|\btold N of M\b", "`", block)
    for word, other in OURS.items():
        if re.search(rf"\b{word}\b", plain, re.I):
            yield f"'{word}', which is {other}: {block[:90]}.."


def length_faults(block):
    """Sentences with too many words."""
    for sentence in re.split(r"(?<=[.:;!?])\s+", block):
        if len(sentence.split()) > MOST_WORDS:
            yield f"{len(sentence.split())} words in a sentence: {sentence[:90]}.."


def style_faults(text):
    """Of sentences: their length, how they begin, and words of ours."""
    for block in blocks(re.sub(r"```.*?```", "", text, flags=re.S)):
        if block.startswith("    "):
            continue
        yield from words_faults(block)
        if block.startswith("|"):
            continue
        yield from length_faults(block)
        for sentence in re.split(r"(?<=[.:;!?])\s+", block):
            if re.match(r"(- )?(\*\*)?Of [a-z]", sentence):
                yield f"a sentence that begins with Of: {sentence[:90]}.."


# ---- all else that users read

# How the comments of a file's language begin: those of C are found by their two ends.
LINES = {".rs": r"\s*//[/!] ?", ".py": r"\s*# ?", ".sh": r"\s*# ?", ".trace": "# ?", ".litmus": "# ?", ".script": "# ?", ".replies": "# ?", "": r"\s*# ?"}
READ = [
    "CHANGES.md", "examples/*/README.md", "include/*.h", "bindings/*.c", "bindings/rust/src/*.rs", "bindings/rust/build.rs", "radixvm",
    *[f"examples/{folder}*{end}" for folder in ("", "*/") for end in (".c", ".h", ".py", ".sh", ".trace", ".litmus", ".script", ".replies")],
]


def comments(path, text):
    """The comments of a file, without what marks them and without its lines of code."""
    if path.endswith((".c", ".h")):
        return ["\n".join(re.sub(r"^ *\* ?", "", line) for line in found.split("\n")) for found in re.findall(r"/\*(.*?)\*/", text, re.S)]
    mark, found = LINES[os.path.splitext(path)[1]], [[]]
    for line in text.split("\n"):
        if re.match(mark, line) and not line.startswith("#!"):
            found[-1].append(re.sub(mark, "", line, count=1))
        elif found[-1]:
            found.append([])
    return ["\n".join(lines) for lines in found] + re.findall(r'"""(.*?)"""', text, re.S)


def said_of_users():
    """What users read besides the documents: where it is, and its text."""
    for path in sorted(path for name in READ for path in glob.glob(name, root_dir=ROOT)):
        text = read(path)
        for said in [text] if path.endswith(".md") else comments(path, text):
            yield path, re.sub(r"```.*?```", "", said, flags=re.S)
    for path in sorted(glob.glob("crates/word_help/src/*.rt", root_dir=ROOT)):
        for name, text in re.findall(r'^pub const (\w+): &str = "\\\n(.*?)\n?";$', read(path), re.M | re.S):
            if name != "USAGE":
                yield f"help, {name}", re.sub(r"^ +printf .*?\| radixvm.*?$", "", text, flags=re.M | re.S)


def paragraphs(text):
    """Paragraphs, items of lists, and rows of tables, without commands and other lines of code."""
    found = [[]]
    for line in text.split("\n"):
        if not line.strip() or re.match(r" {4,}\S", line) and not found[-1]:
            found.append([])
        elif re.match(r"\s*(- |\||\d+\. )|\s+\S.*\S {2,}\S| {2}\S", line):
            found.append([line.strip()])
        else:
            found[-1].append(line.strip())
    return [" ".join(lines) for lines in found if lines]


def other_faults():
    """Words of ours, and long sentences, in what users read besides the documents."""
    for where, text in said_of_users():
        for block in paragraphs(text):
            is_said = not block.startswith("|")
            for fault in [*words_faults(block), *(length_faults(re.sub(r"\([^)]*\)", "", block)) if is_said else [])]:
                yield f"{where}: {fault}"


def budget_faults():
    sizes = {document: os.path.getsize(os.path.join(ROOT, document)) for document in documents()}
    for document, size in sizes.items():
        if size > BUDGETS.get(document, 0):
            yield f"{document} has {size:,} bytes, and {BUDGETS.get(document, 0):,} at most"
    if sum(sizes.values()) > MOST_BYTES:
        yield f"the documents have more than {MOST_BYTES:,} bytes"
    print(f"{len(sizes)} documents, {sum(sizes.values()):,} bytes")


def main():
    words, options, count = words_of_sources(), usage(), 0
    for document in [*documents(), "examples/README.md"]:
        text = read(document)
        faults = [*path_faults(text), *image_faults(document, text), *reference_faults(text), *word_faults(text, words), *style_faults(text)]
        for command in commands(text):
            for part in command.split(" | "):
                faults += command_faults(part, options)
            faults += run_faults(command)
        if document == "README.md":
            faults += [*first_trace_faults(text), *c_faults(text), *rust_faults(text)]
        for fault in faults:
            print(f"{document}: {fault}")
        count += len(faults)
    for fault in [*whole_faults(), *head_faults(options), *version_faults(), *format_faults(), *repeat_faults(), *other_faults(), *budget_faults()]:
        print(fault)
        count += 1
    sys.exit(1 if count else 0)


main()
