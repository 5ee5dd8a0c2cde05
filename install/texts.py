#!/usr/bin/env python3
"""Writes the man pages and the completions of shells from the program's own help: its usage names the words and their flags, its list of words says
what each does. Usage: texts.py SHARE, the folder share/ that they are installed in."""
import os
import pathlib
import re
import subprocess
import sys
import textwrap
import time

TOP = pathlib.Path(__file__).resolve().parent.parent
SOURCES = "".join(path.read_text() for path in sorted((TOP / "crates/word_help/src").glob("*.rt")))
# Topics whose text is that of another name, as the program has it.
SAME = {"certify": "NOTES", "live": "THREADS", "html": "PAGE", "errors": "FAULTS", "status": "FAULTS", "help": "OVERVIEW"}
# Older names, which have no page.
OLD = ("page", "faults")


def text(name):
    """A text of the help, as the program prints it."""
    found = re.search(rf'^pub const {name}: &str = "\\\n(.*?)";$', SOURCES, re.M | re.S)
    return re.sub(r'\\(["\\])', r"\1", found[1])


def version():
    return re.search(r'^pub const VERSION: &str = "(.*)";$', SOURCES, re.M)[1]


def topics():
    listed = re.search(r"pub const TOPICS: &\[&str\] = &\[(.*?)\];", SOURCES, re.S)[1]
    return [name for name in re.findall(r'"(\w+)"', listed) if name not in OLD]


def words():
    """Each word with its flags, and with what follows a flag: {"run": [("--log", []), ..]}."""
    found = {}
    for word, rest in re.findall(r"radixvm (\w+) (.*)", re.sub(r"\n {12,}", " ", text("USAGE"))):
        flags = re.findall(r"(--[a-z-]+)((?: [A-Z]+)*)", rest)
        found[word] = [(flag, values.split()) for flag, values in flags]
        if word != "help":
            found[word] += [("--color", ["WHEN"]), ("--output", ["FILE"])]
    return found


def said():
    """What each command, option and topic is for, in the overview's words, which begin in one column."""
    lines, last = {}, None
    for head in ("Commands", "Topics"):
        for line in text("OVERVIEW").split(f"\n{head}:\n")[1].split("\n\n")[0].split("\n"):
            last = line[:17].strip() or last
            lines[last] = f"{lines.get(last, '')} {line[17:].strip()}".strip()
    return lines


SAID = said()
SAID["status"] = "the exit status of all commands"
# What may follow an option, where only some words may.
CHOICES = {"WHEN": ["auto", "always", "never"], "COND": ["stale", "waits", "unused"]}
# The options that each command has besides its own, and what they do, in the overview's words.
OF_ALL = [("-h", "writes only usage and options"), ("--help", "explains the command")]
assert all(f"{option}{' ' * (15 - len(option))}{about}" in text("OVERVIEW") for option, about in OF_ALL)
# How long a completion's description may be.
MOST_ABOUT = 60


def of_flag(word, flag):
    """What a flag of a word is for: as the overview says it, or else as the word's own text does, up to the end of its first part."""
    if f"{word} {flag}" in SAID or flag in SAID:
        return SAID.get(f"{word} {flag}") or SAID[flag]
    if flag == "--color":
        return "colours: auto, always or never"
    if flag == "--output":
        return "writes to FILE"
    options = text(SAME.get(word, word.upper())).split("\nOptions:\n")[1].split("\n\n")[0]
    own = re.search(rf"^( +){flag}(?: [A-Z]+)* +(\S.*(?:\n\1 {{6,}}\S.*)*)", options, re.M)
    about = re.split(r"[.:;] ", re.sub(r"\s+", " ", own[2]) + " ")[0].strip().rstrip(".") if own else f"radixvm help {word} says what it does"
    assert len(about) <= MOST_ABOUT, f"{word} {flag}: {about}"
    return about


# ---- man pages


# How a part of a help text begins, and the section that it is in a man page. All else is the description.
HEADS = {"Usage:": "SYNOPSIS", "Options": "OPTIONS", "Example": "EXAMPLES", "Status": "EXIT STATUS"}
SECTIONS = ["SYNOPSIS", "DESCRIPTION", "OPTIONS", "EXAMPLES", "EXIT STATUS"]


def roff(body):
    """Lines that man prints as they are."""
    lines = [line.replace("\\", "\\e").replace("-", "\\-") for line in body.strip("\n").split("\n")]
    return ".nf\n" + "\n".join("\\&" + line if line[:1] in (".", "'") else line for line in lines) + "\n.fi\n"


def parts(body):
    """The sections of a help text, each with its paragraphs; the head of a section goes, where the section says it."""
    found = {section: [] for section in SECTIONS}
    for paragraph in body.strip("\n").split("\n\n"):
        section = next((section for head, section in HEADS.items() if paragraph.startswith(head)), "DESCRIPTION")
        found[section].append(re.sub(r"^(Usage: |Options:\n|Options of all commands:\n|Examples:\n|Status: |Status, of all commands:\n)", lambda head: " " * 7 if head[0] == "Usage: " else "", paragraph))
    return {section: textwrap.dedent("\n\n".join(paragraphs)) for section, paragraphs in found.items() if paragraphs}


def page(name, section, about, body):
    numbers = {other: (f"radixvm-{other}", number) for other, number in listed() if other}
    body = re.sub(r"\bhelp (\w+)", lambda found: "{}({})".format(*numbers[found[1]]) if found[1] in numbers else found[0], body)
    plain = about.replace("\\", "\\e").replace("-", "\\-")
    head = f'.TH {name.upper()} {section} "{DATE}" "radixvm {version()}" "RadixVM"\n.SH NAME\n{name} \\-\n{plain}\n'
    said = "".join(f".SH {part}\n{roff(text)}" for part, text in parts(body).items())
    named = [(f"radixvm-{other}" if other else "radixvm", number) for other, number in listed()]
    others = ".SH SEE ALSO\n" + ",\n".join(f"{other}({number})" for other, number in [*named, ("mmap", 2), ("mprotect", 2)] if other != name).replace("-", "\\-") + "\n"
    return head + said + (ENVIRONMENT if section == 1 else "") + STANDARDS + BUGS + others


def date():
    """The day of the sources: that of their commit, or else of their newest file."""
    found = subprocess.run(["git", "log", "-1", "--format=%cs"], cwd=TOP, stdout=subprocess.PIPE, stderr=subprocess.DEVNULL, text=True, check=False)
    newest = max(os.path.getmtime(path) for path in (TOP / "crates/word_help/src").glob("*.rt"))
    return found.stdout.strip() or time.strftime("%Y-%m-%d", time.gmtime(newest))


DATE = date()

ENVIRONMENT = ".SH ENVIRONMENT\nIf NO_COLOR is set, nothing is coloured.\n"

STANDARDS = ".SH STANDARDS\nmmap, munmap and mprotect: POSIX.1\\-2017;\npage tables and TLBs: Intel SDM volume 3A.\n"

BUGS = """.SH BUGS
README.md (Limits) has what isn't modelled and what isn't proved.
Report errors with the input and what radixvm \\-\\-version says.
"""


def listed():
    """The pages: the program's, one for each word, and one for each other topic."""
    return [("", 1)] + [(topic, 1 if topic in words() else 5 if topic == "formats" else 7) for topic in topics() if topic != "help"]


def status():
    """What the exit status of all commands says."""
    return next(paragraph for paragraph in text("FAULTS").split("\n\n") if paragraph.startswith("Status, of all commands:")) + "\n"


def write_pages(share):
    for topic, section in listed():
        folder = share / f"man/man{section}"
        folder.mkdir(parents=True, exist_ok=True)
        name = f"radixvm-{topic}" if topic else "radixvm"
        about = SAID.get(topic) or "an address space that modelled cores share, proved"
        body = text(SAME.get(topic, topic.upper())) if topic else text("OVERVIEW") + "\n" + status()
        (folder / f"{name}.{section}").write_text(page(name, section, about, body))


# ---- completions


def chosen():
    """Each value that is one of some words, with the flags before it."""
    flags = [(flag, value) for of_word in words().values() for flag, values in of_word for value in values]
    return [(value, sorted({flag for flag, other in flags if other == value})) for value in CHOICES]


def bash():
    cases = "".join(f"        {word}) words='{' '.join(flag for flag, _ in flags)} -h --help' ;;\n" for word, flags in words().items() if word != "help")
    follow = "".join(f"        {'|'.join(before)}) COMPREPLY=($(compgen -W '{' '.join(CHOICES[value])}' -- \"$now\")); return ;;\n" for value, before in chosen())
    return f"""# bash completion of radixvm, made from its help
_radixvm() {{
    local words= now=${{COMP_WORDS[COMP_CWORD]}}
    COMPREPLY=()
    if [ "$COMP_CWORD" = 1 ]; then
        COMPREPLY=($(compgen -W '{" ".join(words())} -h --help -V --version' -- "$now"))
        return
    fi
    case ${{COMP_WORDS[COMP_CWORD - 1]}} in
{follow}    esac
    case ${{COMP_WORDS[1]}} in
{cases}        help) COMPREPLY=($(compgen -W '{" ".join(topics())}' -- "$now")) ;;
    esac
    case $now in -*) COMPREPLY=($(compgen -W "$words" -- "$now")) ;; esac
}}
complete -o default -F _radixvm radixvm
"""


def quoted(about):
    return about.replace("'", "'\\''").replace("[", "\\[").replace("]", "\\]").replace(":", "\\:")


def completed(value):
    """How zsh completes a value."""
    if value in CHOICES:
        return f"({' '.join(CHOICES[value])})"
    return {"FILE": "_files", "IN": "_files", "OUT": "_files", "COUNTS": "_files", "DIR": "_files -/"}.get(value, "")


def follows(values):
    """What follows a flag, as zsh completes it."""
    return "".join(f":{value}:{completed(value)}" for value in values)


def zsh():
    commands = "".join(f"        '{word}:{quoted(SAID[word])}'\n" for word in words())
    of_all = " ".join(f"'{option}[{about}]'" for option, about in OF_ALL)
    cases = ""
    for word, flags in words().items():
        if word == "help":
            cases += f"        help) _arguments '2:topic:({' '.join(topics())})' ;;\n"
            continue
        specs = " ".join(f"'{flag}[{quoted(of_flag(word, flag))}]{follows(values)}'" for flag, values in flags)
        cases += f"        {word}) _arguments {specs} {of_all} '*:file:_files' ;;\n"
    return f"""#compdef radixvm
# zsh completion of radixvm, made from its help
_radixvm() {{
    local -a commands=(
{commands}    )
    if (( CURRENT == 2 )); then
        _describe word commands
        return
    fi
    case $words[2] in
{cases}    esac
}}
_radixvm "$@"
"""


def fish():
    def line(condition, rest, about):
        about = about.replace("\\", "\\\\").replace("'", "\\'")
        return f"complete -c radixvm -n '{condition}' {rest} -d '{about}'\n"

    made = "# fish completion of radixvm, made from its help\n"
    made += "complete -c radixvm -s h -d 'writes only usage and options'\ncomplete -c radixvm -l help -d 'explains the command'\n"
    made += line("__fish_use_subcommand", "-s V -l version", "writes the version")
    for word, flags in words().items():
        made += line("__fish_use_subcommand", f"-f -a {word}", SAID[word])
        for flag, values in flags:
            given = next((f" -x -a \"{' '.join(CHOICES[value])}\"" for value in values if value in CHOICES), " -r" if values else "")
            made += line(f"__fish_seen_subcommand_from {word}", f"-l {flag.removeprefix('--')}{given}", of_flag(word, flag))
    for topic in topics():
        made += line("__fish_seen_subcommand_from help", f"-f -a {topic}", SAID.get(topic, topic))
    return made


def main():
    share = pathlib.Path(sys.argv[1])
    write_pages(share)
    for path, made in [("bash-completion/completions/radixvm", bash()), ("zsh/site-functions/_radixvm", zsh()), ("fish/vendor_completions.d/radixvm.fish", fish())]:
        (share / path).parent.mkdir(parents=True, exist_ok=True)
        (share / path).write_text(made)


main()
