#!/usr/bin/env python3
"""Writes crates/state_changes/src/template.rt: page.html with page.css and page.js in it, as the texts before and behind a page's data.
Usage: bench/page_template.py [--check] (with --check nothing is written, and the status is 1 where the file is another)
"""
import pathlib
import sys

CRATE = pathlib.Path(__file__).resolve().parent.parent / "crates/state_changes"
TEMPLATE = CRATE / "src/template.rt"
# Bytes of a line of the file at the most.
MOST = 112


def bare(text):
    """A style's or a script's lines, without comments that have lines of their own, empty lines and what lines are set in by."""
    lines = (line.strip() for line in text.split("\n"))
    return "".join(line + "\n" for line in lines if line and not line.startswith("//") and not (line.startswith("/*") and line.endswith("*/")))


def constant(name, says, text):
    """A constant with this text. A line of the file goes on behind its backslash, where no space comes first."""
    if not text.isascii():
        sys.exit(f"bench/page_template.py: {name} has other letters than ASCII's")
    rows, row = [], ""
    for letter in text:
        escaped = {"\\": "\\\\", '"': '\\"', "\n": "\\n"}.get(letter, letter)
        if len(row) + len(escaped) > MOST and letter != " ":
            rows.append(row)
            row = ""
        row += escaped
    inner = "\\\n".join([*rows, row])
    return f'/// {says}\npub const {name}: &str = "\\\n{inner}";\n'


def template():
    """The file's text."""
    style = bare((CRATE / "page.css").read_text())
    front = (CRATE / "page.html").read_text().replace("/*page.css*/\n", style)
    back = f"</script>\n<script>\n{bare((CRATE / 'page.js').read_text())}</script>\n</body>\n</html>\n"
    return ("//! The page around its data, as bench/page_template.py makes it of page.html, page.css and page.js.\n\n"
            + constant("FRONT", "What comes before the data.", front) + "\n" + constant("BACK", "What comes after it.", back))


def main():
    if sys.argv[1:] not in ([], ["--check"]):
        sys.exit(__doc__)
    if not sys.argv[1:]:
        TEMPLATE.write_text(template())
    elif TEMPLATE.read_text() != template():
        sys.exit("bench/page_template.py: crates/state_changes/src/template.rt isn't what page.html, page.css and page.js come to")


if __name__ == "__main__":
    main()
