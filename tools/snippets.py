#!/usr/bin/env python3
"""tools/snippets.py [--check]: puts into README.md the pieces of code that it shows, as their sources have them.

In a source a piece stands between the lines `// snippet: NAME` and `// snippet ends`; in README.md, indented by four
spaces, between `<!-- snippet: FILE NAME -->` and `<!-- snippet ends -->`. With --check nothing is written, and the status
is 1 where README.md has another text than its sources.
"""
import pathlib
import re
import sys

TOP = pathlib.Path(__file__).resolve().parent.parent
PAGE = TOP / "README.md"
SHOWN = re.compile(r"(<!-- snippet: (\S+) ([^\n]+) -->\n)(.*?)(<!-- snippet ends -->\n)", re.DOTALL)


def piece(file, name):
    """The lines of a source between the markers of that name."""
    found = re.findall(rf"^// snippet: {re.escape(name)}\n(.*?)^// snippet ends$", (TOP / file).read_text(encoding="utf-8"),
                       re.DOTALL | re.MULTILINE)
    if len(found) != 1:
        sys.exit(f"snippets.py: {file} has {len(found)} pieces of the name {name}, and not one")
    return found[0]


def indented(text):
    """Each line four spaces further right, and an empty line before and behind all, as Markdown wants code."""
    lines = [f"    {line}" if line else "" for line in text.splitlines()]
    return "\n" + "\n".join(lines) + "\n\n"


def main(words):
    """Compares the page, or writes it."""
    if words not in ([], ["--check"]):
        sys.exit(__doc__)
    before = PAGE.read_text(encoding="utf-8")
    after, count = SHOWN.subn(lambda m: m[1] + indented(piece(m[2], m[3])) + m[5], before)
    if count == 0 or count != before.count("<!-- snippet: "):
        sys.exit("snippets.py: a marker of README.md has no end, or there is none")
    if not words:
        PAGE.write_text(after, encoding="utf-8")
    elif after != before:
        sys.exit("snippets.py: README.md shows other code than its sources have: run tools/snippets.py")


main(sys.argv[1:])
