#!/usr/bin/env python3
"""tools/shown.py --check: compares the scripts and outputs that the pages show with those that are tested.

A block of a page (lines indented by four spaces) that begins as a script, a history or an output does is to stand, line by
line, in an example (examples) or in the input or output of a case (cases/NAME/stdin, stdout, rows), which the gate compares
with what the program writes. What stands on a line behind two spaces is a remark, and one line alone is no such block. The
status is 1 where a block stands in none, or where README.md shows no script or no output.
"""

import re
import sys
from pathlib import Path

TOP = Path(__file__).resolve().parent.parent
BLOCK = re.compile(r"(?:^    .*\n)+", re.MULTILINE)
REMARK = re.compile(r"(^|\S) {2,}.*")
BEGINS = {
    "script": re.compile(r'\{"(clients|backup|client|do)":'),
    "history": re.compile(r'\{"(cmd|ans)":'),
    "output": re.compile(r"s\d+ |steps \d+$|order \d+$"),
}


def tested():
    """The texts that the gate compares with those of the program, line by line."""
    files = [*TOP.glob("examples/*.script"), *TOP.glob("examples/*.out")]
    files += [file for name in ("stdin", "stdout", "rows") for file in TOP.glob(f"cases/*/{name}")]
    return ["\n" + file.read_text(encoding="utf-8") for file in sorted(files)]


def blocks(page):
    """The blocks of a page that are shown, without remarks: what each begins as, and its lines."""
    for block in BLOCK.findall(page):
        lines = [REMARK.sub(r"\1", line.removeprefix("    ")) for line in block.splitlines()]
        text = "".join(line + "\n" for line in lines if line)
        kind = next((kind for kind, begins in BEGINS.items() if begins.match(text)), None)
        if kind and text.count("\n") > 1:
            yield kind, text


def main(words):
    if words != ["--check"]:
        sys.exit(__doc__)
    texts, wrong, shown = tested(), [], {}
    for file in [TOP / "README.md", *sorted((TOP / "docs").glob("*.md"))]:
        found = list(blocks(file.read_text(encoding="utf-8")))
        shown[file.name] = {kind for kind, _ in found}
        untested = [text for _, text in found if not any("\n" + text in it for it in texts)]
        wrong += [f"{file.name}: no test has this:\n{text}" for text in untested]
    if not {"script", "output"} <= shown["README.md"]:
        wrong.append(f"README.md shows {sorted(shown['README.md'])}")
    for told in wrong:
        print(told)
    sys.exit(1 if wrong else 0)


main(sys.argv[1:])
