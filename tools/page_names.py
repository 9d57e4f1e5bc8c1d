#!/usr/bin/env python3
"""tools/page_names.py [--check]: tells what pages have in backquotes, or link to, that is nowhere in the repository.

A name with a slash or the ending of a file is there where a path of the repository ends with it. Of any other name each
word has to stand in a source, a definition, a lemma, a tool or an example. Words in capitals stand for something else, and
neither what a build leaves (`out`) nor a folder of the reader's is looked for. Without --check the names are counted. The
status is 1 where one is nowhere.
"""
import fnmatch
import os
import re
import sys
from pathlib import Path

TOP = Path(__file__).resolve().parent.parent
PAGES = ["CONTRIBUTING.md", "README.md", "docs/*.md", "cases/README.md", "examples/README.md"]
NOT_READ = {".git", "out", "__pycache__"}
NO_SOURCE = re.compile(r"\.(md|svg|json)$|/proofs/.*/")
QUOTED = re.compile(r"`([^`\n]+)`")
LINK = re.compile(r"\]\(([^)#:]+)[^):]*\)")
WORD = re.compile(r"[A-Za-z_]\w+")
PATH = re.compile(r"[\w.*-]+(/[\w.*-]+)+/?|[\w-]*\*[\w*-]*|[\w*-]+\.(rt|antt|md|py|script|out|status|txt)")
PLACEHOLDER = re.compile(r"\b([A-Z]+|[0-9a-f]{16})\b")
# What stands elsewhere: on the command line of other programs, in the kit, and what `rt` prints.
ELSEWHERE = set("EXEC LISTEN TCP reuseaddr nodelay perf tmp benchmark Lcg64Xsh32 Snapshot xor races git grep lw mget".split())


def all_paths():
    """Each path of the repository, from its top."""
    for folder, folders, files in os.walk(TOP):
        folders[:] = [it for it in folders if it not in NOT_READ]
        yield from (os.path.relpath(os.path.join(folder, it), TOP) for it in folders + files)


def ends_of(paths):
    """Each path, and what it is from each of its folders."""
    return {path.split("/", count)[count] for path in paths for count in range(path.count("/") + 1)}


def words_of(paths):
    """Each word of a path, and of a source."""
    words = set()
    for path in paths:
        words.update(WORD.findall(path))
        if not NO_SOURCE.search(path) and (TOP / path).is_file():
            words.update(WORD.findall((TOP / path).read_text(encoding="utf-8", errors="replace")))
    return words


def is_path(name, ends):
    """Whether a path ends so, or it isn't looked for."""
    name = PLACEHOLDER.sub("*", name.rstrip("/"))
    return name.startswith("*/") or "/out/" in name or name in ends or "*" in name and bool(fnmatch.filter(ends, name))


def names_of(page, ends, words):
    """The names of a page: line, name, and whether it is there."""
    for number, line in enumerate(page.read_text(encoding="utf-8").splitlines(), 1):
        if line.startswith("    "):
            continue
        for link in LINK.findall(line):
            yield number, link, (page.parent / link).exists()
        for name in QUOTED.findall(line):
            if PATH.fullmatch(name):
                yield number, name, is_path(name, ends)
            else:
                yield number, name, all(it in words for it in WORD.findall(PLACEHOLDER.sub("", name)))


def main(arguments):
    if arguments not in ([], ["--check"]):
        sys.exit(__doc__)
    paths = list(all_paths())
    ends, words = ends_of(paths), words_of(paths) | ELSEWHERE
    pages = [it for pattern in PAGES for it in sorted(TOP.glob(pattern))]
    found = [(page.relative_to(TOP), *it) for page in pages for it in names_of(page, ends, words)]
    nowhere = [it for it in found if not it[3]]
    for page, number, name, _ in nowhere:
        print(f"{page}:{number}: {name} is nowhere in the repository")
    if not arguments:
        print(f"{len(found)} names on {len(pages)} pages, {len(nowhere)} of them nowhere")
    return 1 if nowhere else 0


if __name__ == "__main__":
    sys.exit(main(sys.argv[1:]))
