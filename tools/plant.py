#!/usr/bin/env python3
"""Plants bugs in a copy of the project, to see that its tests tell them.

    tools/plant.py                     what is planted, and what tells it
    tools/plant.py --check             whether all that is planted, and each wrong body, still changes what stands here
    tools/plant.py FOLDER NAME..       a copy as FOLDER, with these planted; all that are planted at once, where none is named

A bug is a file NAME.edit: of tools/planted, where no proof need refuse it, or of crates/CRATE/wrong, where it has to. Lines
'file:', 'old:' and 'new:' say what is changed; of those in tools/planted a line 'class:' says of which class it is, and 'told
by:' what tells it. A copy has what stands here, committed or not. Its programs are made by its own tools/quick, and nothing
of it is proved.

--check also wants of each edit of must-fail that a line '# refuses:' names a function of the file that it changes: the one
whose proof has to fail.
"""

import re
import shutil
import sys
from pathlib import Path
from typing import NamedTuple

TOP = Path(__file__).resolve().parent.parent
PLANTED = TOP / "tools" / "planted"


class Bug(NamedTuple):
    """A bug: its class and what tells it, the function that has to refuse it, and what is changed, where."""

    name: str
    told: dict
    changes: list


def bug_of(file):
    """The bug that a file describes. What it changes stands in the project, or in its crate."""
    at = TOP if file.parent == PLANTED else file.parent.parent
    told, changes = {}, []
    for line in file.read_text(encoding="utf-8").splitlines():
        word, _, rest = line.partition(":")
        rest = rest.removeprefix(" ")
        if word == "file":
            path = (at / rest).relative_to(TOP)
        elif word == "old":
            old = rest
        elif word == "new":
            changes.append((path, old, rest))
        else:
            told[word.removeprefix("# ")] = rest
    needed = {"tools/planted": {"class", "told by"}, "must-fail": {"refuses"}}
    missing = needed.get("tools/planted" if at == TOP else file.parent.name, set()) - set(told)
    if missing or not changes:
        sys.exit(f"{file}: no line {' or '.join(sorted(missing)) or 'that changes anything'}")
    return Bug(file.stem, told, changes)


def bug_named(name):
    found = [file for file in [PLANTED / f"{name}.edit", *TOP.glob(f"crates/*/wrong/{name}.edit")] if file.exists()]
    if len(found) != 1:
        sys.exit(f"{name}: {len(found)} bugs of that name")
    return bug_of(found[0])


def changed(bugs):
    """The files that bugs change, with their new texts. What is changed has to stand there once."""
    texts = {}
    for bug in bugs:
        for path, old, new in bug.changes:
            text = texts.get(path) or (TOP / path).read_text(encoding="utf-8")
            if text.count(old) != 1 or old == new:
                sys.exit(f"{bug.name}: in {path} there is {text.count(old)} times: {old}")
            texts[path] = text.replace(old, new)
    return texts


def check():
    files = [*PLANTED.glob("*.edit"), *TOP.glob("crates/*/wrong/*.edit"), *TOP.glob("crates/*/must-fail/*.edit")]
    for file in sorted(files):
        bug = bug_of(file)
        changed([bug])
        refuses, source = bug.told.get("refuses"), (TOP / bug.changes[0][0]).read_text(encoding="utf-8")
        if refuses and not re.search(rf"\bfn {re.escape(refuses.rpartition('::')[2])}\b", source):
            sys.exit(f"{file}: {bug.changes[0][0]} has no function {refuses}")
    print(f"{len(files)} edits change what stands here")


def copy(to, bugs):
    texts = changed(bugs)
    shutil.copytree(TOP, to, ignore=shutil.ignore_patterns("out", ".git", "__pycache__"))
    for path, text in texts.items():
        (to / path).write_text(text, encoding="utf-8")


def main(words):
    planted = [bug_of(file) for file in sorted(PLANTED.glob("*.edit"))]
    if not planted:
        sys.exit("nothing is planted")
    if words == ["--check"]:
        check()
    elif words and words[0].startswith("-"):
        sys.exit(__doc__)
    elif words:
        copy(Path(words[0]), [bug_named(name) for name in words[1:]] or planted)
    for bug in [] if words else planted:
        print(f"{bug.name}: {bug.told['class']}; told by {bug.told['told by']}")


main(sys.argv[1:])
