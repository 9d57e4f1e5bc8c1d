#!/usr/bin/env python3
"""Finds lemmas and definitions that nothing cites, and what passes by the front of a crate of laws.

    tools/uncited.py            tells each, with its file and line; ends with 1 where there is one
    tools/uncited.py --cut      takes lemmas and definitions out of the files, with the comments above them and what only they
                                imported

What stands in the files of specs/ and proofs/ is cited by code (contracts, models, tactics), by the invariants and answers of
a function's proof, and by what is itself cited. A name is cited where it stands as a word in a file that could mean it: one
that imports it or its module, or its own. So what this finds is cited by nothing; it may miss some.

Of a crate of laws other crates import lemmas from proofs/Gives.antt alone, which passes on what stands in its other files, and
nothing that no other crate imports.
"""

import argparse
import re
import sys
from collections import defaultdict
from pathlib import Path

CRATES = Path(__file__).resolve().parent.parent / "crates"
WORD = re.compile(r"[^\s(){}\[\];,.:→λ«»\"]+")
PATH = re.compile(r"[\w.+]+\.[^\s(){}\[\];,:]+")
HEAD = re.compile(r"^ *(?:(?:pub|abbrev|unfoldable|opaque)\s+)*(?:(?:record|data|ruleset)\s+)?([^\s(){}:;,.\-][^\s(){}:;,.]*)\s.*?(?::|where|=)")
IMPORT = re.compile(r"^\s*(?:ghost\s+)?(?:pub\s+)?use\s+Rattle\.([\w.+]+?)(?:\.\{([^}]*)\})?(?:\s+as\s+([^\s;]+))?;?\s*$")
IN_TACTIC = re.compile(r"crate::((?:specs|proofs)(?:::\w+)*)::([^\s,();\]]+)")
LAW, GIVES = re.compile(r"curp_law_\w+"), "proofs.Gives"
NOT_NAMES = {"use", "pub", "module", "mod", "unfolding", "mutual", "infixl", "infixr", "infix", "ruleset", "syntax", "where", "open"}


class Block:
    """A definition or a lemma: its lines, with the comment above it, and the words in it."""

    def __init__(self, file, name, first, last):
        self.file, self.name, self.first, self.last = file, name, first, last
        self.words = file.words(first, last) - {name}


class File:
    def __init__(self, path):
        self.path = path
        self.lines = path.read_text().split("\n")
        self.crate, kind, *rest = path.relative_to(CRATES).with_suffix("").parts
        self.module = ".".join((self.crate, kind, *rest))
        self.imported, self.modules = defaultdict(set), {}
        self.imports = {at: found for at, line in enumerate(self.lines) if (found := IMPORT.match(line))}
        for found in self.imports.values():
            self.add_import(*found.groups())

    def add_import(self, module, names, alias):
        if names is None:
            above, _, last = module.rpartition(".")
            self.modules[alias or last] = module
            self.imported[alias or last].add((above, last))
            return
        for name in names_in(names):
            name, _, other = name.partition(" as ")
            self.imported[other or name].add((module, name))

    def words(self, first, last):
        text = "\n".join(code_of(self.lines[at]) for at in range(first, last) if at not in self.imports)
        return set(WORD.findall(text)) | set(PATH.findall(text))

    def heads(self):
        """Where a definition begins, and its name; also those inside of modules with parameters."""
        depth = 0
        for at, line in enumerate(self.lines):
            if not line.strip() or line.lstrip().startswith("--") or at in self.imports:
                continue
            width = len(line) - len(line.lstrip())
            depth = min(depth, width // 2)
            if width == 2 * depth and line.lstrip().startswith("module "):
                depth += 1
                continue
            found = HEAD.match(line)
            if found and width == 2 * depth and begins_definition(line, found[1]):
                yield at, found[1]

    def blocks(self):
        heads = list(self.heads())
        starts = [self.with_comment(at) for at, _ in heads] + [len(self.lines)]
        for number, (at, name) in enumerate(heads):
            ends = (it for it in range(at + 1, starts[number + 1]) if re.match(r" *(module |mutual|infix|-- ----)", self.lines[it]))
            yield Block(self, name, starts[number], next(ends, starts[number + 1]))

    def with_comment(self, at):
        while at and re.match(r" *--(?! ----)", self.lines[at - 1]):
            at -= 1
        return at

    def meant_by(self, word):
        """What a word of the file can mean, as a module and a name in it."""
        yield self.module, word
        yield from self.imported.get(word, ())
        head, dot, name = word.rpartition(".")
        if dot:
            yield self.modules.get(head), name
            yield head.removeprefix("Rattle."), name


def code_of(line):
    return line if '"' in line else re.sub(r"--.*|//.*", "", line)


def names_in(list):
    return [it.strip() for it in list.split(",") if it.strip()]


def begins_definition(line, name):
    """Whether the line begins one: its type stands there, or behind it, or it is a set of rules."""
    if re.match(r" *(pub )?ruleset ", line):
        return True
    is_typed = " : " in line or line.rstrip().endswith((":", " where")) or re.match(r" *(pub |abbrev )*(record|data) ", line)
    return name not in NOT_NAMES and bool(is_typed) and "=" not in line.split(" : ")[0].split()


def has_definitions(file):
    """Whether it is a file of definitions or lemmas, and not the proof of one function or impl, or code."""
    return file.path.suffix == ".antt" and file.path.parent.name in ("specs", "proofs") or ".specs." in file.module


def passed_on(files):
    """What a file passes on by `pub use`, as a module and a name, with what it is."""
    return {
        (file.module, other): meant
        for file in files
        for at, found in file.imports.items()
        if file.lines[at].startswith("pub use") and found[2] is not None
        for other, meant in ((it.rpartition(" as ")[2], (found[1], it.partition(" as ")[0])) for it in names_in(found[2]))
    }


def past_the_front(files):
    """Imports of lemmas of a crate of laws by another crate that aren't of its `Gives`, and what a `Gives` passes on to nobody."""
    imported = set()
    for file in files:
        for at, found in file.imports.items():
            crate, _, rest = found[1].partition(".")
            if crate == file.crate or not LAW.fullmatch(crate) or not rest.startswith("proofs"):
                continue
            imported.update((found[1], it.partition(" as ")[0]) for it in names_in(found[2] or ""))
            if rest != GIVES or found[2] is None:
                yield file, at, f"{found[1]} is imported, and not names of {crate}.{GIVES}"
    for file in files:
        if LAW.fullmatch(file.crate) and file.module == f"{file.crate}.{GIVES}":
            for at, found in file.imports.items():
                for name in names_in(found[2] or ""):
                    if (file.module, name.rpartition(" as ")[2]) not in imported:
                        yield file, at, f"{name} is passed on, and no other crate imports it"


def all_files():
    paths = (it for kind in ("src", "specs", "proofs") for it in sorted(CRATES.glob(f"*/{kind}/**/*")))
    return [File(it) for it in paths if it.suffix in (".rt", ".antt") and it.stem != "Lib"]


def roots(file, blocks):
    """What the parts of a file cite that are no definition, as modules and names."""
    covered = {at for block in blocks for at in range(block.first, block.last)}
    for at in range(len(file.lines)):
        if at not in covered:
            for word in file.words(at, at + 1):
                yield from file.meant_by(word)
    if file.path.suffix == ".rt":
        for module, name in IN_TACTIC.findall("\n".join(file.lines)):
            yield f"{file.crate}.{module.replace('::', '.')}", name


def uncited(files):
    """The blocks that nothing cites."""
    blocks = {file: list(file.blocks()) if has_definitions(file) else [] for file in files}
    known = defaultdict(list)
    for block in (it for all in blocks.values() for it in all):
        known[block.file.module, block.name].append(block)
    given = passed_on(files)
    found = [key for file in files for it in roots(file, blocks[file]) if (key := given.get(it, it)) in known]
    live = set(found)
    while found:
        for block in known[found.pop()]:
            meant = (it for word in block.words for it in block.file.meant_by(word))
            more = {key for it in meant if (key := given.get(it, it)) in known} - live
            live |= more
            found += more
    return [block for key in known if key not in live for block in known[key]], sum(map(len, known.values()))


# ---- taking them out


def is_used(name, text):
    """Whether an imported name stands in the text; of an operator a part of its sign, or the arrow of a `do` that means it."""
    sign = name.partition(" as ")[2] or name
    if sign == "◌>>=◌" and "←" in text:
        return True
    return any(part in text for part in sign.split("◌") if part)


def without(file, gone, names_gone):
    """The text of a file without these lines and names, and without imports that only those lines used."""
    text = "\n".join(code_of(line) for at, line in enumerate(file.lines) if at not in gone and at not in file.imports)
    lines = []
    for at, line in enumerate(file.lines):
        if at in gone:
            continue
        found = file.imports.get(at)
        if found and found[2] is not None:
            names = names_in(found[2])
            kept = [it for it in names if (found[1], it.partition(" as ")[0]) not in names_gone and (not gone or is_used(it, text))]
            if not kept:
                while line.startswith("pub use") and lines and re.match(r"--(?! ----)", lines[-1]):
                    lines.pop()
                continue
            line = line.replace("{" + found[2] + "}", "{" + ", ".join(kept) + "}") if kept != names else line
        lines.append(line)
    return re.sub(r"\n{3,}", "\n\n", "\n".join(lines)).rstrip("\n") + "\n"


def cut(files, dead):
    names = {(block.file.module, block.name) for block in dead}
    for file in files:
        gone = {at for block in dead if block.file is file for at in range(block.first, block.last)}
        text = without(file, gone, names)
        if (gone or names) and text != "\n".join(file.lines):
            file.path.write_text(text)


def main():
    words = argparse.ArgumentParser(description=__doc__, formatter_class=argparse.RawDescriptionHelpFormatter)
    words.add_argument("--cut", action="store_true")
    words = words.parse_args()
    files = all_files()
    dead, count = uncited(files)
    for block in sorted(dead, key=lambda it: (it.file.path, it.first)):
        print(f"{block.file.path.relative_to(CRATES)}:{block.first + 1}: {block.name}")
    past = list(past_the_front(files))
    for file, at, why in past:
        print(f"{file.path.relative_to(CRATES)}:{at + 1}: {why}")
    print(f"{len(dead)} of {count} lemmas and definitions are cited by nothing, {len(past)} imports pass by the front of a crate of laws")
    if words.cut:
        cut(files, dead)
    return 1 if dead or past else 0


if __name__ == "__main__":
    sys.exit(main())
