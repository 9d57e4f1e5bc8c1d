#!/usr/bin/env python3
"""Tries the wrong bodies of crates/NAME/wrong, each of which the proof has to refuse.

A wrong body is a file NAME.edit, as those of must-fail that the gate tries: the file that it changes, and lines 'old:' and
'new:'. What stands behind 'old:' stands in that file once.

    tools/try_wrong.py              those of all crates, lowest first
    tools/try_wrong.py NAME ..      those of these crates, or with NAME/EDIT one of them
    tools/try_wrong.py --apply      only whether each can be applied, those of must-fail too: no proof, and no time

Those of a crate that change bodies of different functions are tried together, in a copy of it: one check of just these
functions, each of which has to fail by what it says itself, and not only since one that it calls does. What changes more than
bodies is tried alone, and so is one whose function doesn't refuse it: a check of the whole crate tells which other does.
A line '# refuses: NAME' in its file says that this function has to, which saves that check.

The libraries below are those that `rt ci` keeps on this machine; it is run over those that it doesn't have. --log FILE has a
line added for each that was tried, --keep FOLDER has what each check said.
It ends with 1 unless all were refused, those with a line 'refuses' by the function that is named.
"""

import argparse
import importlib.machinery
import importlib.util
import os
import re
import shutil
import subprocess
import sys
import tempfile
import time
from concurrent.futures import ThreadPoolExecutor
from pathlib import Path
from typing import NamedTuple

sys.dont_write_bytecode = True
ROOT = Path(__file__).resolve().parent.parent
FUNCTION = re.compile(r"^( *)(?:pub(?:\([^)]*\))? )?(?:final )?(?:const )?fn (\w+)")
OWNER = re.compile(r"^(?:pub(?:\([^)]*\))? )?(?:(impl)\b|(?:trait|mod) (\w+))")
# What the prover says of a function, and what it says of those that only rest on one that isn't proved.
TOLD = re.compile(r"^fn (\S+): (proved|not proved|no proof|could not tell)(.*)$", re.MULTILINE)
RESTS = re.compile(r"it calls `[^`]+`(?:(?:,| and|, and) `[^`]+`)*, which (?:is|are) not proved")
UNKNOWN = re.compile(r"^rattle: error: `\w+` has no (?:function|\w+) `([^`]+)`", re.MULTILINE)
AMBIGUOUS = re.compile(r"^rattle: error: several functions are named `([^`]+)`: help: write one of (.*)", re.MULTILINE)
# Where it says that a text isn't compiled. An edit moves no line.
ERROR = re.compile(r"^(src/\S+\.rt):(\d+):\d+: error\[", re.MULTILINE)
# What it says of a goal, right before the function whose it is.
GOAL = re.compile(r"^note: src/\S+: ", re.MULTILINE)
# What it says of a proof file that speaks of something which a wrong body took away.
GONE = r"has no field|is not in scope|has no `|was not admitted"


class BadEdit(Exception):
    """Why an edit cannot be applied."""


class Change(NamedTuple):
    """What an edit replaces in a file of its crate, and by what."""

    file: str
    begin: int
    old: str
    new: str


class Edit(NamedTuple):
    """A wrong body: what it changes, the functions in whose bodies that is, none where it changes more, and those that are
    to refuse it. Functions have their paths below the crate."""

    crate: str
    name: str
    changes: tuple
    functions: frozenset
    refusers: frozenset
    is_named: bool


# ---- edits, and the functions that they change


def edits_of(crate, folder):
    """The edits in a folder of a crate, and why the others cannot be applied."""
    good, bad = [], []
    for file in sorted((crate / folder).glob("*.edit")):
        try:
            good.append(read_edit(crate, file))
        except (BadEdit, OSError, UnicodeError) as why:
            bad.append(f"{file.relative_to(ROOT)}: {why}")
    return good, bad


def read_edit(crate, file):
    changes, named, words = [], [], {}
    for line in file.read_text(encoding="utf-8").splitlines():
        word, _, rest = line.removeprefix("# ").partition(":")
        words[word] = rest.removeprefix(" ")
        if word == "new":
            if not words.get("file") or not words.get("old"):
                raise BadEdit("a 'new:' line stands before any 'file:' or 'old:' line")
            changes.append(change_of(crate, words["file"].strip(), words.pop("old"), words["new"]))
        elif word == "refuses":
            named.append(rest.strip())
        elif word not in ("file", "old"):
            raise BadEdit(f"a line begins with none of file, old, new and refuses: {line}")
    if not changes:
        raise BadEdit("it has no lines 'old:' and 'new:'")
    texts = {change.file: text_of(crate, change.file) for change in changes}
    changed_texts(texts, changes)
    around = [function_at(change.file, texts[change.file], change.begin) for change in changes]
    functions = frozenset(around) if all(around) else frozenset()
    return Edit(crate.name, file.stem, tuple(changes), functions, frozenset(named) or functions, bool(named))


def text_of(crate, path):
    if not path.startswith(("src/", "specs/", "proofs/")) or not (crate / path).is_file():
        raise BadEdit(f"there is no file {path}")
    return (crate / path).read_text(encoding="utf-8")


def change_of(crate, path, old, new):
    text = text_of(crate, path)
    if text.count(old) != 1:
        raise BadEdit(f"it stands {text.count(old)} times in {path}, and not once: {old.strip()}")
    if old == new:
        raise BadEdit(f"it changes nothing: {old.strip()}")
    return Change(path, text.index(old), old, new)


def changed_texts(texts, changes):
    """The texts of files, by their paths, with all changes made in them."""
    made, end = dict(texts), {}
    for change in sorted(changes, key=lambda it: -it.begin):
        behind = change.begin + len(change.old)
        if behind > end.get(change.file, behind):
            raise BadEdit(f"two changes meet in {change.file}: {change.old.strip()}")
        end[change.file] = change.begin
        text = made[change.file]
        made[change.file] = text[: change.begin] + change.new + text[behind:]
    return made


def function_at(file, text, place):
    """The function in whose body a place of a file is, by its path below the crate. None where it is in no body."""
    lines, row = text.split("\n"), text[:place].count("\n")
    head = next((at for at in range(row, -1, -1) if FUNCTION.match(lines[at])), None)
    if head is None:
        return None
    indent, name = FUNCTION.match(lines[head]).groups()
    opens = next((at for at in range(head, row) if is_opened(lines[at], indent, at == head)), row)
    if opens == row or f"{indent}}}" in lines[opens : row + 1]:
        return None
    modules = [part for part in file.removesuffix(".rt").split("/")[1:] if part not in ("lib", "main", "mod")]
    return "::".join([*modules, *owner_of(lines, head if indent else 0), name])


def is_opened(line, indent, is_head):
    """Whether a function's body begins behind a line."""
    return line == f"{indent}{{" or line.endswith("{") and (is_head or line.startswith(f"{indent})"))


def owner_of(lines, head):
    """The type of the methods at a line, and the trait, as the prover names them: one word, or none."""
    at = next((at for at in range(head - 1, -1, -1) if OWNER.match(lines[at])), None)
    if at is None:
        return []
    is_impl, name = OWNER.match(lines[at]).groups()
    if not is_impl:
        return [name]
    whole = " ".join(lines[at:head]).partition("{")[0].partition(" where ")[0].removeprefix("impl")
    taken, whole = parameters_of(whole)
    of, _, to = whole.rpartition(" for ")
    return ["".join(words_of(part, taken) for part in (to, of))]


def parameters_of(text):
    """The names of the parameters with which a text begins, and the text behind them."""
    if not text.startswith("<"):
        return set(), text
    depth, at = 0, 0
    for at, char in enumerate(text):
        depth += (char == "<") - (char == ">" and text[at - 1] != "-")
        if not depth:
            break
    return set(re.findall(r"(?:^|[,<] ?)(?:const )?(\w+)(?=:|,|$)", text[1:at])), text[at + 1 :]


def words_of(text, taken):
    """The words of a type, joined, without parameters and lifetimes."""
    words = re.findall(r"\w+|&|\[", re.sub(r"'\w+|\w+::", "", text))
    named = [{"&": "Ref", "[": "Slice"}.get(word, word) for word in words if word not in taken]
    return "".join(word[0].upper() + word[1:] for word in named)


# ---- checks, by `rt` of the kit


class Said(NamedTuple):
    """What a check came to: its status, what it said, what of each function, which fail by themselves, and which have goals
    that stay open."""

    status: int
    text: str
    told: dict
    failed: list
    goals: set


def said_by(ran):
    told, failed, goals, last = {}, [], set(), 0
    for found in TOLD.finditer(ran.stdout):
        name, what, more = found.groups()
        told[name] = what
        is_own = what == "not proved" or RESTS.sub("", more).strip(" :;,.")
        if what in ("not proved", "no proof") and is_own:
            failed.append(name)
        if GOAL.search(ran.stdout, last, found.start()):
            goals.add(name)
        last = found.end()
    return Said(ran.returncode, ran.stdout, told, failed, goals)


class Prover:
    """Checks crates of a copy of this repository, over what `rt ci` keeps."""

    def __init__(self, folder):
        self.folder, self.rt = folder, kit()
        self.rt.rtlib.guarded()
        self.rt.Crate.allowed = self.rt.handles_of(str(folder))
        self.rt.Crate.cuts_libraries = True
        self.crates = self.rt.crates_of(str(folder))
        self.kept = self.rt.Kept(self.crates)

    def take_libraries(self, names):
        """Takes the libraries below these crates, and returns the names of those that aren't kept."""
        below = {dep for crate in self.crates if crate.name in names for dep in crate.below()}
        lacking = []
        for crate in (it for it in self.crates if it in below):
            is_whole = not any(dep.name in lacking for dep in crate.below())
            if is_whole and self.kept.give(crate, False, self.kept.key(crate)):
                self.kept.is_built(crate)
            else:
                lacking.append(crate.name)
        return lacking

    def prove(self, names):
        """Proves libraries, which keeps them."""
        # (in a merge's run `rt ci` takes no names)
        env = {key: value for key, value in os.environ.items() if key != "CI"}
        subprocess.run(["rt", "ci", *names], cwd=self.folder, env=env, stdin=subprocess.DEVNULL, check=False)

    def check(self, crate, changes, only, room):
        """Checks a crate with changes, or some functions of it alone."""
        texts = {change.file: text_of(Path(crate.folder), change.file) for change in changes}
        flags = ["--jobs", "1", *[word for name in only for word in ("--only", name)]]
        return said_by(self.rt.checked(crate, changed_texts(texts, changes), flags, room))

    def why_unread(self, said, edits):
        """What says that the changed text means nothing: then no contract was tried. None where it was."""
        files = {change.file for edit in edits for change in edit.changes}
        lines = said.text.splitlines()
        unread = next((line for line in lines if self.rt.unread(line, files)), None)
        if unread or said.told:
            return unread
        return next((line for line in lines if re.search(r"\berror\b", line)), f"status {said.status}")


def kit():
    """`rt` as a module."""
    page = subprocess.run(["rt", "doc"], capture_output=True, text=True, check=True).stdout.strip()
    loader = importlib.machinery.SourceFileLoader("rt_of_the_kit", str(Path(page).parent / "bin" / "rt"))
    made = importlib.util.module_from_spec(importlib.util.spec_from_loader("rt_of_the_kit", loader))
    loader.exec_module(made)
    return made


# ---- what a crate's edits come to


class Result(NamedTuple):
    """What an edit came to: REFUSED by functions, or another word, and what is told of it."""

    edit: Edit
    what: str
    by: tuple
    note: str = ""

    def is_well(self):
        return self.what == REFUSED and (not self.edit.is_named or not self.is_by_another())

    def is_by_another(self):
        """Whether none of the functions that are to refuse it did."""
        return not any(is_in(self.edit.crate, name, one) for name in self.by for one in self.edit.refusers)

    def line(self):
        by = f" by {', '.join(self.by[:6])}" if self.by else ""
        others = f", and not by {', '.join(sorted(self.edit.refusers))}" if self.by and self.edit.refusers and self.is_by_another() else ""
        return f"{self.edit.crate}/{self.edit.name}: {self.what}{by}{others}{f' ({self.note})' if self.note else ''}"


REFUSED, MISSED, BAD, UNSURE = "refused", "NOT REFUSED", "BAD EDIT", "NOT TRIED"


def is_in(crate, name, function):
    """Whether a name that the prover tells is that of a function, or of a closure in it."""
    told, path = name.replace("::fn::", "::"), f"{crate}::{function}"
    return told == path or told.startswith(f"{path}::") or "::" not in function and f"::{function}::" in f"{told}::"


class Trial:
    """The edits of a crate, while they are tried."""

    def __init__(self, prover, crate, edits, keep):
        self.prover, self.crate, self.edits, self.keep = prover, crate, edits, keep
        self.names, self.checks = {}, 0

    def results(self):
        with tempfile.TemporaryDirectory(prefix="curp-wrong-kept-") as self.room:
            for edits in rounds_of(self.edits):
                yield from self.tried(edits)

    def tried(self, edits):
        """What edits of different functions come to that are tried at once."""
        only = {one for edit in edits for one in edit.refusers}
        if not only:
            yield from (self.tried_whole(edit) for edit in edits)
            return
        said = self.check(edits, only)
        why = self.prover.why_unread(said, edits)
        if why and len(edits) == 1:
            yield Result(edits[0], BAD if said.status == 1 else UNSURE, (), why)
        elif why:
            alone = self.spoilers(edits, said.text) or edits
            rest = [edit for edit in edits if edit not in alone]
            for part in [*([edit] for edit in alone), *([rest] if rest else [])]:
                yield from self.tried(part)
        else:
            for edit in edits:
                failed = self.failed_of(edit, said)
                yield self.refused(edit, failed, said) if failed else self.tried_whole(edit)

    def tried_whole(self, edit):
        """What an edit comes to in a check of the whole crate."""
        said = self.check([edit], [])
        why = self.prover.why_unread(said, [edit])
        if why:
            return Result(edit, BAD if said.status == 1 else UNSURE, (), why)
        if said.failed:
            return self.refused(edit, said.failed, said)
        if said.status == 0:
            return Result(edit, MISSED, ())
        limit = [name for name, what in said.told.items() if what == "could not tell"]
        return Result(edit, REFUSED, tuple(limit), "by a limit of the prover") if limit else Result(edit, UNSURE, (), f"status {said.status}")

    def check(self, edits, only):
        """Checks the crate with edits: all of it, or functions that are looked for by their names where their paths are others."""
        self.checks += 1
        while True:
            asked = sorted({name for one in only for name in self.names.get(one, [one])})
            changes = [change for edit in edits for change in edit.changes]
            said = self.prover.check(self.crate, changes, asked, self.room)
            if self.keep:
                what = "\n".join([*[edit.name for edit in edits], " ".join(asked), said.text])
                (self.keep / f"{self.crate.name}-{time.time():.0f}").write_text(what)
            if not self.learn(said.text):
                return said

    def spoilers(self, edits, text):
        """The edits in whose functions something is that isn't compiled."""
        found = set()
        for file, row in ERROR.findall(text):
            lines = text_of(Path(self.crate.folder), file).splitlines(keepends=True)
            found.add(function_at(file, "".join(lines), len("".join(lines[: int(row) - 1]))))
        return [edit for edit in edits if edit.functions & found]

    def learn(self, text):
        """Notes what a function is named that a check found under no name or under several, and whether there was one."""
        unknown, several = UNKNOWN.search(text), AMBIGUOUS.search(text)
        if not unknown and not several:
            return False
        asked = (unknown or several)[1]
        path = next(one for one in [*self.names, asked] if asked in self.names.get(one, [asked]))
        found = [asked.rpartition("::")[2]] if unknown else re.findall(r"`([^`]+)`", several[2])
        module = f"{self.crate.name}::{path.rpartition('::')[0].rpartition('::')[0]}"
        here = [name for name in found if name.startswith(module)]
        if found == [asked]:
            raise BadEdit(f"{self.crate.name} has no function {path}")
        self.names[path] = here or found
        return True

    def failed_of(self, edit, said):
        """The functions of those that have to refuse an edit which do."""
        names = {other for one in edit.refusers for other in [f"{self.crate.name}::{one}", *self.names.get(one, [])]}
        paths = [name.removeprefix(f"{self.crate.name}::") for name in names]
        return [name for name in said.failed if any(is_in(self.crate.name, name, path) for path in paths)]

    def refused(self, edit, failed, said):
        return Result(edit, REFUSED, tuple(failed), self.note_of(failed, said))

    def note_of(self, failed, said):
        """What is told where no goal stays open and proof files alone refuse, since they speak of what the edit took away."""
        folders = [f"proofs/{name.partition('::')[2].replace('::', '/')}/" for name in failed]
        errors = [line for line in said.text.splitlines() if ": error" in line and any(it in line for it in folders)]
        is_gone = errors and all(re.search(GONE, line) for line in errors) and not said.goals & set(failed)
        return "only since its proof speaks of what the edit took away" if is_gone else ""


def rounds_of(edits):
    """Edits that can be tried at once: each function is changed by one of them, and what changes more than bodies is alone."""
    rounds, alone = [], []
    for edit in edits:
        touched = edit.functions | edit.refusers
        if not edit.functions:
            alone.append([edit])
            continue
        for others, taken in rounds:
            if not touched & taken:
                others.append(edit)
                taken |= touched
                break
        else:
            rounds.append(([edit], set(touched)))
    return [others for others, _ in rounds] + alone


# ---- all of it


def copied(to):
    """Copies the crates to a folder, without what the gate tries and leaves."""
    shutil.copytree(ROOT / "crates", to / "crates", ignore=shutil.ignore_patterns("out", "wrong", "must-fail"))
    for name in ("crates.txt", "HANDLES"):
        shutil.copyfile(ROOT / name, to / name)
    # (it is the top of a repository)
    (to / ".git").mkdir()
    return to


def try_all(edits, folder, given):
    """Tries edits, tells what each comes to, and returns that."""
    prover, results = Prover(folder), []
    names = {edit.crate for edit in edits}
    lacking = prover.take_libraries(names)
    if lacking:
        print(f"`rt ci` proves what it doesn't keep: {' '.join(lacking)}", flush=True)
        prover.prove(lacking)
        lacking = prover.take_libraries(names)

    def of_crate(crate):
        began, own = time.monotonic(), [edit for edit in edits if edit.crate == crate.name]
        missing = [dep.name for dep in crate.below() if dep.name in lacking]
        if missing:
            return [tell(Result(edit, UNSURE, (), f"{missing[0]} isn't proved"), given.log) for edit in own]
        trial = Trial(prover, crate, own, given.keep)
        found = [tell(result, given.log) for result in trial.results()]
        print(f"{crate.name}: {trial.checks} checks for {len(own)} edits, {time.monotonic() - began:.0f} seconds", flush=True)
        return found

    with ThreadPoolExecutor(given.jobs) as pool:
        for found in pool.map(of_crate, [crate for crate in prover.crates if crate.name in names]):
            results += found
    return results


def tell(result, log):
    print(result.line(), flush=True)
    if log:
        with open(log, "a", encoding="utf-8") as file:
            print(result.line(), file=file)
    return result


def table(results):
    """A line for each crate: how many wrong bodies it has, how many were refused, how many of them by other functions, and
    which weren't."""
    yield f"{'crate':<20}{'tried':>6}{'refused':>9}{'by others':>11}"
    for name in sorted({result.edit.crate for result in results}):
        has = [result for result in results if result.edit.crate == name]
        refused = [result for result in has if result.what == REFUSED]
        by_others = sum(bool(result.edit.refusers) and result.is_by_another() for result in refused)
        others = "; ".join(f"{result.edit.name}: {result.what}" for result in has if result.what != REFUSED)
        yield f"{name:<20}{len(has):>6}{len(refused):>9}{by_others:>11}  {others}".rstrip()


def every_edit(folders, names):
    """The edits that these names mean, and why others cannot be applied."""
    edits, bad, crates = [], [], {name.partition("/")[0] for name in names}
    for crate in sorted(file for file in (ROOT / "crates").iterdir() if (file / "src").is_dir()):
        for folder in folders if not names or crate.name in crates else ():
            good, others = edits_of(crate, folder)
            edits += [edit for edit in good if not names or is_meant(edit, names)]
            bad += others
    return edits, bad


def is_meant(edit, names):
    return edit.crate in names or f"{edit.crate}/{edit.name}" in names


def main():
    wanted = argparse.ArgumentParser(description=__doc__, formatter_class=argparse.RawDescriptionHelpFormatter)
    wanted.add_argument("names", nargs="*", metavar="NAME")
    wanted.add_argument("--apply", action="store_true")
    wanted.add_argument("--jobs", type=int, default=1, help="crates at once")
    wanted.add_argument("--log", type=Path)
    wanted.add_argument("--keep", type=Path)
    given = wanted.parse_args()
    edits, bad = every_edit(("wrong", "must-fail") if given.apply else ("wrong",), given.names)
    unknown = [name for name in given.names if not any(is_meant(edit, [name]) for edit in edits)]
    print(*bad, *[f"{name}: no wrong body that can be applied" for name in unknown], sep="\n", end="\n" * bool(bad or unknown), file=sys.stderr)
    bad += unknown
    if given.apply or not edits:
        print(f"{len(edits)} of {len(edits) + len(bad)} wrong bodies can be applied")
        return 1 if bad or not edits else 0
    began = time.monotonic()
    with tempfile.TemporaryDirectory(prefix="curp-wrong-") as room:
        results = try_all(edits, copied(Path(room)), given)
    print(*table(results), sep="\n")
    refused = sum(result.what == REFUSED for result in results)
    print(f"{refused} of {len(results) + len(bad)} refused, in {(time.monotonic() - began) / 60:.0f} minutes")
    return 0 if all(result.is_well() for result in results) and not bad else 1


if __name__ == "__main__":
    sys.exit(main())
