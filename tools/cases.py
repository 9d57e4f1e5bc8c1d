#!/usr/bin/env python3
"""Runs the program as its users do, and compares all that is seen of it with what was written down beforehand.

    tools/cases.py PROGRAM             all runs of all cases
    tools/cases.py PROGRAM NAME..      those of these cases

PROGRAM is curp, as `rt run` in crates/curp leaves it in crates/curp/out/curp. A case is a folder of cases/, whose README says
what stands in it. Each run that goes wrong is told with what differs. It ends with a line `N passed, M failed`, and with status
1 where one failed, or where all ran and these were more or fewer than are wanted.
"""

import importlib.util
import os
import sys
import time
from concurrent.futures import ThreadPoolExecutor
from pathlib import Path

CASES = Path(__file__).resolve().parent.parent / "cases"
sys.path.insert(0, str(CASES))
sys.dont_write_bytecode = True
from runs import Run, Wrong  # noqa: E402

# How many runs there are. Whoever adds one raises it, so that none is lost unseen.
WANTED = 1555

# No run is begun once all took so long, as where the program hangs.
SECONDS_OF_ALL = 600

ONE_RUN = {"args", "stdin", "stdout", "stderr", "status"}


def words_of(text):
    """One argument a line."""
    return text.split("\n")[:-1]


def single(folder):
    """The run of a folder with a file for each part of it."""
    parts = {file.name: file.read_bytes() for file in folder.iterdir()}
    unknown = set(parts) - ONE_RUN
    if unknown:
        raise Wrong(f"{folder.name}: no part of a run: {', '.join(sorted(unknown))}")
    streams = {name: parts.get(name, b"") for name in ("stdin", "stdout", "stderr")}
    return Run("", words_of(parts["args"].decode()), status=int(parts.get("status", b"0")), **streams)


def part_of(heading, lines):
    """A part of a run in a file of rows: its name, and what it is."""
    name, *words = heading.split()
    if name == "args":
        return name, ["" if word == '""' else word for word in words]
    if name == "status":
        return name, int(words[0])
    if name not in ONE_RUN or set(words) - {"crlf", "cut"}:
        raise Wrong(f"no part of a run: {heading}")
    end = "\r\n" if "crlf" in words else "\n"
    text = "".join(line + end for line in lines)
    return name, text[: -len(end)] if "cut" in words else text


def parts_of(text):
    """The parts that stand in a row: each begins with a line `--- NAME ..`."""
    parts = {}
    for part in text.split("\n--- ")[1:]:
        heading, *lines = part.split("\n")
        name, value = part_of(heading, lines)
        if name in parts:
            raise Wrong(f"it stands twice: {name}")
        parts[name] = value
    return parts


def rows(file):
    """The runs of a file of rows: each begins with a line `=== NAME`. What stands before the first holds for all."""
    text = "\n" + file.read_text(encoding="utf-8").removesuffix("\n")
    common, *each = text.split("\n=== ")
    given = parts_of(common)
    for row in each:
        name = row.split("\n", 1)[0]
        yield Run(name, **{**given, **parts_of(row)})


def written_by(file):
    """The runs that a case.py gives."""
    spec = importlib.util.spec_from_file_location(f"case_{file.parent.name}", file)
    module = importlib.util.module_from_spec(spec)
    spec.loader.exec_module(module)
    yield from module.runs()


def runs_of(folder):
    """The runs of a case, with their names."""
    runs = [single(folder)] if (folder / "args").exists() else []
    for name, read in (("rows", rows), ("case.py", written_by)):
        if (folder / name).exists():
            runs += read(folder / name)
    if not runs:
        raise Wrong(f"{folder.name}: no run")
    return [(f"{folder.name}/{run.name}".removesuffix("/"), run) for run in runs]


def wrong_with(program, run, last):
    """What is wrong with a run, which isn't begun past that moment; none where it is as it has to be."""
    if time.monotonic() > last:
        return f"it wasn't run: the others took {SECONDS_OF_ALL} seconds"
    try:
        run.go(program)
    except Wrong as wrong:
        return str(wrong)
    except Exception as fault:  # a case that is wrong itself fails alone
        return f"{type(fault).__name__}: {fault}"
    return None


def told_of(program, runs):
    """What is wrong with each run: first those that have to be alone, and then several at once."""
    last = time.monotonic() + SECONDS_OF_ALL
    told = [wrong_with(program, run, last) if run.alone else None for run in runs]
    with ThreadPoolExecutor(max_workers=os.cpu_count()) as pool:
        others = pool.map(lambda run: None if run.alone else wrong_with(program, run, last), runs)
        return [first or other for first, other in zip(told, others)]


def chosen(names):
    """The folders of these cases, or of all."""
    folders = sorted(folder for folder in CASES.iterdir() if folder.is_dir() and folder.name != "__pycache__")
    unknown = set(names) - {folder.name for folder in folders}
    if unknown:
        sys.exit(f"there is no case {', '.join(sorted(unknown))}")
    return [folder for folder in folders if not names or folder.name in names]


def main():
    if len(sys.argv) < 2:
        sys.exit(__doc__)
    program, names = os.path.abspath(sys.argv[1]), sys.argv[2:]
    if not os.access(program, os.X_OK):
        sys.exit(f"{program} is no program")
    began = time.monotonic()
    runs = [run for folder in chosen(names) for run in runs_of(folder)]
    if len({name for name, _ in runs}) != len(runs):
        sys.exit("two runs have one name")
    failed = 0
    for name, wrong in zip([name for name, _ in runs], told_of(program, [run for _, run in runs])):
        if wrong is not None:
            failed += 1
            print(f"{name}\n    " + wrong.replace("\n", "\n    "))
    if not names and len(runs) != WANTED:
        print(f"{len(runs)} runs, but {WANTED} are wanted: tools/cases.py has the number")
        failed = failed or 1
    print(f"{time.monotonic() - began:.1f} seconds")
    print(f"{len(runs) - failed} passed, {failed} failed")
    sys.exit(1 if failed else 0)


if __name__ == "__main__":
    try:
        main()
    except Wrong as wrong:
        sys.exit(f"a case can't be read: {wrong}")
