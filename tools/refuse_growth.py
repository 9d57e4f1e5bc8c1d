#!/usr/bin/env python3
"""Refuses each growth of memory in turn, in runs of the program, and looks at what comes of it.

    tools/refuse_growth.py CURP       CURP is the program, as `rt run` in crates/curp leaves it in crates/curp/out/curp

For each row it runs the program once for each call of the allocator, with that call refused, by tools/shim.py. Each run
that was refused one has to end with status 6 (out of memory), with a front of the row's output; where a refusal is made
good (as by a smaller growth, or in the C library itself), and where nothing was refused, with the row's own status and
output; words that are no command line may end with their own status and lines, but the one on which word is wrong. Runs on
threads differ: each has to end within a minute, with status 6 and a front of a script and of what playing it writes, or
well, with a whole one; there each call is refused up to the last that ended a run and a thousand more. It prints a line for
each row, writes the table of docs/TESTING.md, and ends with 1, and writes no table, where a run did anything else.
"""

import os
import subprocess
import sys
import tempfile
import time
from pathlib import Path

sys.dont_write_bytecode = True
sys.path.insert(0, str(Path(__file__).resolve().parent))
import shim  # noqa: E402

TOP = Path(__file__).resolve().parent.parent
PAGE = TOP / "docs" / "TESTING.md"
BEGINS, ENDS = "<!-- refused growths: written by tools/refuse_growth.py -->", "<!-- end of refused growths -->"

PLAYED = ["retry-after-recovery", "migration-there-and-back", "recovery-replays", "replace-a-witness"]
# Beside the examples that are played: words of the command line, and what stands on standard input.
OTHERS = {
    "a made script": (["make", "--steps", "100", "--clients", "2", "--recoveries", "1"], b""),
    "a made script in numbers": (["make", "--steps", "100", "--clients", "2", "--recoveries", "1", "--summary"], b""),
    "requests of Redis' protocol": (
        ["resp", "--f", "1", "--every", "1"],
        b"*3\r\n$3\r\nSET\r\n$1\r\na\r\n$1\r\n1\r\n*2\r\n$3\r\nget\r\n$1\r\na\r\n",
    ),
    "a history and its order": (
        ["check"],
        b'{"cmd":["put","61","31"],"ev":"invoke","id":[1,1]}\n'
        b'{"ans":["done"],"ev":"complete","id":[1,1]}\n'
        b'{"cmd":["put","61","31"],"ev":"place","id":[1,1]}\n',
    ),
    "words that are none": (["make", "--f", "1", "--f", "1"], b""),
}
MOST = 20_000
# Runs on threads, whose scripts differ.
ON_THREADS = {
    "a run on threads": ["live", "--f", "1", "--clients", "2", "--parts", "1", "--commands", "5", "--recoveries", "2"],
}
BEHIND = 1_000


def run(curp, words, script, library, call):
    """What is seen of one run, with that call refused, if there is one."""
    return library.run([curp, *words], script, shim.one(call) if call else None)


def is_out_of_memory(ended):
    """Whether a run ended out of memory, which was refused."""
    return ended.status == 6 and ended.err == b"curp: out of memory\n" and ended.counts.refused > 0


def look_at(name, curp, words, script, library):
    """Refuses each call in turn until none is left, and gives the row of what came of it, where nothing else did."""
    status, whole, told, _ = run(curp, words, script, library, 0)
    # Where no memory was left to find which word is wrong, the line on it is left out.
    errors = {told, told.split(b"\n", 1)[-1]} if status == 2 else {told}
    refused = last = 0
    statuses, faults = {}, []
    for call in range(1, MOST):
        ended = run(curp, words, script, library, call)
        statuses[ended.status] = statuses.get(ended.status, 0) + 1
        is_whole = ended.status == status and ended.out == whole and ended.err in errors
        is_cut = is_out_of_memory(ended) and whole.startswith(ended.out)
        if is_cut or is_whole and ended.err != told:
            refused += 1
            last = call
        elif not is_whole:
            faults.append((call, ended.status, ended.err))
        if is_whole and call > 2 * last + 64:
            break
    came = ", ".join(f"{status}: {count}" for status, count in sorted(statuses.items()))
    if status != (2 if told else 0) or not whole + told:
        faults.append((0, status, told))
    return told_of(name, call, refused, came, faults)


def told_of(name, calls, refused, told, faults):
    """Prints what came of a row, and gives its line of the table, if it has no fault."""
    print(f"{name}: {calls} calls, {refused} runs ended by it; {told}", flush=True)
    for call, ended, err in faults[:10]:
        print(f"  call {call}: status {ended}, {err!r}")
    return None if faults or not refused else f"| {name} | {calls:,} | {refused:,} | {calls - refused:,} |"


def is_front_of_run(curp, out, is_whole):
    """Whether it is a front of a script, an empty line, and what playing that script writes, or the whole of it."""
    script, empty, rest = out.partition(b"\n\n")
    if not empty:
        lines = out.split(b"\n")
        return not is_whole and all(line.startswith(b"{") and line.endswith(b"}") for line in lines[:-1])
    played = subprocess.run([curp, "play"], input=script + b"\n", capture_output=True, timeout=60)
    return played.returncode == 0 and (rest == played.stdout if is_whole else played.stdout.startswith(rest))


def look_at_threads(name, curp, words, library):
    """The same of runs on threads, until a run makes no call of the number."""
    refused = call = last = 0
    statuses, faults = {}, []
    while call < MOST and call < last + BEHIND:
        call += 1
        ended = run(curp, words, b"", library, call)
        statuses[ended.status] = statuses.get(ended.status, 0) + 1
        if is_out_of_memory(ended) and is_front_of_run(curp, ended.out, False):
            refused += 1
            last = call
        elif not (ended.status == 0 and ended.err == b"" and is_front_of_run(curp, ended.out, True)):
            faults.append((call, ended.status, ended.err))
            last = call
    told = ", ".join(f"{status}: {count}" for status, count in sorted(statuses.items(), key=str))
    return told_of(name, call, refused, told, faults)


def write(rows):
    """Writes the table to the page."""
    page = PAGE.read_text(encoding="utf-8")
    before, behind = page.split(BEGINS)[0], page.split(ENDS)[1]
    head = ["| row | calls refused, one a run | ended by it | ended as the run that is refused nothing |", "|---|---|---|---|"]
    lines = [BEGINS, f"Of the run of {time.strftime('%d %B %Y')}:", "", *head, *rows, ENDS]
    PAGE.write_text(before + "\n".join(lines) + behind, encoding="utf-8")


def main():
    if len(sys.argv) != 2:
        sys.exit(__doc__)
    curp = os.path.abspath(sys.argv[1])
    rows = []
    with tempfile.TemporaryDirectory() as folder:
        library = shim.Shim(folder)
        for name in PLAYED:
            script = (TOP / "examples" / f"{name}.script").read_bytes()
            rows.append(look_at(f"`{name}`", curp, ["play"], script, library))
        for name, (words, script) in OTHERS.items():
            rows.append(look_at(name, curp, words, script, library))
        for name, words in ON_THREADS.items():
            rows.append(look_at_threads(name, curp, words, library))
    if None in rows:
        sys.exit(1)
    write(rows)


if __name__ == "__main__":
    main()
