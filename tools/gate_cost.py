#!/usr/bin/env python3
"""Measures what the gate costs from nothing, crate by crate, and writes the table of docs/TESTING.md.

    tools/gate_cost.py                 runs `rt ci --anew`, which takes its whole time, writes the table, and tells which
                                       crate, the longest chain or the whole is over its limit; ends with 1 where one is
    tools/gate_cost.py --keep FILE     the same, and keeps what was measured in FILE
    tools/gate_cost.py --read FILE     writes the table of what was kept there

Run it with nothing else on the machine. Processor seconds are those of the prover's processes and of all that they
started, read from /proc twice a second, so a crate may have half a second more. A crate has a proof, and may have tests,
whose proof is another, and wrong bodies that are tried. Of the functions that the gate proves in a crate the drops are
those that it has to prove for types of others. The longest chain is that of the crates whose proofs wait for each other
and take most time by the clock; the tests of its last crate are part of it. How fast a processor is tells the kit's own
example, which is proved, built and run by `rt selftest` before the gate is: the limits are raw seconds, and of two tables
from two machines the ratio of these says which is the slower one.
"""

import argparse
import json
import os
import re
import subprocess
import sys
import threading
import time
from collections import defaultdict
from functools import lru_cache
from pathlib import Path

TOP = Path(__file__).resolve().parent.parent
PAGE = TOP / "docs" / "TESTING.md"
BEGINS, ENDS = "<!-- the gate's cost: written by tools/gate_cost.py -->", "<!-- end of the gate's cost -->"
TICK = os.sysconf("SC_CLK_TCK")
# Processor seconds of a crate's proof, and of its tests' proof; of the whole; minutes of the longest chain and of the whole.
CRATE_LIMIT, TESTS_LIMIT, WHOLE_LIMIT, CHAIN_LIMIT, CLOCK_LIMIT = 180, 90, 9000, 25, 45


# ---- measuring


def stat_of(pid):
    """The process that started this one, when it began, and the ticks of it and of those of its children that have ended."""
    fields = Path(f"/proc/{pid}/stat").read_text().rpartition(")")[2].split()
    return int(fields[1]), int(fields[19]), sum(int(it) for it in fields[11:15])


def look():
    """All processes: by number, what `stat_of` says."""
    found = {}
    for name in os.listdir("/proc"):
        if name.isdigit():
            try:
                found[int(name)] = stat_of(name)
            except (OSError, ValueError):
                pass
    return found


def ticks_below(pid, found, children):
    return found[pid][2] + sum(ticks_below(it, found, children) for it in children[pid])


def what_is_proved(pid):
    """The crate that a process of the prover is about, and whether that is its proof, its tests or its edits."""
    try:
        words = Path(f"/proc/{pid}/cmdline").read_bytes().decode(errors="replace").split("\0")
        folder = os.readlink(f"/proc/{pid}/cwd")
    except OSError:
        return None
    if os.path.basename(words[0]) != "rattle" or "--crate-name" not in words:
        return None
    name = words[words.index("--crate-name") + 1]
    is_own = folder == str(TOP / "crates" / name)
    return name, "tests" if "--test" in words else "proof" if is_own else "edits"


class Sampler:
    """Looks at all processes until it is ended, and keeps for each call of the prover its ticks and when it was seen."""

    def __init__(self):
        self.calls, self.known, self.over = {}, {}, threading.Event()
        self.thread = threading.Thread(target=self.sample)
        self.thread.start()

    def sample(self):
        while not self.over.wait(0.5):
            found, children = look(), defaultdict(list)
            for pid, (parent, _, _) in found.items():
                children[parent].append(pid)
            for pid, (parent, begun, _) in found.items():
                key = (pid, begun)
                if self.known.get(key) is None:
                    self.known[key] = what_is_proved(pid)
                if self.known[key] and not self.known.get((parent, found.get(parent, (0, 0))[1])):
                    first, ticks, _ = self.calls.get(key, (time.time(), 0, 0))
                    self.calls[key] = (first, max(ticks, ticks_below(pid, found, children)), time.time())

    def end(self):
        """Ends, and returns each call: crate, kind, processor seconds, first and last time."""
        self.over.set()
        self.thread.join()
        return [(*self.known[key], ticks / TICK, first, last) for key, (first, ticks, last) in self.calls.items()]


def spent_by(words):
    """Runs a command, and returns what it said, and the processor seconds of it and of all that it started."""
    before = os.times()
    ran = subprocess.run(words, cwd=TOP, stdout=subprocess.PIPE, stderr=subprocess.STDOUT, text=True, errors="replace")
    after = os.times()
    return ran.stdout, after.children_user + after.children_system - before.children_user - before.children_system


def run_gate():
    """Runs the gate from nothing, and returns what was measured, with all that it said."""
    _, example = spent_by(["rt", "selftest"])
    sampler, begun = Sampler(), time.time()
    said, spent = spent_by(["rt", "ci", "--anew"])
    took = time.time() - begun
    calls = sampler.end()
    return {"calls": calls, "said": said, "took": took, "spent": spent, "processors": os.cpu_count(), "example": example}


# ---- what was measured, by crate


def functions_of(said):
    """For each crate and its tests: how many functions were proved, and how many of these are drops."""
    counts, key = defaultdict(lambda: [0, 0]), None
    for line in said.splitlines():
        head = re.match(r"== (\w+)(: its tests)?$", line)
        if head:
            key = (head[1], "tests" if head[2] else "proof")
        elif key and re.match(r"fn \S+: proved", line):
            counts[key][0] += 1
            counts[key][1] += "Destruct" in line
    return counts


def crates_below():
    """Each crate of crates.txt, with the crates that it names."""
    found = {}
    for line in (TOP / "crates.txt").read_text().splitlines():
        head, colon, names = line.partition("#")[0].partition(":")
        if colon:
            found[head.split()[0]] = names.split()
    return {name: [it for it in names if it in found] for name, names in found.items()}


def longest_chain(walls, below):
    """The chain of crates that takes longest by the clock, and its seconds."""

    @lru_cache(None)
    def chain(name):
        seconds, names = max((chain(it) for it in below[name]), default=(0, ()))
        return seconds + walls[name, "proof"], (*names, name)

    ends = [(chain(name)[0] + walls[name, "tests"], chain(name)[1]) for name in below]
    return max(ends)


def summed(measured):
    spent, walls = defaultdict(float), defaultdict(float)
    for name, kind, seconds, first, last in measured["calls"]:
        spent[name, kind] += seconds
        walls[name, kind] += last - first
    return spent, walls


def broken(spent, chain, measured):
    """What is over its limit, a line each."""
    for (name, kind), seconds in sorted(spent.items()):
        limit = {"proof": CRATE_LIMIT, "tests": TESTS_LIMIT}.get(kind)
        if limit and seconds > limit:
            yield f"{name}: its {kind} {'take' if kind == 'tests' else 'takes'} {seconds:.0f} s of a processor, over {limit}"
    for what, found, limit in (
        ("the whole takes {} s of processors", measured["spent"], WHOLE_LIMIT),
        ("the longest chain takes {} minutes", chain / 60, CHAIN_LIMIT),
        ("the whole takes {} minutes", measured["took"] / 60, CLOCK_LIMIT),
    ):
        if found > limit:
            yield f"{what.format(round(found))}, over {limit}"


def table(measured):
    """The lines of the page, and what is over its limit."""
    spent, walls = summed(measured)
    counts = functions_of(measured["said"])
    chain, names = longest_chain(walls, crates_below())
    kinds = ("proof", "tests", "edits")
    crates = sorted({name for name, _ in spent}, key=lambda name: -sum(spent[name, kind] for kind in kinds))
    functions, drops = (sum(count[at] for count in counts.values()) for at in (0, 1))
    last = measured["said"].strip().splitlines()[-1] if measured["said"].strip() else "nothing"
    lines = [
        f"From nothing, on {measured['processors']} processors that did nothing else: {measured['took'] / 60:.0f} minutes, "
        f"{measured['spent']:,.0f} seconds of processors, `{last}`. It proves {functions:,} functions; {drops:,} of them are drops. "
        f"The kit's own example (`rt selftest`) takes {measured['example']:.0f} seconds of a processor there.",
        "",
        f"The longest chain takes {chain / 60:.0f} minutes: {', '.join(f'`{name}`' for name in names)}.",
        "",
        "| crate | proof, s | its tests | wrong bodies | functions | drops |",
        "|---|---|---|---|---|---|",
    ]
    for name in crates:
        seconds = [f"{spent[name, kind]:.0f}" if spent[name, kind] else "" for kind in kinds]
        count = [sum(counts[name, kind][at] for kind in ("proof", "tests")) for at in (0, 1)]
        lines.append(f"| `{name}` | {' | '.join(seconds)} | {count[0]} | {count[1]} |")
    over = list(broken(spent, chain, measured))
    lines += ["", f"Over a limit ({CRATE_LIMIT} s for a crate, {TESTS_LIMIT} for its tests): {'; '.join(over) if over else 'nothing'}."]
    return lines, over


def write_page(lines):
    text = PAGE.read_text()
    before, begins, rest = text.partition(BEGINS)
    _, ends, after = rest.partition(ENDS)
    if not begins or not ends:
        sys.exit(f"{PAGE} has no place for the table: {BEGINS} .. {ENDS}")
    PAGE.write_text("\n".join([before + BEGINS, "", *lines, "", ENDS]) + after)


def main():
    words = argparse.ArgumentParser(description=__doc__, formatter_class=argparse.RawDescriptionHelpFormatter)
    words.add_argument("--keep", metavar="FILE")
    words.add_argument("--read", metavar="FILE")
    words = words.parse_args()
    measured = json.loads(Path(words.read).read_text()) if words.read else run_gate()
    if words.keep:
        Path(words.keep).write_text(json.dumps(measured))
    lines, over = table(measured)
    write_page(lines)
    print("\n".join(over) if over else "nothing is over its limit")
    return 1 if over else 0


if __name__ == "__main__":
    sys.exit(main())
