#!/usr/bin/env python3
"""Refuses threads, and memory behind the start of threads, to runs of `curp live`: each ends, as it has to, within its time.

    tools/few_threads.py CURP [--short]

CURP is the program `curp`. A small run is made once for each thread that it starts, with the start of that thread refused,
and once with that start refused and each behind it. Then once for each call of the allocator that is made on a started
thread, with that call refused and each behind it on such threads. A run that was refused something has to end with status 6
(out of memory) and a front of a script and its text; or, where the refused call changed nothing, well, with a whole one.
One that takes 30 seconds waits for ever.

--short takes one shape, and every fortieth call of the allocator. The status is 1 where a run did anything else.
"""

import argparse
import collections
import concurrent.futures
import os
import sys
import tempfile
from pathlib import Path

sys.dont_write_bytecode = True
sys.path.insert(0, str(Path(__file__).resolve().parent))
import shim  # noqa: E402
from refuse_growth import is_front_of_run  # noqa: E402

SHAPES = {
    "two clients and a recovery": ["--f", "1", "--clients", "2", "--parts", "1", "--commands", "4", "--recoveries", "1"],
    "two backups and two parts": ["--f", "2", "--clients", "1", "--parts", "2", "--commands", "4", "--recoveries", "0"],
}
SECONDS = 30


def wrong_with(curp, ended):
    """What is wrong with a run that may have been refused something; none where it ended as it has to."""
    refused = ended.counts.refused + ended.counts.refused_threads
    is_cut = ended.status == 6 and ended.err == b"curp: out of memory\n" and refused
    if is_cut and is_front_of_run(curp, ended.out, False):
        return None
    if ended.status == 0 and not ended.err and is_front_of_run(curp, ended.out, True):
        return None
    return f"status {ended.status}, {ended.err[-200:]!r}, {refused} refused"


class Runs:
    """Runs of one shape, and what came of them."""

    def __init__(self, curp, library, name):
        self.command, self.library, self.name = [curp, "live", *SHAPES[name]], library, name
        self.curp, self.ended, self.wrong = curp, collections.Counter(), []

    def run(self, refusal):
        ended = self.library.run(self.command, refusal=refusal, seconds=SECONDS)
        self.ended[ended.status] += 1
        told = wrong_with(self.curp, ended)
        if told:
            self.wrong.append(f"{refusal.what} {refusal.first}..{refusal.last}: {told}")
        return ended

    def all(self, refusals):
        with concurrent.futures.ThreadPoolExecutor(os.cpu_count()) as pool:
            return list(pool.map(self.run, refusals))

    def tell(self, what):
        """Prints what came of the runs, and begins anew."""
        told = ", ".join(f"{count} with {status}" for status, count in sorted(self.ended.items(), key=str))
        print(f"{self.name}, {what}: {sum(self.ended.values())} runs ended, {told}", flush=True)
        for wrong in self.wrong[:5]:
            print(f"    {wrong}")
        few, self.wrong, self.ended = self.wrong or not self.ended[6], [], collections.Counter()
        return bool(few)


def threads(runs):
    """Each start of a thread is refused."""
    count = runs.run(shim.one(1 << 40, "threads")).counts.threads
    runs.all(how(start, "threads") for start in range(1, count + 1) for how in (shim.one, shim.each_from))
    return runs.tell(f"{count} threads")


def memory(runs, step):
    """Each call of the allocator behind the start of a thread is refused, with those that follow: twice as many as a run
    makes that is refused nothing, since runs on threads differ."""
    count = runs.run(shim.each_from(shim.NO_LAST, "behind")).counts.behind
    calls = range(1, 2 * count if step == 1 else count + step, step)
    runs.all(shim.each_from(call, "behind") for call in calls)
    return runs.tell(f"{len(calls)} calls of the allocator behind the start")


def main():
    parser = argparse.ArgumentParser(description=__doc__, formatter_class=argparse.RawDescriptionHelpFormatter)
    parser.add_argument("curp")
    parser.add_argument("--short", action="store_true")
    options = parser.parse_args()
    curp = os.path.abspath(options.curp)
    wrong = 0
    with tempfile.TemporaryDirectory() as folder:
        library = shim.Shim(folder)
        for name in list(SHAPES)[: 1 if options.short else None]:
            runs = Runs(curp, library, name)
            wrong += threads(runs) + memory(runs, 40 if options.short else 1)
    sys.exit(1 if wrong else 0)


if __name__ == "__main__":
    main()
