#!/usr/bin/env python3
"""Measures the process of a node, and writes that part of docs/PERFORMANCE.md.

    tools/measure_curpd.py CURPD DISK MEMORY [--write]

CURPD is the program `curpd`, DISK a folder on a disk, MEMORY one in memory (/dev/shm). Rates are by the clock, the best of
three, of inputs that were kept and answered; they are of the machine that runs this. Without --write the part is printed.
"""

import argparse
import os
import subprocess
import sys
import time
from pathlib import Path

sys.dont_write_bytecode = True
sys.path.insert(0, str(Path(__file__).resolve().parent))
import curpparcels  # noqa: E402

TOP = Path(__file__).resolve().parent.parent
PAGE = TOP / "docs" / "PERFORMANCE.md"
BEGIN, END = "<!-- processes -->\n", "<!-- processes end -->\n"
HEADER = '{"clients":2,"f":1,"fast":true,"parts":1,"protocol":1,"sets":64,"ways":4}'
FETCH = curpparcels.encode("in", {"kind": "order", "order": {"kind": "fetch"}, "stamp": 0})
APPENDS = 100_000
OPENED = 1_000_000


class Process:
    """The process of a node with a new journal."""

    def __init__(self, options, folder, name):
        self.journal = Path(folder) / f"measured-{name}.journal"
        self.words = ["--name", name, "--journal", str(self.journal), "--header", HEADER]
        self.journal.unlink(missing_ok=True)
        subprocess.run([options.curpd, "format", *self.words], check=True)
        self.start(options)

    def start(self, options):
        self.child = subprocess.Popen([options.curpd, "node", *self.words], stdin=subprocess.PIPE, stdout=subprocess.PIPE)
        self.heard, self.place = b"", 0
        self.said = self.parcel()

    def parcel(self):
        """The next parcel that it says."""
        while True:
            begin = self.place + 4
            end = begin + int.from_bytes(self.heard[self.place : begin], "big")
            if begin <= len(self.heard) and end <= len(self.heard):
                parcel, self.place = self.heard[self.place : end], end
                return parcel
            self.heard = self.heard[self.place :] + os.read(self.child.stdout.fileno(), 1 << 18)
            self.place = 0

    def ask(self, given, count):
        """Gives bytes at once, and waits for so many parcels."""
        self.child.stdin.write(given)
        self.child.stdin.flush()
        for _ in range(count):
            self.parcel()

    def end(self):
        self.child.stdin.close()
        self.child.stdout.read()
        _, _, used = os.wait4(self.child.pid, 0)
        self.child.stdout.close()
        return used.ru_maxrss


def rate_by_batch(options, folder, size):
    """Inputs a second where so many come together."""
    process = Process(options, folder, "C1")
    count, begun = 0, time.monotonic()
    while time.monotonic() < begun + 1:
        process.ask(FETCH * size, size)
        count += size
    rate = count / (time.monotonic() - begun)
    process.end()
    return rate


def append(base):
    """A message that appends one entry at a place."""
    request = {"id": {"client": 1, "seq": base + 1}, "first": base + 1, "command": {"kind": "put", "key": "6b", "value": "76"}}
    entry = {"kind": "op", "request": request, "acknowledge": 0}
    body = {"kind": "append", "from": "M1", "to": "B1", "epoch": 1, "base": base, "round": base + 1, "entries": [entry]}
    named = {"kind": "message", "from": "M1", "step": base + 1, "place": 1, "stamp": base + 1}
    return curpparcels.encode("in", {**named, "message": body})


def append_rate(options, folder, appends):
    """Appended parcels a second that a backup takes from a pipe."""
    process = Process(options, folder, "B1")
    begun = time.monotonic()
    writer = os.fork()
    if not writer:
        process.child.stdin.write(appends)
        process.child.stdin.flush()
        os._exit(0)
    for _ in range(APPENDS):
        process.parcel()
    rate = APPENDS / (time.monotonic() - begun)
    os.waitpid(writer, 0)
    process.end()
    return rate


def opening(options, folder):
    """The seconds in which a journal of a million inputs is opened, and the most MB that the process has."""
    process = Process(options, folder, "B1")
    order = curpparcels.encode("in", {"kind": "order", "order": {"kind": "nudge"}, "stamp": 0})
    process.child.stdin.write(order * OPENED)
    process.end()
    begun = time.monotonic()
    process.start(options)
    seconds = time.monotonic() - begun
    stands, _ = curpparcels.decode("out", process.said)
    if stands["items"] != OPENED:
        sys.exit(f"{stands}: {OPENED} items are wanted")
    return seconds, process.end() / 1000


def best(measure, *arguments):
    return max(measure(*arguments) for _ in range(3))


def part(options):
    places = {"on a disk": options.disk, "in memory": options.memory}
    lines = ["| inputs that come together | " + " | ".join(places) + " |", "|---|" + "---|" * len(places)]
    for size in (1, 16, 64, 256):
        rates = (best(rate_by_batch, options, folder, size) for folder in places.values())
        lines.append(f"| {size} | " + " | ".join(f"{rate:,.0f}" for rate in rates) + " |")
    appends = b"".join(append(base) for base in range(APPENDS))
    rates = (best(append_rate, options, folder, appends) for folder in places.values())
    lines.append("| appends to a backup, as they come through a pipe | " + " | ".join(f"{rate:,.0f}" for rate in rates) + " |")
    seconds, memory = min(opening(options, options.memory) for _ in range(3))
    text = "Inputs a second that the process of a node keeps in its journal and answers (`tools/measure_curpd.py`):\n\n"
    text += "\n".join(lines) + "\n\n"
    return text + f"A journal of {OPENED:,} inputs, orders that a backup passes over, is opened in {seconds:.1f} s, with {memory:.0f} MB.\n"


def main():
    parser = argparse.ArgumentParser(description=__doc__, formatter_class=argparse.RawDescriptionHelpFormatter)
    for name in ("curpd", "disk", "memory"):
        parser.add_argument(name)
    parser.add_argument("--write", action="store_true")
    options = parser.parse_args()
    text = part(options)
    if not options.write:
        print(text)
        return
    page = PAGE.read_text(encoding="utf-8")
    before, rest = page.split(BEGIN)
    PAGE.write_text(before + BEGIN + text + END + rest.split(END)[1], encoding="utf-8")


if __name__ == "__main__":
    main()
