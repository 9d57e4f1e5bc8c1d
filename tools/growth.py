#!/usr/bin/env python3
"""Runs the programs at two sizes, one eight times the other, and compares what they ask of the system.

    tools/growth.py CURP CURPD [--short] [--write]

CURP and CURPD are the programs `curp` and `curpd`. A row is an input that can be made of any size: steps of one kind, a
history, requests, a journal. Counted are the calls of the allocator, the bytes that it is asked for, and the calls of `read`
and of `write`, as tools/shim.py counts them. At eight times the size each may be nine times as much. Of the allocator's
calls and bytes a row may have half a percent more than the table of docs/TESTING.md tells, so a run that takes several times what
it needs at each size is told too.

--short takes few rows. --write writes the table, and compares nothing with what it told before. The status is 1 where a row
has more than it may.
"""

import argparse
import json
import os
import subprocess
import sys
import tempfile
import time
from pathlib import Path

sys.dont_write_bytecode = True
sys.path.insert(0, str(Path(__file__).resolve().parent))
import curpparcels as parcels  # noqa: E402
import curpwire as wire  # noqa: E402
import shim  # noqa: E402

PAGE = Path(__file__).resolve().parent.parent / "docs" / "TESTING.md"
BEGINS, ENDS = "<!-- growth: written by tools/growth.py -->", "<!-- end of growth -->"
EXPIRE = b'{"client":1,"do":"expire"}\n'
CRASH = b'{"call":1,"do":"crash","kept":false}\n'
TIMES, MOST = 8, 9.0
# How many times as much as the page tells a row may have, but for runs on threads, no two of which are the same.
MOST_OF_TOLD, VARYING = 1.005, "`live`, a step"
COUNTED = ("calls", "bytes", "reads", "writes")
SHORT = ["puts", "one message again and again", "migrations", "a package of half of so many keys, by itself", "`resp`"]
SHORT += ["`resp --every 20`, by the entries that are recovered"]
SHORT += ["`manage`, crashes behind each order", "a journal that is opened"]


# ---- scripts


class Script:
    """A script that is played as it is made, so that all messages that were sent can be delivered."""

    def __init__(self, curp, **header):
        whole = {"clients": 1, "f": 1, "fast": True, "parts": 1, "protocol": 1, "sets": 16, "ways": 4, **header}
        self.lines, self.sent, self.steps = [], [], 0
        self.child = subprocess.Popen([curp, "play"], stdin=subprocess.PIPE, stdout=subprocess.PIPE)
        self.tell(whole)

    def tell(self, line):
        text = json.dumps(line, separators=(",", ":"), sort_keys=True).encode() + b"\n"
        self.lines.append(text)
        self.child.stdin.write(text)

    def step(self, do, **fields):
        """Makes a step, and gives the messages that it sends: number, sender, addressee, kind."""
        self.tell({"do": do, **fields})
        # A step that is refused: its line ends the text of the one before it. It isn't kept.
        self.child.stdin.write(b'{"do":"deliver","msg":0}\n')
        self.child.stdin.flush()
        self.steps += 2
        end = b"s%d refused no-message\n" % self.steps
        texts = []
        while not texts or texts[-1] != end:
            texts.append(self.child.stdout.readline())
            if not texts[-1]:
                sys.exit(f"play ended at {self.lines[-1]!r}")
        self.told = texts[0].split(None, 1)[1].strip().decode()
        sent = [text.decode().split() for text in texts[1:-1] if text.startswith(b"m")]
        sent = [(int(words[0][1:]), *words[1:4]) for words in sent]
        self.sent += sent
        return sent

    def has_done(self, do, **fields):
        sent = self.step(do, **fields)
        if self.told != "done":
            sys.exit(f"{do} {fields}: {self.told}")
        return sent

    def deliver(self, number):
        return self.has_done("deliver", msg=number)

    def carry(self):
        """Delivers all messages that weren't, and those that come of them."""
        while self.sent:
            waiting, self.sent = self.sent, []
            for number, *_ in waiting:
                self.deliver(number)

    def invoke(self, client, *command):
        return self.has_done("invoke", client=client, cmd=list(command))

    def text(self):
        self.child.communicate()
        return b"".join(self.lines)


def puts(curp, size):
    """A client that isn't fast puts as many keys, one after the other."""
    script = Script(curp, fast=False)
    for number in range(size):
        script.invoke(1, "put", f"{number:08x}", "31")
        script.carry()
    return script.text()


def fast_puts(curp, size):
    """Fast puts of other keys, and a round and a collection after each sixteen."""
    script = Script(curp, clients=2, f=2, sets=64)
    for number in range(size):
        script.invoke(number % 2 + 1, "put", f"{number:08x}", "31")
        script.carry()
        if number % 16 == 15:
            script.step("sync", master=1)
            script.carry()
            script.step("collect", master=1)
            script.carry()
    return script.text()


def commands(curp, size):
    """All commands on few keys."""
    script = Script(curp, fast=False)
    for number in range(size):
        key = f"{number % 16:02x}"
        each = [["put", key, "31"], ["get", key], ["append", key, "32"], ["delete", key], ["incr", "6e"]]
        each += [["condput", key, None, "31"], ["multi", key, "31", "ff", "32"]]
        script.invoke(1, *each[number % 7])
        script.carry()
    return script.text()


def again(curp, size):
    """One update comes to its master again and again."""
    script = Script(curp)
    script.invoke(1, "put", "61", "31")
    for _ in range(size):
        script.deliver(1)
    return script.text()


def waiting_reads(curp, size):
    """One read comes again and again before the round that it waits for has ended."""
    script = Script(curp)
    script.invoke(1, "get", "61")
    for _ in range(size):
        script.deliver(1)
    script.carry()
    return script.text()


def reads(curp, size, protocol):
    """Gets of one client, one after the other."""
    script = Script(curp, protocol=protocol)
    for number in range(size):
        script.invoke(1, "get", f"{number:08x}")
        script.carry()
    return script.text()


def of_client(curp, size, do, **fields):
    """An order to a client again and again, whose messages come."""
    script = Script(curp)
    script.invoke(1, "put", "61", "31")
    for _ in range(size):
        script.has_done(do, client=1, **fields)
        script.carry()
    return script.text()


def retries(curp, size):
    """A request that never completes is retried, and its updates come."""
    script = Script(curp)
    script.invoke(1, "put", "61", "31")
    for _ in range(size):
        ((number, *_),) = [sent for sent in script.has_done("retry", client=1, seq=1) if sent[3] != "record"][:1]
        script.deliver(number)
    return script.text()


def rounds(curp, size):
    """Orders for a round and a collection, with nothing to do."""
    script = Script(curp)
    for _ in range(size):
        script.has_done("sync", master=1)
        script.has_done("collect", master=1)
        script.carry()
    return script.text()


def orders(curp, size, do, **fields):
    """An order to the manager again and again, none of whose messages come."""
    script = Script(curp)
    for _ in range(size):
        script.step(do, **fields)
    return script.text()


def nudges(curp, size):
    """Nudges while a recovery is in work."""
    script = Script(curp)
    script.has_done("recover", part=1, backup=1, witness=1)
    for _ in range(size):
        script.has_done("nudge")
    return script.text()


def done_orders(curp, size, do, **fields):
    """An order to the manager again and again, each of which is carried out before the next."""
    script = Script(curp)
    script.invoke(1, "put", "61", "31")
    script.carry()
    for _ in range(size):
        script.has_done(do, **fields)
        script.carry()
    return script.text()


def migrations(curp, size):
    """Ranges that move, each another one."""
    script = Script(curp, parts=2)
    for number in range(size):
        low = number << 50
        script.has_done("migrate", lo=f"{low:016x}", hi=f"{low + (1 << 49):016x}", to=2)
        script.carry()
    return script.text()


def recovery(curp, size):
    """A log of so many updates, which is recovered."""
    script = Script(curp, fast=False)
    for number in range(size):
        script.invoke(1, "put", f"{number:08x}", "31")
        script.carry()
    script.has_done("recover", part=1, backup=1, witness=1)
    script.carry()
    return script.text()


def package(curp, size, moves):
    """So many keys of two partitions, of which the first then gives all of its own to the second, if it moves them."""
    script = Script(curp, fast=False, parts=2)
    for number in range(size):
        script.invoke(1, "put", f"{number:08x}", "31")
        script.carry()
    if moves:
        script.has_done("migrate", lo="0" * 16, hi="7" + "f" * 15, to=2)
        script.carry()
    return script.text()


def given(program, words):
    """What a program writes."""
    return subprocess.run([program, *words], capture_output=True, check=True).stdout


def stops(curp, size):
    return orders(curp, size, "stop", node="W1")


# ---- what isn't played


def history(size):
    """Puts that complete one after the other, and their order."""
    events, places = [], []
    for number in range(1, size + 1):
        command, id_ = ["put", f"{number:08x}", "31"], [1, number]
        events.append({"cmd": command, "ev": "invoke", "id": id_})
        events.append({"ans": ["done"], "ev": "complete", "id": id_})
        places.append({"cmd": command, "ev": "place", "id": id_})
    return "".join(json.dumps(event, separators=(",", ":")) + "\n" for event in events + places).encode()


def requests(size):
    """Each puts another key, or gets it."""
    texts = []
    for number in range(size):
        key = f"{number // 2:08x}"
        words = ["SET", key, "v" * 20] if number % 2 == 0 else ["GET", key]
        texts.append(f"*{len(words)}\r\n" + "".join(f"${len(word)}\r\n{word}\r\n" for word in words))
    return "".join(texts).encode()


def recovered(size):
    """Requests, with a recovery behind each twenty, whose logs have so many entries all together: each other request is an
    entry, and a recovery has all entries before it."""
    recoveries = 0
    while size > 0:
        recoveries += 1
        size -= 10 * recoveries
    return requests(20 * recoveries)


def manager_orders(size, between=b""):
    """Expiries of a client, with other lines behind each."""
    header = b'{"clients":1,"f":1,"fast":true,"parts":1,"protocol":1,"sets":16,"ways":4}\n'
    return header + (EXPIRE + between) * size


# ---- the programs


class Bench:
    """The programs, and a folder."""

    def __init__(self, options, folder):
        self.curp, self.curpd, self.folder = options.curp, options.curpd, Path(folder)
        self.library = shim.Shim(folder)

    def run(self, command, text, batches=None):
        ended = self.library.run(command, text, batches=batches, seconds=600)
        if ended.status or not ended.out:
            sys.exit(f"{command}: {ended.status}, {ended.err[-200:]}")
        return ended

    def counted(self, command, text, batches=None):
        return self.run(command, text, batches).counts

    def live(self, size):
        """A run on threads. Runs differ in their steps, so what is counted is that of as many steps as the size."""
        words = ["live", "--f", "1", "--parts", "1", "--clients", "4", "--recoveries", "0", "--commands", str(size)]
        ended = self.run([self.curp, *words], b"")
        steps = ended.out.partition(b"\n\n")[0].count(b"\n")
        return shim.Counts(*(value * size // steps for value in ended.counts))

    def play(self, script, *more):
        """A row: a script is played."""
        return lambda size: self.counted([self.curp, "play"], script(self.curp, size, *more))

    def moved(self, size):
        """A row: a package, beside the keys that were put before."""
        before, behind = (self.counted([self.curp, "play"], package(self.curp, size, moves)) for moves in (False, True))
        return shim.Counts(*(max(more - less, 0) for less, more in zip(before, behind)))

    def told(self, text, *words):
        """A row: a text is given to a word."""
        return lambda size: self.counted([self.curp, *words], text(size))

    def journal(self, name):
        journal = self.folder / f"{name}.journal"
        journal.unlink(missing_ok=True)
        header = '{"clients":1,"f":1,"fast":true,"parts":1,"protocol":1,"sets":16,"ways":4}'
        words = ["--name", name, "--header", header, "--journal", str(journal)]
        given(self.curpd, ["format", *words])
        return journal, [self.curpd, "node", *words]

    def fetches(self, size):
        """A client that is told to fetch the configuration, all at once."""
        _, command = self.journal("C1")
        fetch = parcels.encode("in", {"kind": "order", "order": {"kind": "fetch"}, "stamp": 0})
        return self.counted(command, fetch * size)

    def batches(self, size):
        """The same, one by one."""
        _, command = self.journal("C1")
        fetch = parcels.encode("in", {"kind": "order", "order": {"kind": "fetch"}, "stamp": 0})
        return self.counted(command, b"", batches=[fetch] * size)

    def opened(self, size):
        self.fetches(size)
        journal = self.folder / "C1.journal"
        header = '{"clients":1,"f":1,"fast":true,"parts":1,"protocol":1,"sets":16,"ways":4}'
        return self.counted([self.curpd, "node", "--name", "C1", "--header", header, "--journal", str(journal)], b"")

    def gathered(self, size):
        self.fetches(size)
        return self.counted([self.curpd, "gather", str(self.folder / "C1.journal")], b"")

    def of_connections(self, size):
        """Requests of a connection that mean no command."""
        _, command = self.journal("C1")
        ping = {"kind": "bytes", "connection": 1, "bytes": (b"*1\r\n$4\r\nPING\r\n" * 8).hex()}
        return self.counted([*command, "--resp"], parcels.encode("in", ping) * (size // 8))


def rows_of(bench):
    """Each row, with its smaller size and what runs it."""
    play, told = bench.play, bench.told
    made = lambda size: given(bench.curp, ["make", "--steps", str(size)])
    return {
        "puts": (250, play(puts)),
        "fast puts, rounds and collections": (250, play(fast_puts)),
        "all commands on few keys": (350, play(commands)),
        "one message again and again": (1000, play(again)),
        "gets, by protocol 1": (250, play(reads, 1)),
        "gets, by protocol 2": (250, play(reads, 2)),
        "reads that wait for one round": (250, play(waiting_reads)),
        "fetches": (500, play(of_client, "fetch")),
        "retries": (500, play(retries)),
        "rounds and collections of nothing": (250, play(rounds)),
        "recoveries, none of which goes on": (100, play(lambda *it: orders(*it, "recover", part=1, backup=1, witness=1))),
        "recoveries": (100, play(lambda *it: done_orders(*it, "recover", part=1, backup=1, witness=1))),
        "a recovery of a long log": (250, play(recovery)),
        "replacements of a backup": (100, play(lambda *it: done_orders(*it, "replace", kind="backup", part=1, place=1))),
        "replacements of a witness": (100, play(lambda *it: done_orders(*it, "replace", kind="witness", part=1, place=1))),
        "migrations": (100, play(migrations)),
        "a package of half of so many keys, by itself": (250, bench.moved),
        "nudges": (500, play(nudges)),
        "expiries": (500, play(lambda *it: done_orders(*it, "expire", client=1))),
        "stops": (500, play(stops)),
        "made scripts, played": (2000, lambda size: bench.counted([bench.curp, "play"], made(size))),
        "histories, written": (2000, lambda size: bench.counted([bench.curp, "play", "--history"], made(size))),
        "`make`": (2000, lambda size: bench.counted([bench.curp, "make", "--steps", str(size)], b"")),
        "`make --summary`": (2000, lambda size: bench.counted([bench.curp, "make", "--summary", "--steps", str(size)], b"")),
        "`live`, a step": (12, bench.live),
        "`check`": (1000, told(history, "check")),
        "`resp`": (500, told(requests, "resp")),
        "`resp --script`": (500, told(requests, "resp", "--script")),
        "`resp --every 20`, by the entries that are recovered": (3250, told(recovered, "resp", "--every", "20")),
        "`manage`": (1000, told(manager_orders, "manage")),
        "`manage`, crashes behind each order": (100, told(lambda size: manager_orders(size, CRASH + EXPIRE), "manage")),
        "`curpd node`, inputs that come together": (8000, bench.fetches),
        "`curpd node`, one by one": (100, bench.batches),
        "`curpd node --resp`": (800, bench.of_connections),
        "a journal that is opened": (8000, bench.opened),
        "`curpd gather`": (8000, bench.gathered),
    }


def told_on_page():
    """Of each row of the page the calls of the allocator and the bytes, at the greater size."""
    told = {}
    for line in PAGE.read_text(encoding="utf-8").partition(BEGINS)[2].partition(ENDS)[0].splitlines():
        cells = [cell.strip() for cell in line.strip("|").split("|")]
        if len(cells) == 8 and cells[2].replace(",", "").isdigit():
            told[cells[0]] = {"calls": int(cells[2].replace(",", "")), "bytes": int(cells[4].replace(",", ""))}
    return told


def more_than_told(name, many, told):
    """What a row has more of than the page tells."""
    if name == VARYING:
        return []
    if name not in told:
        return ["not on the page"]
    each = [(what, getattr(many, what), most) for what, most in told[name].items()]
    return [f"{what} {count:,}, of which {most:,} are told" for what, count, most in each if count > MOST_OF_TOLD * most]


def compared(name, size, run, on_page):
    """Runs a row at both sizes: how many times as much is counted at the greater, and whether the page tells as much."""
    begun = time.monotonic()
    few, many = run(size), run(TIMES * size)
    times = [getattr(many, what) / max(getattr(few, what), 1) for what in COUNTED]
    # Where few calls were made, one more or less is no growth.
    over = [
        f"{what} {ratio:.1f}"
        for what, ratio in zip(COUNTED, times)
        if ratio > MOST and getattr(many, what) > MOST * (getattr(few, what) + 1)
    ]
    over += more_than_told(name, many, on_page) if on_page is not None else []
    told = ", ".join(f"{what} {getattr(many, what):,} ({ratio:.1f})" for what, ratio in zip(COUNTED, times))
    print(f"{name}, {size} and {TIMES * size}: {told}; {time.monotonic() - begun:.1f} s", flush=True)
    if over:
        print(f"    more than it may: {', '.join(over)}", flush=True)
    calls, in_bytes, reads, writes = (f"{ratio:.1f}" for ratio in times)
    cells = [name, f"{TIMES * size:,}", f"{many.calls:,}", calls, f"{many.bytes:,}", in_bytes, reads, writes]
    return over, f"| {' | '.join(cells)} |"


def write(lines):
    """Writes the table to the page."""
    page = PAGE.read_text(encoding="utf-8")
    before, behind = page.split(BEGINS)[0], page.split(ENDS)[1]
    head = ["| row | greater size | calls of the allocator | times | bytes | times | `read`, times | `write`, times |"]
    head += ["|" + "---|" * 8]
    told = f"Of the run of {time.strftime('%d %B %Y')}: what the greater size takes, and how many times as much as an eighth of it:"
    PAGE.write_text(before + "\n".join([BEGINS, told, "", *head, *lines, ENDS]) + behind, encoding="utf-8")


def main():
    parser = argparse.ArgumentParser(description=__doc__, formatter_class=argparse.RawDescriptionHelpFormatter)
    parser.add_argument("curp")
    parser.add_argument("curpd")
    parser.add_argument("--short", action="store_true")
    parser.add_argument("--write", action="store_true")
    parser.add_argument("--only", metavar="ROW", action="append")
    options = parser.parse_args()
    options.curp, options.curpd = os.path.abspath(options.curp), os.path.abspath(options.curpd)
    with tempfile.TemporaryDirectory() as folder:
        rows = rows_of(Bench(options, folder))
        chosen = options.only or (SHORT if options.short else list(rows))
        on_page = None if options.write else told_on_page()
        results = [compared(name, *rows[name], on_page) for name in chosen]
    over = [told for told, _ in results if told]
    if not results or over:
        sys.exit(1)
    if options.write:
        write([line for _, line in results])


if __name__ == "__main__":
    main()
