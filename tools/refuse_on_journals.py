#!/usr/bin/env python3
"""Refuses each call of the allocator in turn, in runs of nodes with journals, and looks at what is left of them.

    tools/refuse_on_journals.py CURPD FOLDER [--short] [--write]

CURPD is the program `curpd`; journals are left in FOLDER. A small cluster is run first: puts, a round, a collection, a
recovery, connections of Redis' protocol. What each node got there, batch by batch, is a row: its process gets these again,
once for each call of the allocator, with that call refused, and once with that call refused and each behind it. Each run
has to end with status 6 (out of memory) and a front of what the run says that is refused nothing; or, where the refused
call changed nothing, as that run does. Its journal has to open then, with the same items as the other run's up to some
batch, among them each that was answered; and with the rest of the batches it has to come to the same items. So it is for
journals that are made, opened and gathered.

--short takes every tenth call. --write writes the table of docs/TESTING.md. The status is 1 where a run did anything else.
"""

import argparse
import concurrent.futures
import os
import subprocess
import sys
import time
from pathlib import Path
from typing import NamedTuple

sys.dont_write_bytecode = True
sys.path.insert(0, str(Path(__file__).resolve().parent))
import curpparcels as parcels  # noqa: E402
import curpwire as wire  # noqa: E402
import shim  # noqa: E402

PAGE = Path(__file__).resolve().parent.parent / "docs" / "TESTING.md"
BEGINS, ENDS = "<!-- refused on journals: written by tools/refuse_on_journals.py -->", "<!-- end of refused on journals -->"
HEADER = '{"clients":2,"f":1,"fast":true,"parts":1,"protocol":1,"sets":16,"ways":4}'
TITLE = 36  # bytes of a journal before its first commit byte
NO_MEMORY = 6  # the number of a process that has no memory
END = (1).to_bytes(4, "big") + b"\xff"  # no parcel: what is said of it stands behind what is said of its batch


class Wrong(Exception):
    """Something came otherwise than is wanted."""


def want(what, holds):
    if not holds:
        raise Wrong(what)


# ---- the cluster


def order(kind, **fields):
    return parcels.encode("in", {"kind": "order", "order": {"kind": kind, **fields}, "stamp": 0})


def put(key, value):
    return order("invoke", command={"kind": "put", "key": key, "value": value})


def connection(data):
    return parcels.encode("in", {"kind": "bytes", "connection": 1, "bytes": data.hex()})


def contents(data):
    """The contents of the whole parcels that bytes begin with."""
    found, place = [], 0
    while place + 4 <= len(data):
        end = place + 4 + int.from_bytes(data[place : place + 4], "big")
        if end > len(data):
            break
        found.append(data[place + 4 : end])
        place = end
    return found


def said(data):
    """What a process said, as far as its parcels are whole."""
    return [parcels.decode("out", len(content).to_bytes(4, "big") + content)[0] for content in contents(data)]


def completions(data):
    """The requests that a process said have completed, with their answers."""
    return {wire.json_of(parcel["id"]): parcel["answer"] for parcel in said(data) if parcel["kind"] == "completed"}


def heard(data):
    """What connections hear, in order, and what completed. In front of a client replies stand behind all else that is said
    of a batch, and what they let through is invoked next; where memory was refused a batch may be two."""
    return [parcel for parcel in said(data) if "connection" in parcel], completions(data)


def arriving(content):
    """What goes out as sent, as it comes in."""
    return (len(content) + 5).to_bytes(4, "big") + b"\0" + content[30:35] + content[1:]


class Node:
    """The process of a node, and the batches that it got."""

    def __init__(self, curpd, folder, name, words=()):
        self.name, self.words = name, ["--name", name, "--header", HEADER]
        self.journal, self.more, self.batches = folder / f"{name}.journal", list(words), []
        self.journal.unlink(missing_ok=True)
        at = ["--journal", str(self.journal)]
        subprocess.run([curpd, "format", *self.words, *at], check=True, timeout=20)
        self.formatted = self.journal.read_bytes()
        command = [curpd, "node", *self.words, *at, *self.more]
        self.process = subprocess.Popen(command, stdin=subprocess.PIPE, stdout=subprocess.PIPE)
        self.parcel()

    def parcel(self):
        size = self.process.stdout.read(4)
        return self.process.stdout.read(int.from_bytes(size, "big"))

    def ask(self, batch):
        """Gives a batch, and returns what is said of it."""
        self.batches.append(batch + END)
        self.process.stdin.write(batch + END)
        self.process.stdin.flush()
        heard = []
        while not heard or heard[-1][:1] != b"\4":
            heard.append(self.parcel())
            want(f"{self.name} ended", heard[-1])
        return heard[:-1]

    def end(self):
        self.process.communicate(timeout=20)
        want(f"{self.name} ended with {self.process.returncode}", not self.process.returncode)


class Cluster:
    """Nodes, among which messages are carried in order."""

    def __init__(self, curpd, folder, names, fronts=()):
        self.curpd, self.folder, self.fronts, self.nodes = curpd, folder, fronts, {}
        folder.mkdir(parents=True, exist_ok=True)
        self.begin(*names)

    def begin(self, *names):
        for name in names:
            self.nodes[name] = Node(self.curpd, self.folder, name, ["--resp"] if name in self.fronts else [])

    def give(self, name, *batch):
        """Gives a batch to a node, and then all messages that come of it, those of a node together."""
        waiting = {name: list(batch)}
        while waiting:
            taker = next(iter(waiting))
            for content in self.nodes[taker].ask(b"".join(waiting.pop(taker))):
                to = wire.decode(content[25:])[0]["to"] if content[0] == 1 else None
                if to in self.nodes:
                    waiting.setdefault(to, []).append(arriving(content))

    def end(self):
        for node in self.nodes.values():
            node.end()
        return list(self.nodes.values())


def nodes_of(curpd, folder):
    """The nodes of a cluster with a recovery, and a client with connections in front."""
    one = Cluster(curpd, folder / "one", ["G", "M1", "B1", "W1", "C1", "C2"])
    one.give("C1", put("61", "31"), put("62", "ab" * 128))
    one.give("C2", order("invoke", command={"kind": "incr", "key": "6e"}))
    one.give("M1", order("sync"))
    one.give("M1", order("collect"))
    one.give("C1", order("invoke", command={"kind": "get", "key": "61"}), order("retry", seq=9))
    one.begin("M2", "B2", "W2")
    one.give("G", order("recover", part=1, backup=1, witness=1))
    for client in ("C1", "C2"):
        one.give(client, order("fetch"))
        one.give(client, put("63", "32"))
    one.give("G", order("expire", client=2), order("nudge"), order("recover", part=7, backup=1, witness=1))
    two = Cluster(curpd, folder / "two", ["G", "M1", "B1", "W1", "C1"], fronts=["C1"])
    set_and_get = b"*3\r\n$3\r\nSET\r\n$1\r\na\r\n$1\r\n1\r\n*2\r\n$3\r\nget\r\n$1\r\na\r\n"
    two.give("C1", connection(set_and_get))
    two.give("C1", connection(set_and_get * 5 + b"*1\r\n$4\r\nPING\r\n"))
    two.give("C1", connection(b"none\r\n"), parcels.encode("in", {"kind": "closed", "connection": 1}))
    front = next(node for node in two.end() if node.name == "C1")
    return one.end(), front


# ---- journals


def batches_of(journal):
    """The batches of a journal, without their checksums, and where its last commit byte stands."""
    found, place = [], TITLE
    while journal[place : place + 1] == b"\1":
        behind = place + 5 + int.from_bytes(journal[place + 1 : place + 5], "big")
        found.append(journal[place + 5 : behind - 8])
        place = behind
    want("a journal doesn't end with a commit byte that is shut", journal[place:] == b"\0")
    return found, place


def arrived(journal):
    """All that came to the node, as its journal has it. Where memory was refused it may have a batch in two parts."""
    return b"".join(batches_of(journal)[0])


def prefixes(journal):
    """The journals that end behind none, one and more of its batches."""
    for count in range(len(batches_of(journal)[0]) + 1):
        place = TITLE
        for batch in batches_of(journal)[0][:count]:
            place += 5 + len(batch) + 8
        yield journal[:place] + b"\0"


class Row(NamedTuple):
    """What came of the runs of a row."""

    name: str
    calls: int
    refused: int
    others: int
    wrong: list


def has_to_end(ended, whole, is_front=False):
    """A run has to end out of memory, with a front of what another one says, or as that one does."""
    is_cut = ended.status == NO_MEMORY and ended.err == b"out of memory\n" and whole.out.startswith(ended.out)
    want(f"status {ended.status}, {ended.err}", is_cut or (ended.status, ended.err) == (whole.status, whole.err))
    same = ended.out == whole.out or is_front and heard(ended.out) == heard(whole.out)
    want("it says something else", is_cut or same)


class Trial:
    """The program, the library that refuses, and a folder."""

    def __init__(self, options, library):
        self.curpd, self.folder, self.library, self.short = options.curpd, Path(options.folder), library, options.short
        self.pool = concurrent.futures.ThreadPoolExecutor(os.cpu_count())

    def row(self, name, prepared, ran, looked):
        """Refuses each call in turn. `prepared` makes a file, `ran` runs the program on it, `looked` tells what is wrong
        with what came of it, beside the run `whole` that was refused nothing."""
        file = prepared("whole")
        whole = ran(file, None)
        want(f"{name}: {whole}", whole.status == 0 and not whole.err and whole.counts.calls)
        same = ran(prepared("whole"), None)
        want(f"{name}: two runs differ", (whole.what(), whole.counts.calls) == (same.what(), same.counts.calls))
        numbers = range(1, whole.counts.calls + 1, 10 if self.short else 1)
        refusals = [how(call) for call in numbers for how in (shim.one, shim.each_from)]
        tried = lambda refusal: self.tried(name, refusal, prepared, ran, lambda *it: looked(*it, whole, file.read_bytes()))
        results = list(self.pool.map(tried, refusals))
        refused = sum(is_ended for is_ended, _ in results)
        wrong = [told for _, told in results if told]
        row = Row(name, whole.counts.calls, refused, len(results) - refused, wrong)
        want(f"{name}: no run was ended", refused)
        print(f"{name}: {row.calls} calls, {refused} runs ended by one, {row.others} not, {len(wrong)} wrong", flush=True)
        for told in wrong[:5]:
            print(f"    {told}")
        return row

    def tried(self, name, refusal, prepared, ran, looked):
        """Whether a run was ended by a refusal, and what is wrong with it."""
        told = f"{refusal.first}{'' if refusal.last == refusal.first else '..'}"
        file = prepared(told.replace("..", "-on"))
        ended = ran(file, refusal)
        try:
            want(f"nothing was refused: {ended.what()}", ended.counts.refused)
            looked(file, ended)
            file.unlink(missing_ok=True)
            return ended.status == NO_MEMORY, None
        except Wrong as wrong:
            return ended.status == NO_MEMORY, f"call {told}: {wrong}"

    def node(self, node, file, refusal, batches):
        command = [self.curpd, "node", *node.words, "--journal", str(file), *node.more]
        return self.library.run(command, refusal=refusal, batches=batches)

    def copy(self, node, bytes_):
        """What makes a file with these bytes."""

        def prepared(told):
            file = self.folder / f"{node.name}-{len(node.more)}-{told}.refused"
            file.write_bytes(bytes_)
            return file

        return prepared

    def answering(self, node):
        """A node that gets its batches."""
        ran = lambda file, refusal: self.node(node, file, refusal, node.batches)
        whole_file = self.copy(node, node.formatted)("whole")
        ran(whole_file, None)
        # What the process says first behind each batch, by what came to it until then.
        greetings = {}
        for count, prefix in enumerate(prefixes(whole_file.read_bytes())):
            file = self.copy(node, prefix)("prefix")
            greetings[arrived(prefix)] = count, self.node(node, file, None, []).what()

        def looked(file, ended, whole, journal):
            has_to_end(ended, whole, bool(node.more))
            opened = self.node(node, file, None, [])
            want(f"its journal opens as {opened.what()}", opened.status == 0 and not opened.err)
            steps = [parcel["step"] for parcel in said(ended.out) if parcel["kind"] == "sent"]
            want(f"item {max(steps, default=0)} was answered", max(steps, default=0) <= said(opened.out)[0]["items"])
            want("a completion is missing", completions(ended.out).items() <= completions(opened.out).items())
            if not node.more:
                self.look_at_prefix(node, file, opened, greetings, journal)

        name = f"`node --name {node.name}{' --resp' if node.more else ''}`, {len(node.batches)} batches"
        return self.row(name, self.copy(node, node.formatted), ran, looked)

    def look_at_prefix(self, node, file, opened, greetings, journal):
        """Looks whether a journal has a prefix of another one's items, and comes to all of them with the batches that are
        left."""
        left = arrived(file.read_bytes())
        want("its journal isn't a prefix", arrived(journal).startswith(left))
        if left not in greetings:
            return
        done, greeting = greetings[left]
        want(f"its journal opens as {opened.what()}", opened.what() == greeting)
        if len(greetings) == len(node.batches) + 1:
            self.node(node, file, None, node.batches[done:])
            want("it doesn't go on to the same journal", arrived(file.read_bytes()) == arrived(journal))

    def opening(self, node):
        """A node whose journal is opened."""

        def looked(file, ended, whole, journal):
            has_to_end(ended, whole)
            want("its journal changed", file.read_bytes() == journal)

        ran = lambda file, refusal: self.node(node, file, refusal, [])
        name = f"`node --name {node.name}{' --resp' if node.more else ''}`, opened"
        return self.row(name, self.copy(node, node.journal.read_bytes()), ran, looked)

    def formatting(self, node):
        """A journal that is made."""

        def prepared(told):
            file = self.folder / f"{node.name}-{told}.made"
            file.unlink(missing_ok=True)
            return file

        def looked(file, ended, whole, journal):
            has_to_end(ended, whole)
            if ended.status == NO_MEMORY and file.exists():
                want(f"a file of {len(file.read_bytes())} bytes is left", file.read_bytes() in (b"", journal))

        def ran(file, refusal):
            command = [self.curpd, "format", *node.words, "--journal", str(file)]
            return self.library.run(command, refusal=refusal)

        return self.row(f"`format --name {node.name}`", prepared, ran, looked)

    def gathering(self, nodes):
        """The journals of a cluster, gathered."""

        def looked(file, ended, whole, _):
            has_to_end(ended, whole)

        names = [str(node.journal) for node in nodes]
        ran = lambda file, refusal: self.library.run([self.curpd, "gather", *names], refusal=refusal)
        first = nodes[0]
        return self.row(f"`gather`, {len(nodes)} journals", self.copy(first, b"unused"), ran, looked)


def write(rows):
    """Writes the table to the page."""
    page = PAGE.read_text(encoding="utf-8")
    before, behind = page.split(BEGINS)[0], page.split(ENDS)[1]
    lines = [BEGINS, f"Of the run of {time.strftime('%d %B %Y')}:", ""]
    lines += ["| row | calls | runs ended by a refused call | runs that ended as the one that is refused nothing |"]
    lines += ["|---|---|---|---|"]
    lines += [f"| {row.name} | {row.calls:,} | {row.refused:,} | {row.others:,} |" for row in rows]
    PAGE.write_text(before + "\n".join([*lines, ENDS]) + behind, encoding="utf-8")


def main():
    parser = argparse.ArgumentParser(description=__doc__, formatter_class=argparse.RawDescriptionHelpFormatter)
    parser.add_argument("curpd")
    parser.add_argument("folder")
    parser.add_argument("--short", action="store_true")
    parser.add_argument("--write", action="store_true")
    options = parser.parse_args()
    options.curpd = os.path.abspath(options.curpd)
    folder = Path(options.folder).resolve()
    folder.mkdir(parents=True, exist_ok=True)
    begun = time.monotonic()
    trial = Trial(options, shim.Shim(folder))
    nodes, front = nodes_of(options.curpd, folder)
    rows = [trial.formatting(nodes[0])]
    for node in [*nodes, front]:
        rows += [trial.answering(node), trial.opening(node)]
    rows.append(trial.gathering(nodes))
    want("rows", len(rows) == 2 + 2 * 10)
    print(f"{time.monotonic() - begun:.0f} s")
    if any(row.wrong for row in rows):
        sys.exit(1)
    if options.write:
        write(rows)


if __name__ == "__main__":
    try:
        main()
    except Wrong as wrong:
        sys.exit(f"wrong: {wrong}")
