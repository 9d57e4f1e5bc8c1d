#!/usr/bin/env python3
"""Kills the process of a node again and again, damages its journal, and fills its disk: nothing that was answered is lost.

    tools/journal_test.py CURPD FOLDER [--runs N] [--seed N]

CURPD is the program `curpd`. Journals are left in FOLDER. What was tried is counted and printed, and the status is 1 at the
first thing that comes otherwise than is wanted. A client is run alone, and told to fetch the configuration: each such order
makes an item of its journal, which sends one message, so the answers tell which items were answered. In talks each parcel
is given once all has come that is said of those before it.
"""

import argparse
import contextlib
import itertools
import os
import random
import resource
import select
import signal
import subprocess
import sys
import threading
import time
from pathlib import Path

sys.dont_write_bytecode = True
sys.path.insert(0, str(Path(__file__).resolve().parent))
import curpparcels  # noqa: E402
import curpwire  # noqa: E402

HEADER = '{"clients":2,"f":1,"fast":true,"parts":1,"protocol":1,"sets":64,"ways":4}'
OTHER_HEADER = HEADER.replace('"clients":2', '"clients":3')
TITLE = 36  # bytes of a journal before its first commit byte
FETCH = curpparcels.encode("in", {"kind": "order", "order": {"kind": "fetch"}, "stamp": 0})
NUDGE = curpparcels.encode("in", {"kind": "order", "order": {"kind": "nudge"}, "stamp": 0})
NO_CLIENT = curpparcels.encode("in", {"kind": "order", "order": {"kind": "expire", "client": 3}, "stamp": 0})
PING = curpparcels.encode("in", {"kind": "bytes", "connection": 1, "bytes": b"*1\r\n$4\r\nPING\r\n".hex()})
UNKNOWN = {"kind": "bytes", "connection": 1, "bytes": b"-ERR unknown command\r\n".hex()}
TURNS = 100
LIMIT = 20  # seconds for what is said of a parcel
CLOSED, USAGE, NO_JOURNAL, DISK = 0, 2, 8, 12  # numbers with which a process ends
LARGE = '{"clients":1,"f":5,"fast":true,"parts":16,"protocol":1,"sets":16,"ways":4}'
ASKED = {"kind": "message", "from": "C1", "step": 1, "place": 1, "stamp": 7, "message": {"kind": "fetch", "from": "C1", "to": "G"}}


class Wrong(Exception):
    """Something came otherwise than is wanted."""


def want(what, got, wanted):
    if got != wanted:
        raise Wrong(f"{what}: {got!r}, wanted {wanted!r}")


def words(options, journal, name="C1", header=HEADER):
    return [options.curpd, "node", "--name", name, "--journal", str(journal), "--header", header]


def formatted(options, name, node="C1", header=HEADER):
    """A new journal of a node."""
    journal = Path(options.folder) / name
    journal.unlink(missing_ok=True)
    made = [options.curpd, "format", "--name", node, "--journal", str(journal), "--header", header]
    subprocess.run(made, check=True, timeout=20)
    return journal


def parcels_of(data):
    """The whole parcels at the start of what a process said."""
    said = []
    while True:
        try:
            parcel, data = curpparcels.decode("out", data)
        except curpwire.ShortFrame:
            return said
        said.append(parcel)


def run(options, journal, given=b"", name="C1", header=HEADER, limit=None):
    """Runs a process to its end: its number, and what it said."""

    def limited():
        if limit is not None:
            signal.signal(signal.SIGXFSZ, signal.SIG_IGN)
            resource.setrlimit(resource.RLIMIT_FSIZE, (limit, limit))

    done = subprocess.run(
        words(options, journal, name, header), input=given, capture_output=True, timeout=60, preexec_fn=limited
    )
    return done.returncode, parcels_of(done.stdout)


def items(options, journal, name="C1"):
    """How many items a journal has that can be opened."""
    number, said = run(options, journal, name=name)
    want("a journal is opened", number, CLOSED)
    return said[0]["items"]


def answered(said):
    """The last item that was answered, 0 if none was. They come in order, and none is left out."""
    steps = [parcel["step"] for parcel in said if parcel["kind"] == "sent"]
    if steps:
        want("steps of answers", steps, list(range(steps[0], steps[0] + len(steps))))
    return steps[-1] if steps else 0


# ---- kills


def killed_run(options, journal, chance):
    """Runs a process and kills it at some moment: how many items stood there, and which was answered last."""
    process = subprocess.Popen(words(options, journal), stdin=subprocess.PIPE, stdout=subprocess.PIPE)
    said = []
    reader = threading.Thread(target=lambda: said.append(process.stdout.read()))
    reader.start()
    end = time.monotonic() + chance.uniform(0.0, 0.05)
    try:
        while time.monotonic() < end:
            process.stdin.write(FETCH * chance.randint(1, 64))
            process.stdin.flush()
            time.sleep(chance.uniform(0.0, 0.002))
    except BrokenPipeError as gone:
        raise Wrong("a process ended by itself") from gone
    process.kill()
    reader.join()
    process.wait()
    process.stdout.close()
    parcels = parcels_of(said[0])
    return (parcels[0]["items"], max(parcels[0]["items"], answered(parcels))) if parcels else (None, 0)


def try_kills(options):
    """Kills a process at random moments, and starts it again."""
    chance = random.Random(options.seed)
    journal, heard, most = formatted(options, "killed.journal"), 0, 0
    for _ in range(options.runs):
        there, last = killed_run(options, journal, chance)
        if there is not None and there < heard:
            raise Wrong(f"{heard} items were answered, and {there} stand there")
        heard = max(heard, last)
        most = max(most, there or 0)
    left = items(options, journal)
    if left < heard:
        raise Wrong(f"{heard} items were answered, and {left} are left")
    print(f"{options.runs} kills: {left} items, {heard} of them answered")


# ---- damage


def batches(options, journal):
    """A journal of four batches, and where each of its commit bytes stands."""
    commits = [TITLE]
    for count in (1, 3, 2, 5):
        want("a batch", run(options, journal, FETCH * count)[0], CLOSED)
        commits.append(journal.stat().st_size - 1)
    return commits


def try_damage(options):
    """Cuts a journal at each byte, and changes each: a prefix of its batches is opened, or it is told what is wrong."""
    journal = formatted(options, "whole.journal")
    batches(options, journal)
    whole = journal.read_bytes()
    count = items(options, journal)
    damaged = Path(options.folder) / "damaged.journal"
    opened = refused = 0
    for place in range(len(whole)):
        for bytes_ in (whole[:place], whole[:place] + bytes([whole[place] ^ 1]) + whole[place + 1 :]):
            damaged.write_bytes(bytes_)
            number, said = run(options, damaged)
            if number == CLOSED:
                opened += 1
                want("a prefix", said[0]["items"] <= count, True)
            else:
                refused += 1
                want(f"a journal with byte {place} cut or changed", (number, said), (NO_JOURNAL, []))
    # Only a commit byte that isn't set ends a journal before its end.
    want("journals that were opened", opened, 4)
    print(f"{2 * len(whole)} damaged journals: {opened} opened as a prefix, {refused} refused")


# ---- refusals


def try_refusals(options):
    """Batches of up to three orders, each taken or refused: what is taken of each stands in the journal, and nothing else."""
    journal, there = formatted(options, "refused.journal", "G"), 0
    batches = [batch for count in (1, 2, 3) for batch in itertools.product((NUDGE, NO_CLIENT), repeat=count)]
    for batch in batches:
        number, said = run(options, journal, b"".join(batch), name="G")
        want("a batch with refusals", number, CLOSED)
        refused = [parcel["input"] for parcel in said if parcel["kind"] == "refused"]
        want("refused inputs", refused, [place for place, order in enumerate(batch, 1) if order == NO_CLIENT])
        there += batch.count(NUDGE)
        want("items behind refusals", items(options, journal, "G"), there)
    print(f"{len(batches)} batches with refusals: {there} items")


# ---- talks


class Talk:
    """A process, and what it said that wasn't looked at."""

    def __init__(self, child):
        self.child, self.heard = child, b""

    def send(self, data):
        os.write(self.child.stdin.fileno(), data)

    def next(self, what):
        """The next parcel that it says."""
        while True:
            with contextlib.suppress(curpwire.ShortFrame):
                parcel, self.heard = curpparcels.decode("out", self.heard)
                return parcel
            if not select.select([self.child.stdout], [], [], LIMIT)[0]:
                raise Wrong(f"{what}: nothing is said within {LIMIT} seconds")
            more = os.read(self.child.stdout.fileno(), 65_536)
            want(f"{what}: the process goes on", bool(more), True)
            self.heard += more


@contextlib.contextmanager
def talk(options, name, *more):
    """A talk with the process of a node that has done nothing, to the end of its input."""
    journal = formatted(options, "talk.journal", name)
    with subprocess.Popen([*words(options, journal, name), *more], stdin=subprocess.PIPE, stdout=subprocess.PIPE) as child:
        try:
            said = Talk(child)
            want(f"{name} stands", said.next(name)["kind"], "stands")
            yield said
            child.stdin.close()
            want(f"{name} says no more", child.stdout.read(), b"")
            want(f"{name} ends", child.wait(LIMIT), CLOSED)
        finally:
            child.kill()


def one_by_one(options):
    """Each parcel is given once all was heard of the one before."""
    with talk(options, "C1") as said:
        for turn in range(1, TURNS + 1):
            said.send(FETCH)
            want(f"turn {turn} of a client", said.next(f"turn {turn}")["step"], turn)
    with talk(options, "G") as said:
        for turn in range(1, TURNS + 1):
            said.send(NUDGE)
            places = [said.next(f"turn {turn}")["place"] for _ in range(2)]
            want(f"turn {turn} of the manager", places, [1, 2])
    with talk(options, "C1", "--resp") as said:
        for turn in range(1, TURNS + 1):
            said.send(PING)
            told = [said.next(f"turn {turn}") for _ in range(2)]
            want(f"turn {turn} of a connection", told, [UNKNOWN, {"kind": "more", "connection": 1}])
    return 3 * TURNS


def in_pieces(options):
    """A parcel comes in two pieces, the second one once all was heard of the whole parcels before."""
    with talk(options, "C1") as said:
        said.send(FETCH[:1])
        for turn in range(1, len(FETCH)):
            said.send(FETCH[turn:] + FETCH + FETCH[: (turn + 1) % len(FETCH)])
            steps = [said.next(f"piece {turn}")["step"] for _ in range(2)]
            want(f"piece {turn}", steps, [2 * turn - 1, 2 * turn])
    return len(FETCH) - 1


def try_talks(options):
    """What is said of a parcel comes before the next one is waited for."""
    turns, pieces = one_by_one(options), in_pieces(options)
    print(f"{turns} turns and {pieces} pieces: what is said of a parcel comes before the next one is given")


# ---- files and disks


def try_files(options):
    """What is no journal of this node is refused, and so is one that is in use."""
    journal, folder = formatted(options, "file.journal"), Path(options.folder)
    want("another node", run(options, journal, name="C2")[0], NO_JOURNAL)
    want("another cluster", run(options, journal, header=OTHER_HEADER)[0], NO_JOURNAL)
    want("no file", run(options, folder / "missing")[0], NO_JOURNAL)
    want("a folder", run(options, folder)[0], NO_JOURNAL)
    want("no name", run(options, journal, name="X1")[0], USAGE)
    want("no such client", run(options, journal, name="C3")[0], USAGE)
    again = subprocess.run(
        [options.curpd, "format", "--name", "C1", "--journal", str(journal), "--header", HEADER], stderr=subprocess.DEVNULL
    )
    want("a journal that is there", again.returncode, NO_JOURNAL)
    user = subprocess.Popen(words(options, journal), stdin=subprocess.PIPE, stdout=subprocess.PIPE)
    user.stdout.read(4 + 17)
    want("a journal in use", run(options, journal)[0], NO_JOURNAL)
    user.communicate(timeout=20)
    want("a journal that was in use", items(options, journal), 0)
    print("8 files that can't be opened, each refused")


def try_full_disks(options):
    """A file may get no longer than so many bytes: what was answered stands there, and a longer disk goes on."""
    rooms = range(TITLE + 1, TITLE + 400, 7)
    for room in rooms:
        journal = formatted(options, "full.journal")
        heard = 0
        number, said = run(options, journal, FETCH * 5, limit=room)
        heard = max(heard, answered(said))
        while number == CLOSED:
            number, said = run(options, journal, FETCH * 5, limit=room)
            heard = max(heard, answered(said))
        want("a full disk", number, DISK)
        left = items(options, journal)
        if left < heard:
            raise Wrong(f"on {room} bytes {heard} items were answered, and {left} are left")
        want("a disk with more room", answered(run(options, journal, FETCH)[1]), left + 1)
    print(f"{len(rooms)} full disks: what was answered stands there, and they go on with more room")


# ---- ends


def want_end(what, command, number, told, **streams):
    """A process ends with a number, and says why in a line."""
    done = subprocess.run(command, stderr=subprocess.PIPE, timeout=60, **{"stdout": subprocess.DEVNULL, **streams})
    want(what, (done.returncode, done.stderr.decode()), (number, f"{told}\n" if told else ""))


def try_ends(options):
    """The process of a node ends with each number but 6 and those of its journal."""
    journal = formatted(options, "end.journal")
    node, place = words(options, journal), len(FETCH)
    ends = [
        ("well", node, 0, "", FETCH),
        ("an argument that is no text", [options.curpd, b"\xff"], 2, "an argument is no text", b""),
        ("a name that is no text", [*node[:3], b"\xc3", *node[4:]], 2, "an argument is no text", b""),
        ("no such client", words(options, journal, "C3"), 2, "the cluster has no client of that number", b""),
        ("a cut parcel", node, 3, f"the input ends inside the parcel at byte {place}", FETCH + FETCH[:9]),
        ("a long parcel", node, 3, f"the parcel at byte {place} is too long", FETCH + b"\xff" * 4),
    ]
    for what, command, number, told, given in ends:
        want_end(what, command, number, told, input=given)
    folder, full = os.open(options.folder, os.O_RDONLY), os.open("/dev/full", os.O_WRONLY)
    want_end("a folder as input", node, 4, "reading failed", stdin=folder)
    want_end("a full output", node, 5, "writing failed", stdin=subprocess.DEVNULL, stdout=full)
    os.close(folder)
    os.close(full)
    print(f"{len(ends) + 2} processes of nodes end with their numbers, and say why")


def try_gathered_ends(options):
    """Gathering ends with each number of its own."""
    missing = "item 1 of G took message 1 of item 1 of C1, with stamp 7, which C1's journal doesn't have"
    # A nudge sends a message to each witness and each master, which weighs 1: the 20,834th is over the limit.
    heavy = "what the journals' nodes sent weighs 2000064, which is more than 2000000"
    ends = [
        ("G", HEADER, curpparcels.encode("in", ASKED), 1, missing),
        ("C1", HEADER, FETCH * 200_001, 7, "the journals have more than 200000 items"),
        ("G", LARGE, NUDGE * 20_834, 9, heavy),
    ]
    for name, header, given, number, told in ends:
        journal = formatted(options, "gathered.journal", name, header)
        done = subprocess.run(words(options, journal, name, header), input=given, stdout=subprocess.DEVNULL, timeout=60)
        want(f"the journal for {number}", done.returncode, CLOSED)
        want_end(f"gathering that ends with {number}", [options.curpd, "gather", str(journal)], number, told)
    print(f"{len(ends)} journals that can't be gathered")


def main():
    parser = argparse.ArgumentParser(description=__doc__, formatter_class=argparse.RawDescriptionHelpFormatter)
    parser.add_argument("curpd")
    parser.add_argument("folder")
    parser.add_argument("--runs", type=int, default=200)
    parser.add_argument("--seed", type=int, default=1)
    options = parser.parse_args()
    Path(options.folder).mkdir(parents=True, exist_ok=True)
    try:
        for test in (try_files, try_ends, try_gathered_ends, try_refusals, try_talks, try_damage, try_full_disks, try_kills):
            test(options)
    except Wrong as wrong:
        sys.exit(f"wrong: {wrong}")


if __name__ == "__main__":
    main()
