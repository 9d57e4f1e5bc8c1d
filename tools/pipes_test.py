#!/usr/bin/env python3
"""Runs the nodes of a cluster as one process each over named pipes, and compares what they answer with what is wanted.

    tools/pipes_test.py CURPD FOLDER [--curp CURP]

CURPD is the program `curpd`, CURP the program `curp`: that of the environment's CURP, or crates/curp/out/curp, where
none is said. Each scenario has a cluster of its own (G, M1, B1, W1, C1, C2), its journals in FOLDER/NAME, and leaves what
it gathers as FOLDER/NAME.script. The pipes of its nodes are in a temporary folder, and go with it. What is done and heard
is printed, and the status is 1 where something else comes than is wanted.
"""

import argparse
import asyncio
import os
import shutil
import subprocess
import sys
import tempfile
from collections.abc import Callable
from pathlib import Path

TOP = Path(__file__).resolve().parent.parent
sys.path.insert(0, str(TOP / "cluster"))
sys.dont_write_bytecode = True
import hosts  # noqa: E402
import node  # noqa: E402
import parcels  # noqa: E402
import recorder  # noqa: E402
from recorder import Wrong  # noqa: E402

HEADER = {"clients": 2, "f": 1, "fast": True, "parts": 1, "protocol": 1, "sets": 64, "ways": 4}
LIMIT = 20  # seconds for anything that is waited for
LIMIT_OF_ALL = 300


class PipedNode(node.Node):
    """A node whose process reads one named pipe and writes another, also when it begins again."""

    def __init__(self, pipes: Path, *of_node):
        super().__init__(*of_node)
        self.pipes = pipes

    def pipe(self, end: str) -> Path:
        path = self.pipes / f"{self.name}.{end}"
        if not path.exists():
            os.mkfifo(path)
        return path

    async def _open(self, prefix: tuple[str, ...], log) -> asyncio.StreamReader:
        # The end that is read is opened first, without waiting for the other one. What a process that was killed left
        # unread is gone, since nothing had the pipe open between.
        given, giving = both_ends(self.pipe("in"))
        hearing, said = both_ends(self.pipe("out"))
        try:
            self.process = await self._run("node", prefix, log, given, said)
        finally:
            # They are the process's alone: so its input ends when `giving` is closed, and `hearing` ends with it.
            os.close(given)
            os.close(said)
        loop = asyncio.get_running_loop()
        reader = asyncio.StreamReader()
        protocol = asyncio.StreamReaderProtocol(reader)
        await loop.connect_read_pipe(lambda: protocol, os.fdopen(hearing, "rb"))
        transport, flow = await loop.connect_write_pipe(asyncio.streams.FlowControlMixin, os.fdopen(giving, "wb"))
        self.stdin = asyncio.StreamWriter(transport, flow, None, loop)
        return reader


def both_ends(pipe: Path) -> tuple[int, int]:
    """A named pipe, opened to be read and to be written."""
    reading = os.open(pipe, os.O_RDONLY | os.O_NONBLOCK)
    writing = os.open(pipe, os.O_WRONLY)
    os.set_blocking(reading, True)
    return reading, writing


class Bench:
    """A cluster whose messages are carried as they come, but for those that `loses` names."""

    def __init__(self, name: str, options: argparse.Namespace, header: dict = HEADER):
        self.name, self.options = name, options
        self.folder = Path(options.folder) / name
        shutil.rmtree(self.folder, ignore_errors=True)
        self.folder.mkdir(parents=True)
        self.pipes = options.pipes / name
        self.pipes.mkdir()
        self.setting = node.Setting(options.curpd, header, self.folder)
        self.nodes: dict[str, node.Node] = {}
        self.said: dict[str, list[parcels.Parcel]] = {}
        self.ended: dict[str, int] = {}
        self.highest = 0
        self.lost: list[parcels.Sent] = []
        self.loses: Callable[[parcels.Sent], bool] = lambda message: False
        self.news = asyncio.Event()

    async def begin(self, *names: str) -> None:
        for name in names:
            if name not in self.nodes:
                heard, ended = self.hearing(name), self.ending(name)
                self.nodes[name] = PipedNode(self.pipes, name, self.setting, heard, ended)
            self.said[name] = []
            hosts.write_event(self.folder, name, "up", self.highest)
            await self.nodes[name].start()
            await self.until(f"{name} stands", lambda: self.stands(name))

    def hearing(self, name: str) -> Callable[[parcels.Parcel], None]:
        return lambda said: self.heard(name, said)

    def ending(self, name: str) -> Callable[[int], None]:
        return lambda status: self.note_end(name, status)

    def note_end(self, name: str, status: int) -> None:
        self.ended[name] = status
        self.news.set()

    def heard(self, name: str, said: parcels.Parcel) -> None:
        self.said[name].append(said)
        self.highest = max(self.highest, parcels.stamp_of(said))
        if isinstance(said, parcels.Sent):
            if self.loses(said):
                self.lost.append(said)
            elif said.addressee in self.nodes:
                self.nodes[said.addressee].give(parcels.arriving(said))
        self.news.set()

    def stands(self, name: str) -> bool:
        return any(isinstance(said, parcels.Stands) for said in self.said[name])

    def sends(self, name: str, tag: int) -> bool:
        """Whether the process of a node sent a message with that tag, since it began."""
        return any(isinstance(said, parcels.Sent) and said.tag == tag for said in self.said[name])

    async def until(self, what: str, holds: Callable[[], bool]) -> None:
        """Waits until it holds."""
        try:
            async with asyncio.timeout(LIMIT):
                while not holds():
                    self.news.clear()
                    await self.news.wait()
        except TimeoutError:
            raise Wrong(f"{self.name}: {what}: not within {LIMIT} seconds") from None

    def order(self, name: str, order: bytes) -> int:
        return self.nodes[name].give(parcels.ordering(order, self.highest))

    def completed(self, client: int, number: int) -> list | None:
        """The answer to a request, once it completed."""
        for said in self.said[f"C{client}"]:
            if isinstance(said, parcels.Completed) and (said.client, said.number) == (client, number):
                return said.answer
        return None

    async def answer(self, client: int, number: int, wanted: list) -> None:
        """Waits for the answer to a request, and compares it."""
        await self.until(f"request {client}.{number} completes", lambda: self.completed(client, number) is not None)
        self.same(f"the answer to {client}.{number}", self.completed(client, number), wanted)

    async def ask(self, client: int, number: int, command: list, wanted: list) -> None:
        self.order(f"C{client}", parcels.invoke(command))
        await self.answer(client, number, wanted)

    def same(self, what: str, found, wanted) -> None:
        if found != wanted:
            raise Wrong(f"{self.name}: {what} is {found}, and {wanted} is wanted")
        print(f"    {what}: {found}")

    async def kill(self, name: str) -> None:
        self.nodes[name].kill()
        await self.nodes[name].gone()
        hosts.write_event(self.folder, name, "killed", self.highest)
        print(f"    {name} is killed")

    async def finish(self) -> None:
        """Ends each input: each process answers what came, and ends well."""
        for name, one in self.nodes.items():
            if one.is_up():
                await one.finish()
                if self.ended[name] != node.ENDED:
                    raise Wrong(f"{self.name}: {name} ends with {self.ended[name]}")

    def gather(self) -> str:
        """Gathers the journals, keeps the script, and compares what is printed for it with what `curp play` prints."""
        script, played = recorder.gather(self.options.curpd, list(self.folder.glob("*.journal")))
        (Path(self.options.folder) / f"{self.name}.script").write_text(script, encoding="utf-8")
        recorder.check_script(self.options.curp, script, played)
        print(f"    gathered: {len(script.splitlines()) - 1} steps, and play prints the same")
        return played

    def ordered(self, played: str) -> list[str]:
        """The requests of the order that is printed, with their answers."""
        lines = played.splitlines()
        at = next(place for place, line in enumerate(lines) if line.startswith("order "))
        return lines[at + 1 :]


def is_kind(*tags: int) -> Callable[[parcels.Sent], bool]:
    return lambda message: message.tag in tags


OPENING = node.opening_names(HEADER)


async def put_and_get(options: argparse.Namespace) -> None:
    """A put of one client, and a get of the other."""
    bench = Bench("put-and-get", options)
    await bench.begin(*OPENING)
    bench.same("items of a journal that was made", [s for s in bench.said["M1"]], [parcels.Stands(0, 0)])
    await bench.ask(1, 1, ["put", "61", "31"], ["done"])
    await bench.ask(2, 1, ["get", "61"], ["found", "31"])
    await bench.ask(2, 2, ["get", "62"], ["found", None])
    await bench.finish()
    order = bench.ordered(bench.gather())
    bench.same("the order", order, ["1.1 put 61 31 -> done", "2.1 get 61 -> found 31", "2.2 get 62 -> none"])


async def lost_reply(options: argparse.Namespace) -> None:
    """A reply that is lost, and a retry: the increment is done once."""
    bench = Bench("lost-reply", options)
    await bench.begin(*OPENING)
    bench.loses = is_kind(parcels.REPLY)
    bench.order("C1", parcels.invoke(["incr", "6e"]))
    await bench.until("a reply is lost", lambda: bool(bench.lost))
    bench.same("answers while the reply is lost", bench.completed(1, 1), None)
    bench.loses = lambda message: False
    bench.order("C1", parcels.retry(1))
    await bench.answer(1, 1, ["number", 1])
    await bench.ask(2, 1, ["incr", "6e"], ["number", 2])
    refused = bench.order("C1", parcels.retry(1))
    await bench.until("the retry is refused", lambda: parcels.Refused(refused, 1) in bench.said["C1"])
    await bench.finish()
    order = bench.ordered(bench.gather())
    bench.same("the order", order, ["1.1 incr 6e -> number 1", "2.1 incr 6e -> number 2"])


async def killed_master(options: argparse.Namespace) -> None:
    """The master is killed with its reply lost; it begins again with what it kept, and a retry has the answer."""
    bench = Bench("killed-master", options)
    await bench.begin(*OPENING)
    bench.loses = is_kind(parcels.REPLY)
    bench.order("C1", parcels.invoke(["incr", "6e"]))
    await bench.until("a reply is lost", lambda: bool(bench.lost))
    await bench.kill("M1")
    bench.loses = lambda message: False
    await bench.begin("M1")
    bench.same("items of M1", bench.said["M1"][0].items, 1)
    bench.order("C1", parcels.retry(1))
    await bench.answer(1, 1, ["number", 1])
    await bench.finish()
    bench.same("the order", bench.ordered(bench.gather()), ["1.1 incr 6e -> number 1"])


async def killed_in_turn(options: argparse.Namespace) -> None:
    """Each process is killed while a request is pending, and begins again."""
    bench = Bench("killed-in-turn", options)
    await bench.begin(*OPENING)
    for number, name in enumerate(OPENING, 1):
        bench.loses, bench.lost = is_kind(parcels.REPLY, parcels.WORTH), []
        bench.order("C1", parcels.invoke(["incr", "6e"]))
        # The reply to this one: that to the retry of the one before may come as late.
        mine = (1, number)
        await bench.until("its reply is lost", lambda: mine in [lost.request() for lost in bench.lost])
        await bench.kill(name)
        bench.loses = lambda message: False
        await bench.begin(name)
        first = bench.said[name][0]
        bench.same(f"{name} has items", first.items > 0, name not in ("G", "C2"))
        if name == "C1":
            await bench.until(f"1.{number} is told", lambda: parcels.Pending(1, number) in bench.said["C1"])
            done = [said.number for said in bench.said["C1"] if isinstance(said, parcels.Completed)]
            bench.same("completions that C1 tells again", done, list(range(1, number)))
        # A round that the killed process missed is made good by the next one.
        bench.order("M1", parcels.SYNC_ORDER)
        bench.order("C1", parcels.retry(number))
        await bench.answer(1, number, ["number", number])
    await bench.ask(2, 1, ["get", "6e"], ["found", f"{len(OPENING):016x}"])
    await bench.finish()
    bench.same("requests in the order", len(bench.ordered(bench.gather())), len(OPENING) + 1)


async def recovery(options: argparse.Namespace) -> None:
    """M1 is gone for good with what no backup has. M2 begins fresh by its name, with B2 and W2."""
    bench = Bench("recovery", options)
    await bench.begin(*OPENING)
    await bench.ask(1, 1, ["put", "61", "31"], ["done"])
    await bench.ask(1, 2, ["incr", "6e"], ["number", 1])
    await bench.kill("M1")
    await bench.begin("M2", "B2", "W2")
    bench.order("G", parcels.recover(1, 1, 1))
    await bench.until("M2 is adopted", lambda: bench.sends("G", parcels.ADOPTED))
    bench.order("C2", parcels.invoke(["get", "61"]))
    bench.order("C2", parcels.FETCH_ORDER)
    await bench.until("C2 is told", lambda: bench.sends("G", parcels.CONFIGURATION))
    bench.order("C2", parcels.retry(1))
    await bench.answer(2, 1, ["found", "31"])
    await bench.ask(2, 2, ["incr", "6e"], ["number", 2])
    await bench.finish()
    order = bench.ordered(bench.gather())
    bench.same("requests in the order", sorted(line.split()[0] for line in order), ["1.1", "1.2", "2.1", "2.2"])


async def recovery_cut(options: argparse.Namespace) -> None:
    """The manager and the fresh master are killed in the middle of a recovery, and the backup that is asked too."""
    bench = Bench("recovery-cut", options)
    await bench.begin(*OPENING)
    await bench.ask(1, 1, ["append", "61", "31"], ["length", 1])
    await bench.kill("M1")
    await bench.begin("M2", "B2", "W2")
    bench.loses = is_kind(parcels.FENCE_ANSWER, parcels.FROZEN_ANSWER)
    bench.order("G", parcels.recover(1, 1, 1))
    await bench.until("answers are lost", lambda: len(bench.lost) == 2)
    for name in ("G", "M2", "B1", "W1"):
        await bench.kill(name)
        await bench.begin(name)
    bench.loses = lambda message: False
    bench.order("M2", parcels.SYNC_ORDER)
    await bench.until("M2 is adopted", lambda: bench.sends("G", parcels.ADOPTED))
    bench.order("C1", parcels.FETCH_ORDER)
    await bench.until("C1 is told", lambda: bench.sends("G", parcels.CONFIGURATION))
    await bench.ask(1, 2, ["append", "61", "32"], ["length", 2])
    await bench.finish()
    bench.same("requests in the order", len(bench.ordered(bench.gather())), 2)


async def bad_input(options: argparse.Namespace) -> None:
    """What is no parcel is told and passed over; an input that ends inside one, or has one too long, ends the run."""
    bench = Bench("bad-input", options)
    bench.setting.fronts = frozenset({"C1"})
    await bench.begin(*OPENING)
    bench.nodes["G"].give(parcels.parcel(b"\7nothing"))
    await bench.until("it is told", lambda: parcels.NoParcel(1, 0) in bench.said["G"])
    bench.order("G", parcels.NUDGE_ORDER)
    await bench.until("the next parcel is taken", lambda: any(isinstance(s, parcels.Sent) for s in bench.said["G"]))
    for name, data in (("B1", b"\0\0\0\5\1"), ("W1", b"\xff\xff\xff\xff"), ("C1", b"\xff\xff\xff\xff")):
        bench.nodes[name].stdin.write(data)
        await bench.nodes[name].finish()
        bench.same(f"the status of {name}", bench.ended[name], node.CUT)
    bench.nodes["B1"].begun = True
    bench.setting.journal("B1").unlink()
    await bench.nodes["B1"].start()
    await bench.nodes["B1"].gone()
    bench.same("the status without a journal", bench.ended["B1"], node.NO_JOURNAL)
    words = bench.setting.words("W1", "format")
    again = subprocess.run(words, capture_output=True)
    bench.same("a journal that is there is made again", again.returncode == 0, False)
    await bench.finish()
    bench.gather()


NOT_ITS_OWN = 254  # the number by which what isn't a node's own is refused
ORDERS = {
    "C": [parcels.invoke(["get", "61"]), parcels.retry(1), parcels.FETCH_ORDER],
    "M": [parcels.SYNC_ORDER, parcels.COLLECT_ORDER],
    "G": [
        parcels.recover(1, 1, 1),
        parcels.replace(1, "B", 1),
        parcels.migrate(0, 1, 1),
        parcels.expire(1),
        parcels.NUDGE_ORDER,
    ],
}


async def refuses(bench: Bench, name: str, strays: list[bytes]) -> None:
    """Gives a process parcels together, each of which it has to refuse, and waits until it has."""
    numbers = [bench.nodes[name].give(stray) for stray in strays]
    wanted = [parcels.Refused(number, NOT_ITS_OWN) for number in numbers]
    await bench.until(f"{name} refuses {len(strays)} parcels", lambda: all(it in bench.said[name] for it in wanted))
    print(f"    {name} refuses what isn't its own: {len(strays)} parcels")


async def misdirected(options: argparse.Namespace) -> None:
    """What isn't a node's own is refused, and no journal has it: messages to others, other kinds' orders, one first."""
    bench = Bench("misdirected", options)
    await bench.begin(*OPENING, "M2", "B2", "W2")
    await bench.ask(1, 1, ["put", "61", "31"], ["done"])
    # A fresh master takes no order before its first message, also none behind what it refused.
    await refuses(bench, "M2", [parcels.ordering(order, bench.highest) for order in ORDERS["M"] * 2])
    sent = [said for name in OPENING for said in bench.said[name] if isinstance(said, parcels.Sent)]
    for name in bench.nodes:
        strays = [parcels.arriving(message) for message in sent if message.addressee != name]
        others = [order for kind, orders in ORDERS.items() if kind != name[0] for order in orders]
        await refuses(bench, name, strays + [parcels.ordering(order, bench.highest) for order in others])
    await bench.kill("M1")
    bench.order("G", parcels.recover(1, 1, 1))
    await bench.until("M2 is adopted", lambda: bench.sends("G", parcels.ADOPTED))
    bench.order("C2", parcels.FETCH_ORDER)
    await bench.until("C2 is told", lambda: bench.sends("G", parcels.CONFIGURATION))
    # Between two that are its own, one that isn't.
    bench.order("C2", parcels.invoke(["incr", "6e"]))
    await refuses(bench, "C2", [parcels.ordering(parcels.NUDGE_ORDER, bench.highest)])
    await bench.answer(2, 1, ["number", 1])
    await bench.ask(2, 2, ["get", "61"], ["found", "31"])
    await bench.finish()
    bench.same("requests in the order", len(bench.ordered(bench.gather())), 3)


def replies(bench: Bench, connection: int) -> bytes:
    """What the process of client 1 told a connection."""
    return b"".join(s.data for s in bench.said["C1"] if isinstance(s, parcels.Bytes) and s.connection == connection)


def refusals(said: list[parcels.Parcel]) -> list[int]:
    """Why inputs were refused."""
    return [parcel.number for parcel in said if isinstance(parcel, parcels.Refused)]


async def connections(options: argparse.Namespace) -> None:
    """Redis' protocol in front of a client: replies in order, more requests than may be pending, one that is none."""
    bench = Bench("connections", options)
    bench.setting.fronts = frozenset({"C1"})
    await bench.begin(*OPENING)
    front = bench.nodes["C1"]
    incr, get = b"*2\r\n$4\r\nINCR\r\n$1\r\nn\r\n", b"*2\r\n$3\r\nGET\r\n$1\r\nn\r\n"
    front.give(parcels.bytes_of(1, incr * 20 + get))
    found = b"$8\r\n" + (20).to_bytes(8, "big") + b"\r\n"  # a counter is a value of eight bytes
    wanted = b"".join(b":%d\r\n" % count for count in range(1, 21)) + found
    await bench.until("20 increments and a get are replied to", lambda: len(replies(bench, 1)) >= len(wanted))
    bench.same("the replies", replies(bench, 1), wanted)
    front.give(parcels.bytes_of(2, get + b"none\r\n" + get))
    await bench.until("a bad request ends its connection", lambda: parcels.Close(2) in bench.said["C1"])
    bench.same("the replies to it", replies(bench, 2), found + b"-ERR protocol\r\n")
    front.give(parcels.closed(2))
    bench.order("C1", parcels.NUDGE_ORDER)
    # Its number isn't known here: what comes of connections isn't counted.
    await bench.until("a stray order is refused", lambda: NOT_ITS_OWN in refusals(bench.said["C1"]))
    front.give(parcels.bytes_of(1, incr))
    await bench.until("the other goes on", lambda: replies(bench, 1).endswith(b":21\r\n"))
    await bench.finish()
    bench.same("requests in the order", len(bench.ordered(bench.gather())), 23)


SCENARIOS = [put_and_get, lost_reply, killed_master, killed_in_turn, recovery, recovery_cut]
SCENARIOS += [bad_input, misdirected, connections]


async def run_all(options: argparse.Namespace) -> None:
    async with asyncio.timeout(LIMIT_OF_ALL):
        for scenario in SCENARIOS:
            print(f"{scenario.__name__}: {scenario.__doc__}")
            await scenario(options)


def main() -> None:
    default = os.environ.get("CURP", str(TOP / "crates/curp/out/curp"))
    words = argparse.ArgumentParser(description=__doc__, formatter_class=argparse.RawDescriptionHelpFormatter)
    words.add_argument("curpd")
    words.add_argument("folder")
    words.add_argument("--curp", default=default)
    options = words.parse_args()
    options.curpd, options.curp = node.program(options.curpd), node.program(options.curp)
    try:
        with tempfile.TemporaryDirectory(prefix="curp-pipes-") as pipes:
            options.pipes = Path(pipes)
            asyncio.run(run_all(options))
    except (Wrong, TimeoutError) as wrong:
        sys.exit(f"wrong: {wrong!r}" if isinstance(wrong, TimeoutError) else f"wrong: {wrong}")
    print("all is as wanted")


if __name__ == "__main__":
    main()
