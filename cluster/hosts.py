"""The hosts of a cluster's nodes: each has a node's process and its chores, and a wire brings letters between them."""

import asyncio
import contextlib
import json
import signal
import time
from collections.abc import Callable
from pathlib import Path
from typing import NamedTuple, Protocol

import parcels
import policy
from node import NAME, Node, Setting, last_line, opening_names
from parcels import Sent

MOST_BEGINNING = 10  # seconds in which nodes begin before those that are there begin to work
MOST_KEPT, MOST_KEPT_BYTES = 1000, 8 << 20  # parcels that wait while a process begins: what comes beyond is lost


class Probe(NamedTuple):
    """The manager's host asks whether a node is up."""


class Alive(NamedTuple):
    """It is."""


Letter = Sent | Probe | Alive


class Wire(Protocol):
    """Brings letters from a host to another one, or loses, repeats, delays and reorders them."""

    deliver: Callable[[str, str, Letter], None] | None

    async def open(self, name: str) -> None:
        """A host is there from now on."""

    def carry(self, source: str, target: str, letter: Letter) -> None: ...

    def leave(self, name: str) -> None:
        """A host is there no longer."""

    async def close(self) -> None: ...


def write_event(folder: Path, name: str, what: str, stamp: int) -> None:
    """Writes down what became of a node's process, and the highest stamp that had been seen then."""
    # Where the disk is full the cluster goes on.
    with contextlib.suppress(OSError), open(folder / "events.jsonl", "a", encoding="utf-8") as events:
        event = {"at": round(time.monotonic(), 3), "node": name, "stamp": stamp, "what": what}
        events.write(json.dumps(event) + "\n")


def events_in(folder: Path) -> dict[str, list[str]]:
    """What became of each node's processes in earlier runs."""
    found: dict[str, list[str]] = {}
    with contextlib.suppress(FileNotFoundError):
        for line in (folder / "events.jsonl").read_text(encoding="utf-8").splitlines():
            # A line that a full disk or a kill cut off says nothing.
            with contextlib.suppress(ValueError, KeyError, TypeError):
                event = json.loads(line)
                found.setdefault(event["node"], []).append(event["what"])
    return found


class Host:
    """One node: its process, its chores, and the wire that brings its messages."""

    def __init__(self, name: str, cluster: "Cluster"):
        self.name, self.cluster = name, cluster
        self.node = Node(name, cluster.setting, self.heard, self._ended)
        self.chores = policy.chores_of(name, cluster.numbers, cluster.setting.header)
        self.listeners: list[Callable[[parcels.Parcel], None]] = []
        self.lives = 0  # how many processes it has begun
        self.stopped = False  # for good
        self.unwell = False  # its process ended by a fault, and the next one has answered nothing yet
        self.faults = 0  # how often that happened, one behind the other
        self.prefix: tuple[str, ...] = ()
        self.restart = cluster.numbers.restart
        self.kept: list[bytes] | None = []
        self.restarting: asyncio.Task | None = None
        self.hears = True  # where it doesn't, what the process says is lost

    async def start(self) -> None:
        """Begins the process. What comes meanwhile is kept for it."""
        self.kept, self.hears = self.kept or [], True
        await self.node.gone()
        self.lives += 1
        try:
            await self.node.start(self.prefix)
        except OSError as fault:
            self._failed(f"can't begin: {fault}")
            return
        kept, self.kept = self.kept, None
        for parcel in kept:
            self.node.give(parcel)
        if self.stopped:
            self.node.kill()

    def is_up(self) -> bool:
        """Its process takes parcels."""
        return self.node.is_up() and self.kept is None

    def is_well(self) -> bool:
        """It is up, and keeps what comes: where the disk is full a process begins, and ends with the first parcel."""
        return self.is_up() and not self.unwell

    def give(self, parcel: bytes) -> int:
        if self.kept is None:
            return self.node.give(parcel)
        if len(self.kept) < MOST_KEPT and sum(map(len, self.kept)) < MOST_KEPT_BYTES:
            self.kept.append(parcel)
        return 0

    def order(self, order: bytes) -> int:
        """Gives the node an order, and returns its number among the inputs of the process; 0 where it is lost."""
        return self.node.give(parcels.ordering(order, self.cluster.highest)) if self.kept is None else 0

    def heard(self, said: parcels.Parcel) -> None:
        """The process said something."""
        if not self.hears:
            return
        if isinstance(said, parcels.Stands):
            self.cluster.happened(self.name, "up")
        if not isinstance(said, parcels.Stands | parcels.Completed | parcels.Pending):
            self.unwell, self.faults = False, 0
        self.cluster.highest = max(self.cluster.highest, parcels.stamp_of(said))
        self.chores.heard(said, time.monotonic())
        for listener in self.listeners:
            listener(said)
        if isinstance(said, Sent):
            self.cluster.wire.carry(self.name, said.addressee, said)

    def arrived(self, source: str, letter: Letter) -> None:
        """The wire brought a letter."""
        if self.stopped:
            return
        if isinstance(letter, Sent):
            self.chores.arrived(letter, time.monotonic())
            self.give(parcels.arriving(letter))
        elif isinstance(letter, Probe):
            if self.is_well():
                self.cluster.wire.carry(self.name, source, Alive())
        elif isinstance(self.chores, policy.ManagerChores):
            self.chores.alive(source, time.monotonic())

    def tick(self, now: float) -> None:
        """Gives the orders that are due."""
        if not self.is_up():
            return
        if isinstance(self.chores, policy.ManagerChores):
            for name in self.chores.to_probe(now):
                self.cluster.wire.carry(self.name, name, Probe())
            self.cluster.retire(self.chores.to_retire(now))
        for order in self.chores.due(now):
            self.order(order)

    def kill(self, restart: float | None = None) -> None:
        """Kills the process. It begins again after a time, that of the policy where none is said."""
        self.restart = self.cluster.numbers.restart if restart is None else restart
        if self.node.is_up():
            self.cluster.happened(self.name, "killed")
            self.node.kill()

    def stop(self, what: str = "stopped") -> None:
        """Stops the node for good."""
        self.stopped = True
        self.cluster.happened(self.name, what)
        self.node.kill()

    def _ended(self, status: int) -> None:
        """The process ended, by whatever."""
        if status == -signal.SIGKILL or self.cluster.ending:
            self._begin_again()
        else:
            why = last_line(self.cluster.setting.log(self.name))
            self._failed(f"ended {status}: {why}" if why else f"ended {status}")

    def _failed(self, why: str) -> None:
        """The process ended by a fault, or couldn't begin."""
        self.unwell, self.faults = True, self.faults + 1
        self.cluster.happened(self.name, why)
        self._begin_again()

    def _begin_again(self) -> None:
        """It begins again unless the node is stopped, or the cluster ends."""
        if not self.stopped and not self.cluster.ending:
            self.restarting = asyncio.create_task(self._again())

    async def _again(self) -> None:
        numbers = self.cluster.numbers
        wait = policy.doubled(self.restart, self.faults, numbers.restart_most) if self.faults else self.restart
        await asyncio.sleep(wait)
        self.restart = numbers.restart
        if not self.stopped and not self.cluster.ending:
            await self.start()


class Cluster:
    """The hosts of all nodes that are there, the wire between them, and the highest stamp that any node said."""

    def __init__(
        self,
        setting: Setting,
        numbers: policy.Numbers,
        wire: Wire,
        tell: Callable[[str, str], None] | None = None,
    ):
        self.setting, self.numbers, self.wire, self.tell = setting, numbers, wire, tell
        wire.deliver = self.deliver
        self.highest = 0
        self.ending = False
        self.ticks = 0  # of the clock, which has fewer of them where the machine has much else to do
        self.clock: asyncio.Task | None = None
        self.beginning: set[asyncio.Task] = set()
        self.hosts: dict[str, Host] = {}
        before = events_in(setting.folder)
        there = [path.stem for path in sorted(setting.folder.glob("*.journal")) if NAME.fullmatch(path.stem)]
        for name in dict.fromkeys([*opening_names(setting.header), *there, *before]):
            events = before.get(name, [])
            self.add(name, begun="up" in events).stopped = "retired" in events

    def happened(self, name: str, what: str) -> None:
        """Something became of a node's process."""
        write_event(self.setting.folder, name, what, self.highest)
        if self.tell:
            self.tell(name, what)

    async def start(self) -> None:
        """Begins all nodes of the header, and those that earlier runs of the folder left."""
        for host in self.hosts.values():
            if not host.stopped:
                self._begin(host)
        # A command of a host may wait for what never comes.
        await asyncio.wait(self.beginning, timeout=MOST_BEGINNING)
        self.clock = asyncio.create_task(self._tick())

    def add(self, name: str, begun: bool = False) -> Host:
        """A node that isn't there yet. Where a process of it was there in an earlier run, its journal isn't made again:
        a node whose journal is lost never begins under its name."""
        self.hosts[name] = host = Host(name, self)
        host.node.begun = begun
        return host

    def _begin(self, host: Host) -> None:
        task = asyncio.create_task(self.begin(host))
        self.beginning.add(task)
        task.add_done_callback(self.beginning.discard)

    async def begin(self, host: Host) -> None:
        await self.wire.open(host.name)
        await host.start()

    def deliver(self, source: str, target: str, letter: Letter) -> None:
        """A letter has come. A node that isn't there begins with the first message for it."""
        if target not in self.hosts and isinstance(letter, Sent) and not self.ending:
            self._begin(self.add(target))
        if target in self.hosts:
            self.hosts[target].arrived(source, letter)

    def retire(self, names: list[str]) -> None:
        """Ends the processes of nodes that no list has any more."""
        for name in names:
            if name in self.hosts and not self.hosts[name].stopped:
                self.hosts[name].stop("retired")
                self.wire.leave(name)

    async def _tick(self) -> None:
        while True:
            await asyncio.sleep(self.numbers.tick)
            now = time.monotonic()
            self.ticks += 1
            for host in list(self.hosts.values()):
                host.tick(now)

    async def finish(self) -> None:
        """Ends the clock, and each process once it has answered what came."""
        self.ending = True
        if self.clock:
            self.clock.cancel()
            with contextlib.suppress(asyncio.CancelledError):
                await self.clock
        for host in self.hosts.values():
            if host.node.making is not None:
                host.stopped = True
                host.node.give_up(host.node.making)
        await asyncio.gather(*self.beginning, *(host.restarting for host in self.hosts.values() if host.restarting))
        await asyncio.gather(*(host.node.finish() for host in self.hosts.values()))
        await self.wire.close()
