"""Wires: how letters come from one host to another."""

import asyncio
import contextlib
import random
from collections.abc import Callable, Coroutine
from dataclasses import dataclass, replace

import parcels
from hosts import Alive, Letter, Probe
from node import NAME

Deliver = Callable[[str, str, Letter], None]


# ---- within one process


@dataclass(frozen=True)
class Faults:
    """What becomes of a letter, by chance (each a share of 1), and how long it may take, in seconds."""

    loss: float = 0.0
    repetition: float = 0.0
    late: float = 0.0  # letters that take up to `most_late`: they come behind many others
    most_late: float = 0.0
    delay: float = 0.0  # what every letter takes
    jitter: float = 0.0  # and up to so much more


class Near:
    """Hands letters over within this process, with faults by chance, which each pair of hosts has of its own."""

    def __init__(self, seed: int = 0, faults: Faults = Faults()):
        self.seed, self.faults = seed, faults
        self.deliver: Deliver | None = None
        self.chances: dict[tuple[str, str], random.Random] = {}
        self.cut: set[str] = set()  # hosts that no letter reaches or leaves
        self.counts = {"carried": 0, "lost": 0, "repeated": 0, "late": 0}
        self.closed = False

    async def open(self, name: str) -> None:
        pass

    def carry(self, source: str, target: str, letter: Letter) -> None:
        pair = source, target
        chance = self.chances.setdefault(pair, random.Random(f"{self.seed} {source} {target}"))
        faults = self.faults
        self.counts["carried"] += 1
        if self.cut & {source, target} or chance.random() < faults.loss:
            self.counts["lost"] += 1
            return
        self._send(pair, letter, chance)
        if chance.random() < faults.repetition:
            self.counts["repeated"] += 1
            self._send(pair, letter, chance)

    def _send(self, pair: tuple[str, str], letter: Letter, chance: random.Random) -> None:
        faults = self.faults
        wait = faults.delay + faults.jitter * chance.random()
        if chance.random() < faults.late:
            self.counts["late"] += 1
            wait += faults.most_late * chance.random()
        loop = asyncio.get_running_loop()
        if wait:
            loop.call_later(wait, self._bring, *pair, letter)
        else:
            loop.call_soon(self._bring, *pair, letter)

    def _bring(self, source: str, target: str, letter: Letter) -> None:
        if not self.closed:
            self.deliver(source, target, letter)

    def leave(self, name: str) -> None:
        pass

    def heal(self) -> None:
        """No letter is lost, repeated or late any more. Those that are under way come when they would."""
        self.cut.clear()
        self.faults = replace(self.faults, loss=0.0, repetition=0.0, late=0.0)

    async def close(self) -> None:
        self.closed = True


# ---- over TCP

MOST_WAITING = 8 << 20  # bytes that wait for a connection: what comes beyond is lost
AGAIN = 0.1  # seconds until a connection that failed is made again
MOST_NAMING = 5.0  # seconds in which whoever connects has to say its name


def to_bytes(letter: Letter) -> bytes:
    """A letter on a connection: a message as its sender's process said it, or a probe or its answer as one byte."""
    content = letter.content if isinstance(letter, parcels.Sent) else b"?" if isinstance(letter, Probe) else b"!"
    return parcels.parcel(content)


def from_bytes(content: bytes) -> Letter:
    if content in (b"?", b"!"):
        return Probe() if content == b"?" else Alive()
    said = parcels.read(content)
    if not isinstance(said, parcels.Sent):
        raise parcels.Garbled(f"no letter: {type(said).__name__}")
    return said


class Connection:
    """The connection of a pair of hosts, from one of its ends. The host with the lower name connects, and again."""

    def __init__(self, own: str, other: str, deliver: Deliver):
        self.own, self.other, self.deliver = own, other, deliver
        self.writer: asyncio.StreamWriter | None = None

    def send(self, letter: Letter) -> None:
        """Sends a letter, if there is a connection, and the other end reads."""
        writer = self.writer
        if writer and writer.transport.get_write_buffer_size() <= MOST_WAITING:
            writer.write(to_bytes(letter))

    async def connect(self, port_of: Callable[[str], int]) -> None:
        while True:
            with contextlib.suppress(OSError):
                reader, writer = await asyncio.open_connection("127.0.0.1", port_of(self.other))
                writer.write(parcels.parcel(self.own.encode()))
                await self.serve(reader, writer)
            await asyncio.sleep(AGAIN)

    async def serve(self, reader: asyncio.StreamReader, writer: asyncio.StreamWriter) -> None:
        """Hands over what comes, until the connection ends."""
        self.writer = writer
        came = bytearray()
        try:
            while data := await reader.read(1 << 16):
                came += data
                for content in parcels.cut(came):
                    self.deliver(self.other, self.own, from_bytes(content))
        except (OSError, parcels.Garbled):
            return
        finally:
            writer.close()
            if self.writer is writer:
                self.writer = None

    def close(self) -> None:
        """Ends the connection. The end that connects does so again, unless its host is gone."""
        if self.writer:
            self.writer.close()


class Tcp:
    """A port of the loopback for each host, and one connection for each pair of hosts that have something to say."""

    def __init__(self, delay: float = 0.0):
        self.deliver: Deliver | None = None
        self.delay = delay
        self.servers: dict[str, asyncio.Server] = {}
        self.connections: dict[tuple[str, str], Connection] = {}
        self.tasks: set[asyncio.Task] = set()
        self.connecting: dict[tuple[str, str], asyncio.Task] = {}
        self.left: set[str] = set()

    def port_of(self, name: str) -> int:
        """The port of a host; none that is open where it isn't there."""
        return self.servers[name].sockets[0].getsockname()[1] if name in self.servers else 1

    async def open(self, name: str) -> None:
        if name not in self.servers:
            self.servers[name] = await asyncio.start_server(
                lambda reader, writer: self._run(self._accept(name, reader, writer)), "127.0.0.1", 0
            )

    def _run(self, work: Coroutine) -> asyncio.Task:
        task = asyncio.create_task(work)
        self.tasks.add(task)
        task.add_done_callback(self.tasks.discard)
        return task

    async def _accept(self, name: str, reader: asyncio.StreamReader, writer: asyncio.StreamWriter) -> None:
        """A host connects: its name is the first parcel."""
        other = ""
        with contextlib.suppress(OSError, TimeoutError, asyncio.IncompleteReadError, UnicodeDecodeError):
            async with asyncio.timeout(MOST_NAMING):
                size = int.from_bytes(await reader.readexactly(4), "big")
                other = (await reader.readexactly(min(size, 16))).decode()
        if NAME.fullmatch(other) and name not in self.left:
            await self._connection(name, other).serve(reader, writer)
        writer.close()

    def _connection(self, own: str, other: str) -> Connection:
        return self.connections.setdefault((own, other), Connection(own, other, self._bring))

    def carry(self, source: str, target: str, letter: Letter) -> None:
        if source == target:
            asyncio.get_running_loop().call_soon(self._bring, source, target, letter)
            return
        if self.left & {source, target}:
            return
        if (source, target) not in self.connections:
            low, high = sorted((source, target))
            self.connecting[low, high] = self._run(self._connection(low, high).connect(self.port_of))
            self._connection(high, low)
            if target not in self.servers:
                # A node that isn't there yet begins with this: so the first message isn't lost.
                self._bring(source, target, letter)
                return
        self.connections[source, target].send(letter)

    def _bring(self, source: str, target: str, letter: Letter) -> None:
        if self.delay:
            asyncio.get_running_loop().call_later(self.delay, self.deliver, source, target, letter)
        else:
            self.deliver(source, target, letter)

    def leave(self, name: str) -> None:
        """Closes the port of a host and its connections: nothing is carried to it or from it any more."""
        self.left.add(name)
        if name in self.servers:
            self.servers.pop(name).close()
        for pair in [pair for pair in self.connections if name in pair]:
            self.connections.pop(pair).close()
            if pair in self.connecting:
                self.connecting.pop(pair).cancel()

    async def close(self) -> None:
        for server in self.servers.values():
            server.close()
        for task in list(self.tasks):
            task.cancel()
        await asyncio.gather(*self.tasks, return_exceptions=True)
