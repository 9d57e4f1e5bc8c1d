"""How long a cluster takes to answer, and how much it answers in a second."""

import asyncio
import itertools
import selectors
import shutil
import time
from collections.abc import Iterator
from dataclasses import dataclass, replace
from enum import Enum
from pathlib import Path

from client import Client
from hosts import Cluster
from node import Setting
from policy import Numbers
from wires import Faults, Near

WARM = 0.5  # seconds that aren't counted


class Asked(Enum):
    """What is asked for, each time of a key of its own, and what each answer waits for."""

    ONE_ROUND_TRIP = "update, one round trip"
    TWO_ROUND_TRIPS = "update, two round trips"
    READ = "read, one round trip"

    def command(self, key: str) -> list:
        return ["get", key] if self is Asked.READ else ["put", key, "31"]


@dataclass(frozen=True)
class Load:
    """A cluster, and how much is asked of it at once."""

    curpd: str
    folder: Path
    f: int = 1
    clients: int = 1
    pending: int = 1  # of each client
    delay: float = 0.0  # milliseconds that each letter takes longer
    syncs: bool = True  # whether masters begin rounds of their own accord
    seconds: float = 3.0

    def cluster(self, asked: Asked) -> Cluster:
        header = {"clients": self.clients, "f": self.f, "fast": asked is not Asked.TWO_ROUND_TRIPS, "parts": 1}
        header |= {"protocol": 2, "sets": 1024, "ways": 16}
        numbers = Numbers() if self.syncs else replace(Numbers(), sync_updates=0, collect_updates=0)
        return Cluster(Setting(self.curpd, header, self.folder), numbers, Near(0, Faults(delay=self.delay / 1000)))


@dataclass(frozen=True)
class Times:
    """The latencies of what was answered, in milliseconds, sorted."""

    sorted: list[float]
    seconds: float

    def a_second(self) -> float:
        return len(self.sorted) / self.seconds

    def share(self, hundredth: int) -> float:
        """The latency that so many hundredths don't exceed."""
        return self.sorted[min(len(self.sorted) * hundredth // 100, len(self.sorted) - 1)] if self.sorted else 0.0


Answered = tuple[float, float]  # when, and how long it took


async def ask(client: Client, keys: Iterator[int], asked: Asked, until: float, times: list[Answered]) -> None:
    """One request after the other."""
    while time.perf_counter() < until:
        begun = time.perf_counter()
        await client.invoke(asked.command(f"{next(keys):08x}"))
        now = time.perf_counter()
        times.append((now, now - begun))


async def work(load: Load, asked: Asked) -> Times:
    cluster = load.cluster(asked)
    clients = [Client(cluster.hosts[f"C{number}"]) for number in range(1, load.clients + 1)]
    await cluster.start()
    await asyncio.gather(*(client.invoke(["get", "00"]) for client in clients))
    begun = time.perf_counter()
    times, keys = [], itertools.count()
    until = begun + WARM + load.seconds
    asking = [client for client in clients for _ in range(load.pending)]
    await asyncio.gather(*(ask(client, keys, asked, until, times) for client in asking))
    await cluster.finish()
    counted = [took * 1000 for at, took in times if begun + WARM < at <= until]
    return Times(sorted(counted), load.seconds)


def measure(load: Load, asked: Asked) -> Times:
    """Runs a cluster for it, whose folder is made anew and goes at the end."""
    shutil.rmtree(load.folder, ignore_errors=True)
    load.folder.mkdir(parents=True)
    # A wait of the loop is as exact as a select is, which a poll isn't.
    with asyncio.Runner(loop_factory=lambda: asyncio.SelectorEventLoop(selectors.SelectSelector())) as runner:
        times = runner.run(work(load, asked))
    shutil.rmtree(load.folder)
    return times
