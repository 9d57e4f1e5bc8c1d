"""When who runs a cluster gives the orders that the protocol leaves to a clock, with all numbers.

Safety never depends on any of it: a node does with an order at any time what docs/RULES.md says. What each class here
sees is what goes in and out at its own node; the manager's sees also which nodes answered its probes.
"""

import math
from dataclasses import dataclass, field

import parcels
from parcels import Sent


@dataclass(frozen=True)
class Numbers:
    """Seconds, where nothing else is said."""

    tick: float = 0.005  # how often it is looked what is due
    retry: float = 0.2  # a request that wasn't sent for so long is retried; then after twice as long, and so on
    retry_most: float = 1.6  # but at least so often
    fetch: float = 0.05  # a client asks for the configuration no sooner again
    sync_updates: int = 8  # a master begins a round after so many answers that no backup has yet; never where it is 0
    sync: float = 0.02  # or so long after the first of them
    again: float = 0.1  # what a master waits for is asked for again after so long, then twice as long, and so on
    again_most: float = 0.8  # but at least so often
    collect_updates: int = 32  # witnesses drop what is stored after so many answers; never where it is 0
    collect: float = 0.05  # or so long after the last collection, once all is stored
    nudge: float = 0.25  # the manager sends again what its work waits for
    nudge_steady: float = 1.0  # the same where it has no work
    probe: float = 0.2  # the manager's host asks each host whether its node is up
    gone: float = 1.0  # a node from which no answer came for so long is gone
    ordered: float = 0.5  # a partition gets no second order before the first may have shown
    work_most: float = 3.0  # a recovery or a replacement that takes longer is begun again, then after twice as long
    patience: int = 4  # so often it is twice as long, and how long a node that it needs may be away too
    retire: float = 4.0  # a node that no list has any more is ended after so long
    restart: float = 0.2  # a process that ended is begun again after so long; by a fault, then after twice as long
    restart_most: float = 3.2  # but at least so often


def doubled(first: float, times: int, most: float) -> float:
    return min(first * 2 ** min(times, 30), most)


# ---- a client


@dataclass
class Waiting:
    """A pending request: when it was last sent, and how often it was retried since something was new."""

    since: float
    tries: int = 0


class ClientChores:
    """Retries what wasn't sent for a while, and asks for the configuration where the one that it has may be old."""

    OLD = {1, 2, 3, 7}  # refusals: version, epoch, not-owner, switching

    def __init__(self, numbers: Numbers):
        self.numbers = numbers
        self.waiting: dict[int, Waiting] = {}
        self.serial = 0
        self.wants_fetch = True
        self.fetched = -math.inf

    def heard(self, said: parcels.Parcel, now: float) -> None:
        if isinstance(said, Sent):
            if said.tag in parcels.ASKS:
                number = said.request()[1]
                self.waiting.setdefault(number, Waiting(now)).since = now
        elif isinstance(said, parcels.Completed):
            self.waiting.pop(said.number, None)
        elif isinstance(said, parcels.Pending):
            self.waiting[said.number] = Waiting(-math.inf)
        elif isinstance(said, parcels.Stands):
            self.waiting, self.serial, self.wants_fetch = {}, 0, True

    def arrived(self, message: Sent, now: float) -> None:
        if message.tag == parcels.CONFIGURATION:
            serial = parcels.number_at(message.fields(), 0, 4)
            if serial > self.serial:
                self.serial = serial
                self.waiting = {number: Waiting(-math.inf) for number in self.waiting}
        elif message.tag == parcels.REFUSE and message.fields()[8] in self.OLD:
            self.wants_fetch = True

    def due(self, now: float) -> list[bytes]:
        orders = []
        for number, waiting in sorted(self.waiting.items()):
            if now - waiting.since >= doubled(self.numbers.retry, waiting.tries, self.numbers.retry_most):
                orders.append(parcels.retry(number))
                self.wants_fetch |= waiting.since > -math.inf
                waiting.since, waiting.tries = now, waiting.tries + 1
        if self.wants_fetch and now - self.fetched >= self.numbers.fetch:
            orders.append(parcels.FETCH_ORDER)
            self.wants_fetch, self.fetched = False, now
        return orders


# ---- a master


class MasterChores:
    """Begins rounds and collections, and asks again for what the master waits for.

    A master that isn't of the opening is ordered nothing before it shows that it took something: a message begins it.
    """

    WAITS = {parcels.APPEND, parcels.FENCE, parcels.FREEZE, parcels.RECOVERED, parcels.PREPARED}
    ANSWERS = {parcels.APPENDED: parcels.APPEND, parcels.FENCE_ANSWER: parcels.FENCE}
    ANSWERS |= {parcels.FROZEN_ANSWER: parcels.FREEZE}

    def __init__(self, numbers: Numbers, begun: bool):
        self.numbers, self.begun = numbers, begun
        self.open: dict[tuple[int, str], int] = {}  # the tag and the addressee of what isn't answered, with its round
        self.asked = -math.inf  # when it was last sent, or a round was ordered
        self.tries = 0
        self.unsynced = 0  # answers since the last round
        self.unsynced_since = -math.inf
        self.uncollected = 0  # answers since the last collection
        self.collected = -math.inf
        self.superseded = False

    def heard(self, said: parcels.Parcel, now: float) -> None:
        if isinstance(said, parcels.Stands):
            # What went out before may not have gone far.
            self.unsynced, self.unsynced_since = self.unsynced + 1, now
            self.begun = self.begun or said.items > 0
        if not isinstance(said, Sent):
            return
        self.begun = True
        if said.tag in self.WAITS:
            self.open[said.tag, said.addressee] = self.round_of(said)
            self.asked = now
            if said.tag == parcels.APPEND:
                self.unsynced = 0
        elif said.tag in (parcels.REPLY, parcels.WORTH):
            self.uncollected += 1
            if said.tag == parcels.REPLY and said.fields()[8] == 0:
                self.unsynced_since = self.unsynced_since if self.unsynced else now
                self.unsynced += 1

    @staticmethod
    def round_of(message: Sent) -> int:
        """The round of an append, or of the answer to one; of others 0."""
        place = {parcels.APPEND: 12, parcels.APPENDED: 4}.get(message.tag)
        return parcels.number_at(message.fields(), place, 8) if place else 0

    def arrived(self, message: Sent, now: float) -> None:
        if message.tag == parcels.ADOPTED:
            # Who isn't in the lists any more never answers: the next round asks those that are.
            self.open.clear()
            self.unsynced, self.unsynced_since = self.unsynced + 1, now
        asked = self.ANSWERS.get(message.tag)
        if asked is None:
            return
        kind = message.fields()[12 if asked == parcels.APPEND else 4] if asked != parcels.FREEZE else 0
        if kind == 1:  # fenced: there is a later master
            self.superseded = True
            self.open.clear()
        elif kind == 0 and self.open.get((asked, message.sender), math.inf) <= self.round_of(message):
            del self.open[asked, message.sender]
            self.tries = 0

    def due(self, now: float) -> list[bytes]:
        if self.superseded or not self.begun:
            return []
        orders = [parcels.SYNC_ORDER] if self._sync_is_due(now) else []
        if self._collection_is_due(now):
            self.uncollected, self.collected = 0, now
            orders.append(parcels.COLLECT_ORDER)
        return orders

    def _sync_is_due(self, now: float) -> bool:
        if self.open and now - self.asked >= doubled(self.numbers.again, self.tries, self.numbers.again_most):
            self.asked, self.tries = now, self.tries + 1
            return True
        if not self.numbers.sync_updates or not self.unsynced:
            return False
        if self.unsynced >= self.numbers.sync_updates or now - self.unsynced_since >= self.numbers.sync:
            self.unsynced, self.asked = 0, now
            return True
        return False

    def _collection_is_due(self, now: float) -> bool:
        if not self.numbers.collect_updates or not self.uncollected:
            return False
        quiet = not self.open and not self.unsynced
        waited = now - self.collected >= self.numbers.collect
        return self.uncollected >= self.numbers.collect_updates or (quiet and waited)


# ---- the manager


@dataclass(frozen=True)
class Partition:
    """A partition's nodes, as of one version."""

    epoch: int
    version: int
    master: str
    backups: tuple[str, ...]
    witnesses: tuple[str, ...]

    def names(self) -> set[str]:
        return {self.master, *self.backups, *self.witnesses}


@dataclass(frozen=True)
class Work:
    """A recovery or a replacement that isn't finished: what will be, which nodes it needs, and when it began."""

    plan: Partition
    needs: frozenset[str]
    since: float


@dataclass
class View:
    """The partitions as the manager has them, from what it says."""

    adopted: dict[int, Partition]
    work: dict[int, Work] = field(default_factory=dict)
    serial: int = 1
    named: dict[str, tuple[int, int]] = field(default_factory=dict)  # the partition and the version that a node is of

    @staticmethod
    def at_opening(header: dict) -> "View":
        f, found = header["f"], {}
        for part in range(1, header["parts"] + 1):
            numbers = range((part - 1) * f + 1, part * f + 1)
            backups, witnesses = (tuple(f"{kind}{number}" for number in numbers) for kind in "BW")
            found[part] = Partition(1, 1, f"M{part}", backups, witnesses)
        return View(found, named={name: (part, 1) for part, lists in found.items() for name in lists.names()})

    def names(self) -> set[str]:
        """All nodes that are in the lists, or will be."""
        parts = [*self.adopted.values(), *(work.plan for work in self.work.values())]
        return set().union(*(part.names() for part in parts))

    def superseded(self) -> set[str]:
        """The nodes that will be in no list again: later lists than theirs are adopted, and don't have them.

        What was ordered behind the adopted lists isn't among them, even where it seems to be given up: the manager may
        have adopted it, and been killed before it said so.
        """
        return {
            name
            for name, (part, version) in self.named.items()
            if version < self.adopted[part].version and name not in self.adopted[part].names()
        }

    def heard(self, message: Sent, now: float) -> None:
        if message.tag == parcels.RECOVER:
            self._recover(message, now)
        elif message.tag == parcels.PREPARE:
            self._prepare(message, now)
        elif message.tag == parcels.ADOPTED:
            self._adopted(*(parcels.number_at(message.fields(), place, 4) for place in (0, 8)))
        elif message.tag == parcels.CONFIGURATION:
            self._configuration(message)

    def _begins(self, part: int, plan: Partition, needs: set[str], now: float) -> None:
        work = self.work.get(part)
        newest = max(self.adopted[part].version, work.plan.version if work else 0)
        if plan.version > newest:
            self.work[part] = Work(plan, frozenset(needs), now)
        for name in plan.names():
            self.named.setdefault(name, (part, plan.version))

    def _recover(self, message: Sent, now: float) -> None:
        told = message.message()
        plan = Partition(told["epoch"], told["version"], message.addressee, *self._lists(told))
        self._begins(told["part"], plan, plan.names() | {told["backup"], told["witness"]}, now)

    def _prepare(self, message: Sent, now: float) -> None:
        told = message.message()
        for part, old in self.adopted.items():
            if old.master == message.addressee:
                plan = Partition(old.epoch, told["version"], old.master, *self._lists(told))
                self._begins(part, plan, plan.names(), now)

    @staticmethod
    def _lists(told: dict) -> tuple[tuple[str, ...], tuple[str, ...]]:
        return tuple(told["backups"]), tuple(told["witnesses"])

    def _adopted(self, part: int, version: int) -> None:
        work = self.work.get(part)
        if work and work.plan.version == version:
            self.adopted[part] = work.plan
            del self.work[part]

    def _configuration(self, message: Sent) -> None:
        """Its serial tells whether it is new: who begins to look at a manager has missed what it did."""
        if parcels.number_at(message.fields(), 0, 4) <= self.serial:
            return
        told = message.message()
        self.serial = told["serial"]
        for part in told["parts"]:
            new = Partition(part["epoch"], part["version"], part["master"], *self._lists(part))
            self.adopted[part["part"]] = new
            for name in new.names():
                self.named.setdefault(name, (part["part"], new.version))
            work = self.work.get(part["part"])
            if work and work.plan.version <= new.version:
                del self.work[part["part"]]


class ManagerChores:
    """Nudges, recovers where a master is gone, and replaces a backup or a witness that is gone."""

    def __init__(self, numbers: Numbers, header: dict):
        self.numbers = numbers
        self.view = View.at_opening(header)
        self.answered: dict[str, float] = {}  # when each node that is probed last answered
        self.probed = -math.inf
        self.nudged = -math.inf
        self.ordered: dict[int, float] = {}
        self.failed: dict[int, int] = {}  # how often the work on a partition was begun again
        self.since: dict[str, float] = {}  # when each superseded node was first seen as such

    def heard(self, said: parcels.Parcel, now: float) -> None:
        if isinstance(said, Sent):
            self.view.heard(said, now)

    def arrived(self, message: Sent, now: float) -> None:
        """What it is told shows in what it says."""

    def alive(self, name: str, now: float) -> None:
        """A node answered a probe."""
        self.answered[name] = now

    def to_probe(self, now: float) -> list[str]:
        """The nodes that are to be asked whether they are up."""
        if now - self.probed < self.numbers.probe:
            return []
        self.probed = now
        names = sorted(self.view.names())
        self.answered = {name: self.answered.get(name, now) for name in names}
        return names

    def is_gone(self, name: str, now: float, times: int = 0) -> bool:
        return now - self.answered.get(name, now) > self.numbers.gone * 2 ** min(times, self.numbers.patience)

    def to_retire(self, now: float) -> list[str]:
        """The nodes whose processes may end."""
        self.since = {name: self.since.get(name, now) for name in self.view.superseded()}
        return sorted(name for name, since in self.since.items() if now - since > self.numbers.retire)

    def due(self, now: float) -> list[bytes]:
        orders = []
        if now - self.nudged >= (self.numbers.nudge if self.view.work else self.numbers.nudge_steady):
            self.nudged = now
            orders.append(parcels.NUDGE_ORDER)
        for part in sorted(self.view.adopted):
            if now - self.ordered.get(part, -math.inf) >= self.numbers.ordered:
                order = self._repair(part, now)
                if order:
                    self.ordered[part] = now
                    orders.append(order)
        return orders

    def _repair(self, part: int, now: float) -> bytes | None:
        """The order that a partition needs, if it needs one."""
        adopted, work = self.view.adopted[part], self.view.work.get(part)
        failed = self.failed.get(part, 0)
        if work:
            late = now - work.since > doubled(self.numbers.work_most, min(failed, self.numbers.patience), math.inf)
            fails = late or any(self.is_gone(name, now, failed) for name in work.needs)
            order = self._recover(part, now) if fails else None
            self.failed[part] = failed + (order is not None)
            return order
        self.failed[part] = 0
        if self.is_gone(adopted.master, now):
            return self._recover(part, now)
        for kind, names in (("B", adopted.backups), ("W", adopted.witnesses)):
            for place, name in enumerate(names, 1):
                if self.is_gone(name, now):
                    return parcels.replace(part, kind, place)
        return None

    def _recover(self, part: int, now: float) -> bytes | None:
        """A recovery from a backup and a witness that are there; none where there is no such pair."""
        adopted = self.view.adopted[part]
        places = []
        for names in (adopted.backups, adopted.witnesses):
            places += [[place for place, name in enumerate(names, 1) if not self.is_gone(name, now)]]
        backups, witnesses = places
        return parcels.recover(part, backups[0], witnesses[0]) if backups and witnesses else None


class KeeperChores:
    """A backup or a witness is ordered nothing."""

    def heard(self, said: parcels.Parcel, now: float) -> None:
        pass

    def arrived(self, message: Sent, now: float) -> None:
        pass

    def due(self, now: float) -> list[bytes]:
        return []


Chores = ClientChores | MasterChores | ManagerChores | KeeperChores


def chores_of(name: str, numbers: Numbers, header: dict) -> Chores:
    """The chores of a node, by its kind."""
    if name == "G":
        return ManagerChores(numbers, header)
    if name[0] == "C":
        return ClientChores(numbers)
    if name[0] == "M":
        return MasterChores(numbers, begun=int(name[1:]) <= header["parts"])
    return KeeperChores()
