"""Whoever asks the cluster something: commands go in, answers come out, whatever becomes of the client's process."""

import asyncio
from collections import deque
from dataclasses import dataclass, field

import parcels
from hosts import Host

MOST_PENDING = 8  # a client node refuses what comes beyond


class Rejected(Exception):
    """The client node refuses a command, by the number that docs/RULES.md has of `invoke`, or 0 where it is none."""


@dataclass(eq=False)
class Call:
    """A command, and its answer to come."""

    command: list
    order: bytes
    answer: asyncio.Future = field(default_factory=lambda: asyncio.get_running_loop().create_future())
    input: int = 0  # its number among the inputs of the process
    number: int = 0  # that of the request, once it is known


class Watcher:
    """Hears of each call. A recorder is one."""

    def invoked(self, client: int, call: Call) -> None:
        """The command is about to be given to the client node; again, where the process lost it before it was kept."""

    def completed(self, client: int, call: Call, answer: list) -> None: ...


class Client:
    """Invokes commands at one client node, each once and in their order, at most eight at a time.

    A request gets its number where the client node takes it, so it is known from what the node says: the requests of a
    client are numbered in the order in which they were given, but for those that are refused. A process that begins
    says which requests its journal has; what was given to the process before and isn't among them was lost, and is
    given again.
    """

    def __init__(self, host: Host, watcher: Watcher | None = None):
        self.host, self.client = host, int(host.name[1:])
        self.watcher = watcher or Watcher()
        self.waiting: deque[Call] = deque()  # not given yet
        self.given: deque[Call] = deque()  # given, and not numbered yet
        self.numbered: dict[int, Call] = {}  # not completed yet
        self.highest = 0  # the number of the last request
        self.life = 0  # that of the process which has said all of its journal
        host.listeners.append(self.heard)

    async def invoke(self, command: list) -> list:
        """The answer to a command. A ValueError comes where it is none."""
        call = Call(command, parcels.invoke(command))
        self.waiting.append(call)
        self._give()
        return await call.answer

    def pending(self) -> int:
        return len(self.given) + len(self.numbered)

    def _give(self) -> None:
        while self.waiting and self.life == self.host.lives and self.pending() < MOST_PENDING:
            call = self.waiting[0]
            self.watcher.invoked(self.client, call)
            call.input = self.host.order(call.order)
            if not call.input:
                return
            self.given.append(self.waiting.popleft())

    def heard(self, said: parcels.Parcel) -> None:
        """The client's process said something."""
        if isinstance(said, parcels.Pending):
            self._number(said.number)
        elif isinstance(said, parcels.Completed):
            self._number(said.number)
            self._complete(said)
        elif not isinstance(said, parcels.Stands):
            self._greeted()
            self._in_turn(said)
        self._give()

    def _greeted(self) -> None:
        """What else a process says is an answer to an input, so it has said all of its journal. Until then it is given
        nothing: what was given and isn't numbered was given to those before it, and is lost."""
        if self.life < self.host.lives:
            self.life = self.host.lives
            self.waiting.extendleft(reversed(self.given))
            self.given.clear()

    def _in_turn(self, said: parcels.Parcel) -> None:
        if isinstance(said, parcels.Refused | parcels.NoParcel):
            for call in [call for call in self.given if call.input == said.input]:
                self.given.remove(call)
                if not call.answer.done():
                    call.answer.set_exception(Rejected(said.number if isinstance(said, parcels.Refused) else 0))
        elif isinstance(said, parcels.Sent) and said.tag in parcels.ASKS:
            self._number(said.request()[1])

    def _number(self, number: int) -> None:
        """A request of that number was taken."""
        while self.highest < number:
            self.highest += 1
            if self.given:
                call = self.given.popleft()
                call.number = self.highest
                self.numbered[self.highest] = call

    def _complete(self, said: parcels.Completed) -> None:
        call = self.numbered.pop(said.number, None)
        if call:
            self.watcher.completed(self.client, call, said.answer)
            if not call.answer.done():
                call.answer.set_result(said.answer)
