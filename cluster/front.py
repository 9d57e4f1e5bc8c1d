"""A port of Redis' protocol: the bytes of each connection go to a client node's process, and its replies come back.

What the bytes mean is the process' own, which is begun by `curpd node --resp`. docs/PARCELS.md has these parcels.
"""

import asyncio
import contextlib
import resource
from dataclasses import dataclass, field

import parcels
from hosts import Host

MOST_AT_ONCE = 1 << 16  # bytes of a connection that go to the process at once
MOST_UNREAD = 1 << 20  # bytes of replies that a connection may leave unread: one that leaves more is ended
MOST_CONNECTIONS = 1000  # at one client node
MOST_ENDING = 5.0  # seconds that a connection may take to read the last replies


@dataclass
class Connection:
    """One connection, with a client node of its own."""

    number: int
    host: Host
    life: int  # that of the process which knows it
    writer: asyncio.StreamWriter
    more: asyncio.Event = field(default_factory=asyncio.Event)
    ended: asyncio.Event = field(default_factory=asyncio.Event)

    async def serve(self, reader: asyncio.StreamReader) -> None:
        """Passes bytes on, as many as the process wants, until the client or the process ends the connection."""
        ending = asyncio.create_task(self.ended.wait())
        try:
            await self._until(ending, self._pass_on(reader))
            self._give(parcels.closed(self.number))
            await ending
        finally:
            ending.cancel()
            await end(self.writer)

    async def _pass_on(self, reader: asyncio.StreamReader) -> None:
        """Who doesn't read the replies gets nothing more passed on, and so holds up nobody else."""
        with contextlib.suppress(OSError):
            while data := await reader.read(MOST_AT_ONCE):
                self.more.clear()
                self._give(parcels.bytes_of(self.number, data))
                await self.more.wait()
                await self.writer.drain()

    def _give(self, parcel: bytes) -> None:
        """Gives the process a parcel. Where another process began, or the parcel is lost, the connection ends."""
        if self.life != self.host.lives or not self.host.give(parcel):
            self.ended.set()

    @staticmethod
    async def _until(ending: asyncio.Task, work) -> None:
        working = asyncio.create_task(work)
        await asyncio.wait([ending, working], return_when=asyncio.FIRST_COMPLETED)
        working.cancel()
        await asyncio.gather(working, return_exceptions=True)

    def reply(self, data: bytes) -> None:
        """Hands a reply over. Who doesn't read is ended, so that nobody waits for him."""
        if self.writer.transport.get_write_buffer_size() > MOST_UNREAD:
            self.writer.transport.abort()
        elif not self.writer.is_closing():
            self.writer.write(data)


async def end(writer: asyncio.StreamWriter) -> None:
    """Closes a connection once its last replies are read, and otherwise too."""
    writer.close()
    try:
        async with asyncio.timeout(MOST_ENDING):
            await writer.wait_closed()
    except OSError:
        writer.transport.abort()


class Front:
    """The connections of one client node."""

    def __init__(self, host: Host):
        self.host = host
        self.connections: dict[int, Connection] = {}
        self.next = 1
        host.listeners.append(self.heard)

    def has_room(self) -> bool:
        return self.host.is_up() and len(self.connections) < MOST_CONNECTIONS

    async def serve(self, reader: asyncio.StreamReader, writer: asyncio.StreamWriter) -> None:
        connection = self.connections[self.next] = Connection(self.next, self.host, self.host.lives, writer)
        self.next += 1
        await connection.serve(reader)

    def heard(self, said: parcels.Parcel) -> None:
        """The process said something. One that begins knows no connection, so those that there were are ended."""
        if isinstance(said, parcels.Stands):
            for connection in self.connections.values():
                connection.ended.set()
            self.connections.clear()
        if isinstance(said, parcels.Bytes | parcels.More | parcels.Close) and said.connection in self.connections:
            connection = self.connections[said.connection]
            if isinstance(said, parcels.Bytes):
                connection.reply(said.data)
            elif isinstance(said, parcels.More):
                connection.more.set()
            else:
                connection.ended.set()
                del self.connections[said.connection]


class RedisPort:
    """The port: its connections go to the client nodes in turn, those that have room."""

    def __init__(self, hosts: list[Host]):
        self.fronts = [Front(host) for host in hosts]
        self.count = 0
        self.server: asyncio.Server | None = None
        self.tasks: set[asyncio.Task] = set()

    async def open(self, port: int) -> None:
        """An OSError comes where the port is in use."""
        self.server = await asyncio.start_server(self._accept, "127.0.0.1", port)

    def _accept(self, reader: asyncio.StreamReader, writer: asyncio.StreamWriter) -> None:
        task = asyncio.create_task(self._serve(reader, writer))
        self.tasks.add(task)
        task.add_done_callback(self.tasks.discard)

    async def _serve(self, reader: asyncio.StreamReader, writer: asyncio.StreamWriter) -> None:
        self.count += 1
        turn = self.count % max(len(self.fronts), 1)
        having_room = [front for front in self.fronts[turn:] + self.fronts[:turn] if front.has_room()]
        # Half of the files that this program may have are for connections, those that are ending too.
        if having_room and len(self.tasks) <= resource.getrlimit(resource.RLIMIT_NOFILE)[0] // 2:
            await having_room[0].serve(reader, writer)
        else:
            writer.write(b"-ERR no room for a connection now\r\n")
            await end(writer)

    async def close(self) -> None:
        if self.server:
            self.server.close()
        for task in list(self.tasks):
            task.cancel()
        await asyncio.gather(*self.tasks, return_exceptions=True)
