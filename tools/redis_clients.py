#!/usr/bin/env python3
"""Talks to a port of Redis' protocol as its clients do, and compares each reply with what Redis says.

    tools/redis_clients.py PORT [--short]              a port of this machine, as `cluster/run --redis-port PORT` opens
    tools/redis_clients.py --curpd CURPD [--short]     a port of a cluster that it runs itself, by that program

The bytes are those that redis-cli with --pipe, redis-py and redis-benchmark send: they were taken from their sources,
as what Redis replies was from the protocol's description. So it needs none of these programs. Redis' errors have other
texts, so an error is compared by its first word, ERR. It ends with 1 where something else comes than is wanted.
"""

import argparse
import asyncio
import contextlib
import os
import random
import socket
import sys
import tempfile
import time
from collections import Counter
from collections.abc import Awaitable, Callable
from pathlib import Path

TOP = Path(__file__).resolve().parent.parent
LIMIT = 60  # seconds for any reply
MAGIC = 20  # bytes that redis-cli --pipe wants to hear again
LONGEST_VALUE = 128
SLOW = 1.5  # seconds in which a slow reader reads nothing


class Wrong(Exception):
    """Something else came than is wanted."""


class ReplyError(bytes):
    """An error of the protocol, by its text."""


def packed(*words: bytes | str | int) -> bytes:
    """A request, as every client packs it: an array of bulk strings."""
    texts = [word if isinstance(word, bytes) else str(word).encode() for word in words]
    return b"*%d\r\n" % len(texts) + b"".join(b"$%d\r\n%s\r\n" % (len(text), text) for text in texts)


class Connection:
    """One connection, with a reader of replies."""

    def __init__(self, reader: asyncio.StreamReader, writer: asyncio.StreamWriter):
        self.reader, self.writer = reader, writer

    @classmethod
    async def to(cls, port: int) -> "Connection":
        return cls(*await asyncio.open_connection("127.0.0.1", port))

    async def send(self, data: bytes) -> None:
        self.writer.write(data)
        await self.writer.drain()

    async def reply(self) -> bytes | int | str | None:
        """The next reply: bytes, a number, a simple string, none, or a `ReplyError`."""
        async with asyncio.timeout(LIMIT):
            line = await self.reader.readuntil(b"\r\n")
            kind, text = line[:1], line[1:-2]
            if kind == b"$" and text != b"-1":
                data = await self.reader.readexactly(int(text) + 2)
                return data[:-2]
        match kind:
            case b"+":
                return text.decode()
            case b"-":
                return ReplyError(text)
            case b":":
                return int(text)
            case b"$":
                return None
        raise Wrong(f"no reply of the protocol: {line!r}")

    async def replies(self, count: int) -> list:
        return [await self.reply() for _ in range(count)]

    async def ask(self, *words: bytes | str | int) -> bytes | int | str | None:
        await self.send(packed(*words))
        return await self.reply()

    async def wants(self, wanted, *words: bytes | str | int) -> None:
        same(" ".join(str(word)[:40] for word in words), await self.ask(*words), wanted)

    async def refuses(self, *words: bytes | str | int) -> None:
        """The request is replied to by an error."""
        must_be_error(" ".join(str(word)[:40] for word in words), await self.ask(*words))

    async def is_ended(self) -> bytes:
        """What comes until the other end closes the connection."""
        async with asyncio.timeout(LIMIT):
            return await self.reader.read()

    async def close(self) -> None:
        self.writer.close()
        with contextlib.suppress(ConnectionError):
            await self.writer.wait_closed()


@contextlib.asynccontextmanager
async def connected(port: int):
    connection = await Connection.to(port)
    try:
        yield connection
    finally:
        await connection.close()


def same(what: str, found, wanted) -> None:
    if found != wanted:
        raise Wrong(f"{what}: {found!r}, and {wanted!r} is wanted")


def must_be_error(what: str, found) -> None:
    if not isinstance(found, ReplyError) or found.split()[0] != b"ERR":
        raise Wrong(f"{what}: {found!r}, and an error is wanted")


# ---- redis-cli


async def pipe(port: int, data: bytes) -> Counter:
    """What `redis-cli --pipe` does with the bytes: sends them as they are, then an empty line and an ECHO of 20 random
    bytes, and reads replies until these bytes come. It gives how many replies there were, and how many errors."""
    magic = random.randbytes(MAGIC)
    async with connected(port) as connection:
        sending = asyncio.create_task(connection.send(data + b"\r\n*2\r\n$4\r\nECHO\r\n$20\r\n" + magic + b"\r\n"))
        told = Counter()
        while (reply := await connection.reply()) != magic:
            told["errors"] += isinstance(reply, ReplyError)
            told["replies"] += 1
        await sending
    return told


async def redis_cli_pipe(port: int, many: int) -> None:
    """redis-cli --pipe: its empty line ends nothing, and ECHO says that all was replied to."""
    same("nothing", await pipe(port, b""), Counter())
    commands = [packed("SET", f"pipe:{number % 50}", number) for number in range(many)]
    same("puts", await pipe(port, b"".join(commands)), Counter(replies=many, errors=0))
    wrong = [packed("GETS", "a"), packed("GET"), packed("SET", "k" * 33, "1")]
    mixed = commands[0] + b"".join(wrong) + commands[1]
    same("errors among them", await pipe(port, mixed), Counter(replies=5, errors=3))
    # A text file of commands may have empty lines too.
    same("empty lines", await pipe(port, b"\r\n\n\r\n".join(commands[:9])), Counter(replies=9, errors=0))
    async with connected(port) as connection:
        await connection.wants(str(many - 1).encode(), "GET", f"pipe:{(many - 1) % 50}")


async def redis_cli(port: int, many: int) -> None:
    """redis-cli as it is typed: COMMAND DOCS at its start, for which it takes an error, and words in either case."""
    async with connected(port) as connection:
        await connection.refuses("COMMAND", "DOCS")
        await connection.wants("OK", "set", "cli", "1")
        await connection.wants(b"1", "GET", "cli")
        await connection.wants(2, "aPPend", "cli", "2")
        await connection.wants(1, "del", "cli")
        await connection.wants(0, "del", "cli")
        await connection.wants(None, "get", "cli")
        await connection.wants(b"hello", "echo", "hello")


# ---- redis-py


class RedisPy:
    """The calls of `redis.Redis(protocol=2)` that a store of these commands has, as redis-py 5 packs them."""

    def __init__(self, connection: Connection):
        self.connection = connection

    @classmethod
    async def connect(cls, connection: Connection) -> "RedisPy":
        """What it sends by itself on connecting. It passes over the error of a server that doesn't know it."""
        for words in (("LIB-NAME", "redis-py"), ("LIB-VER", "5.0.8")):
            reply = await connection.ask("CLIENT", "SETINFO", *words)
            if reply != "OK":
                must_be_error("CLIENT SETINFO", reply)
        return cls(connection)

    async def call(self, *words: bytes | str | int):
        reply = await self.connection.ask(*words)
        if isinstance(reply, ReplyError):
            raise Wrong(f"{words}: {reply!r}")
        return reply

    async def set(self, key: str, value: bytes | str | int) -> bool:
        return await self.call("SET", key, value) == "OK"

    async def get(self, key: str) -> bytes | None:
        return await self.call("GET", key)

    async def append(self, key: str, value: bytes | str) -> int:
        return await self.call("APPEND", key, value)

    async def delete(self, key: str) -> int:
        return await self.call("DEL", key)

    async def incr(self, key: str) -> int:
        return await self.call("INCRBY", key, 1)

    async def setnx(self, key: str, value: bytes | str | int) -> bool:
        return await self.call("SETNX", key, value) == 1

    async def mset(self, pairs: dict) -> bool:
        return await self.call("MSET", *(word for pair in pairs.items() for word in pair)) == "OK"

    async def echo(self, text: str) -> bytes:
        return await self.call("ECHO", text)

    async def execute_command(self, *words: bytes | str | int):
        return await self.call(*words)

    async def pipeline(self, requests: list[tuple]) -> list:
        """`pipeline(transaction=False)`: all requests by one write, then all replies; errors stand among them."""
        await self.connection.send(b"".join(packed(*words) for words in requests))
        return await self.connection.replies(len(requests))


async def redis_py(port: int, many: int) -> None:
    """redis-py: what it sends on connecting, plain calls, and pipelines without a transaction."""
    async with connected(port) as connection:
        redis = await RedisPy.connect(connection)
        same("set", await redis.set("py:a", 1), True)
        same("get", await redis.get("py:a"), b"1")
        same("get of no value", await redis.get("py:none"), None)
        value = bytes(range(LONGEST_VALUE))
        same("set of any bytes", await redis.set("py:bytes", value), True)
        same("get of any bytes", await redis.get("py:bytes"), value)
        same("mset", await redis.mset({"py:b": "2", "py:c": "3"}), True)
        same("append", await redis.append("py:b", "22"), 3)
        same("get behind an append", await redis.get("py:b"), b"222")
        same("delete", [await redis.delete("py:b"), await redis.delete("py:b")], [1, 0])
        same("echo", await redis.echo("text"), b"text")
        await redis.delete("py:n")
        same("incr", [await redis.incr("py:n") for _ in range(3)], [1, 2, 3])
        same("INCR", await redis.execute_command("INCR", "py:n"), 4)
        for amount in (0, 2, -1, "1.5"):
            await connection.refuses("INCRBY", "py:n", amount)
        await connection.refuses("DECRBY", "py:n", 1)
        same("incr behind errors", await redis.incr("py:n"), 5)
        await redis.delete("py:new")
        same("setnx", [await redis.setnx("py:new", 1), await redis.setnx("py:new", 2)], [True, False])
        same("get behind setnx", await redis.get("py:new"), b"1")
        requests = [("SET", f"py:{number % 7}", number) for number in range(many)] + [("GETS", "a"), ("GET", "py:0")]
        told = await redis.pipeline(requests)
        same("puts of a pipeline", told[:many], ["OK"] * many)
        must_be_error("an unknown command in a pipeline", told[many])
        same("the last of a pipeline", told[-1], str((many - 1) // 7 * 7).encode())
    async with connected(port) as connection:
        # Its `protocol=3` asks this, and a server of version 2 replies an error.
        await connection.refuses("HELLO", "3")
        await connection.wants(b"1", "GET", "py:a")


# ---- redis-benchmark


async def benchmark_client(port: int, request: bytes, rounds: int) -> list:
    """One of its connections: 16 times the same request by one write, all replies, and so on."""
    told = []
    async with connected(port) as connection:
        for _ in range(rounds):
            await connection.send(request * 16)
            told += await connection.replies(16)
    return told


async def benchmark(port: int, request: bytes, rounds: int) -> list:
    clients = [benchmark_client(port, request, rounds) for _ in range(50)]
    return [reply for told in await asyncio.gather(*clients) for reply in told]


async def redis_benchmark(port: int, many: int) -> None:
    """redis-benchmark -t set,get,incr -c 50 -P 16: fifty connections, each with sixteen requests on their way."""
    async with connected(port) as connection:
        # It asks for these two by one write, and goes on where they are errors.
        await connection.send(packed("CONFIG", "GET", "save") + packed("CONFIG", "GET", "appendonly"))
        for reply in await connection.replies(2):
            must_be_error("CONFIG GET", reply)
        await connection.ask("DEL", "counter:__rand_int__")
    rounds = max(1, many // 200)
    count = 50 * 16 * rounds
    same("set", await benchmark(port, packed("SET", "key:__rand_int__", "VXK"), rounds), ["OK"] * count)
    same("get", await benchmark(port, packed("GET", "key:__rand_int__"), rounds), [b"VXK"] * count)
    counts = await benchmark(port, packed("INCR", "counter:__rand_int__"), rounds)
    same("incr", sorted(counts), list(range(1, count + 1)))


# ---- connections beside each other


async def one_store(port: int, many: int) -> None:
    """Several connections see one store: what one was told, each other one sees."""
    connections = [await Connection.to(port) for _ in range(8)]
    try:
        for number, connection in enumerate(connections):
            await connection.wants("OK", "SET", "seen", number)
            for other in connections:
                await other.wants(str(number).encode(), "GET", "seen")
        await connections[0].ask("DEL", "together")
        counts = await asyncio.gather(*(one.ask("INCR", "together") for one in connections))
        same("increments at once", sorted(counts), list(range(1, 9)))
    finally:
        for connection in connections:
            await connection.close()


async def slow_reader(port: int, many: int) -> None:
    """One that reads nothing for a while holds up nobody else, and has all its replies then."""
    async with connected(port) as slow, connected(port) as other, connected(port) as third:
        await slow.wants("OK", "SET", "slow", "v" * LONGEST_VALUE)
        await slow.send(packed("GET", "slow") * many)
        begun, asked = time.monotonic(), 0
        while time.monotonic() - begun < SLOW:
            await other.wants("OK", "SET", "quick", asked)
            await third.wants(str(asked).encode(), "GET", "quick")
            asked += 1
        if asked < 5:
            raise Wrong(f"beside a slow reader {asked} requests were answered in {SLOW} seconds")
        same("the replies that waited", await slow.replies(many), [b"v" * LONGEST_VALUE] * many)


async def byte_by_byte(port: int, many: int) -> None:
    """Requests may come a byte at a time, and several of them in one piece with the half of another."""
    async with connected(port) as connection:
        for byte in packed("SET", "bytes", "1\r\n2") + b"\r\n" + packed("GET", "bytes"):
            await connection.send(bytes([byte]))
            await asyncio.sleep(0.001)
        same("byte by byte", await connection.replies(2), ["OK", b"1\r\n2"])
        both = packed("APPEND", "bytes", "3") + packed("GET", "bytes")
        await connection.send(both + both[:20])
        same("one and a half", await connection.replies(2), [5, b"1\r\n23"])
        await connection.send(both[20:])
        same("the other half", await connection.replies(2), [6, b"1\r\n233"])


async def nothing_asked(port: int, many: int) -> None:
    """An empty line and an array of none have no reply, wherever a request may begin."""
    async with connected(port) as connection:
        for empty in (b"\r\n", b"\n", b"*0\r\n", b"*-1\r\n", b"\r\n" * 1000):
            await connection.send(empty + packed("ECHO", "a") + empty + packed("ECHO", "b") + empty)
            same(repr(empty[:8]), await connection.replies(2), [b"a", b"b"])


async def no_request(port: int, many: int) -> None:
    """Bytes that are no request are told so, behind the replies to what came before, and end their connection alone."""
    async with connected(port) as other:
        for none in (b"*1\r\n:1\r\n", b"*1\r\n$-2\r\n", b"*65\r\n", b"*x\r\n", b"*1\r\n$65537\r\n", b"*1\r\n$1\r\nab"):
            async with connected(port) as connection:
                await connection.send(packed("ECHO", "before") + none + packed("ECHO", "behind"))
                same("what came before", await connection.reply(), b"before")
                must_be_error(repr(none), await connection.reply())
                same("what comes behind", await connection.is_ended(), b"")
            await other.wants(b"on", "ECHO", "on")


async def limits(port: int, many: int) -> None:
    """Keys, values and requests that are too large are errors, and their connections go on."""
    async with connected(port) as connection:
        await connection.wants("OK", "SET", "k" * 32, "v" * LONGEST_VALUE)
        await connection.wants(b"v" * LONGEST_VALUE, "GET", "k" * 32)
        await connection.refuses("SET", "k" * 33, "v")
        await connection.refuses("SET", "", "v")
        await connection.refuses("SET", "limits", "v" * (LONGEST_VALUE + 1))
        await connection.refuses("SET", "limits", "v" * 65_536)
        await connection.refuses("GET", *["a"] * 62)
        await connection.refuses("MSET", "a", "1", "a", "2")
        await connection.wants(None, "GET", "limits")
    # More than may wait, by one write: it is told, or ended before, and the others go on.
    async with connected(port) as connection, connected(port) as other:
        with contextlib.suppress(ConnectionError):
            await connection.send(packed("GET", "a") * 20_000)
        await other.wants(b"on", "ECHO", "on")


async def many_connections(port: int, many: int) -> None:
    """Two hundred connections at once, each with a request."""
    connections = await asyncio.gather(*(Connection.to(port) for _ in range(200)))
    try:
        told = await asyncio.gather(*(one.ask("ECHO", number) for number, one in enumerate(connections)))
        same("each its own", told, [str(number).encode() for number in range(200)])
    finally:
        await asyncio.gather(*(one.close() for one in connections))


CLIENTS: list[Callable[[int, int], Awaitable[None]]] = [
    redis_cli,
    redis_cli_pipe,
    redis_py,
    redis_benchmark,
    one_store,
    slow_reader,
    byte_by_byte,
    nothing_asked,
    no_request,
    limits,
    many_connections,
]


async def talk(port: int, many: int) -> None:
    for client in CLIENTS:
        begun = time.monotonic()
        await client(port, many)
        print(f"{client.__name__}: {time.monotonic() - begun:.1f} s: {client.__doc__.splitlines()[0]}", flush=True)


def free_port() -> int:
    with socket.socket() as one:
        one.bind(("127.0.0.1", 0))
        return one.getsockname()[1]


async def wait_for(port: int) -> None:
    """Waits until a request is answered at the port, for at most half a minute."""
    for _ in range(300):
        with contextlib.suppress(OSError, EOFError):
            async with connected(port) as connection:
                if await connection.ask("GET", "ready") is None:
                    return
        await asyncio.sleep(0.1)
    raise Wrong(f"no answer at port {port} within 30 seconds")


async def talk_to_cluster(curpd: str, many: int) -> None:
    """The same to a cluster that is run for it."""
    port = free_port()
    with tempfile.TemporaryDirectory() as folder:
        words = [str(TOP / "cluster/run"), folder, "--clients", "3", "--redis-port", str(port), "--curpd", curpd]
        cluster = await asyncio.create_subprocess_exec(*words, stdin=asyncio.subprocess.DEVNULL)
        try:
            await wait_for(port)
            await talk(port, many)
        finally:
            with contextlib.suppress(ProcessLookupError):
                cluster.terminate()
            await cluster.wait()


def main() -> None:
    words = argparse.ArgumentParser(description=__doc__, formatter_class=argparse.RawDescriptionHelpFormatter)
    words.add_argument("port", type=int, nargs="?")
    words.add_argument("--curpd")
    words.add_argument("--short", action="store_true", help="a tenth of the requests")
    options = words.parse_args()
    if (options.port is None) == (options.curpd is None):
        words.error("a port or --curpd, one of them")
    many = 200 if options.short else 2000
    try:
        asyncio.run(talk(options.port, many) if options.port else talk_to_cluster(os.path.abspath(options.curpd), many))
    except (Wrong, OSError, EOFError, TimeoutError) as wrong:
        sys.exit(f"wrong: {wrong!r}")
    print("all is as wanted")


if __name__ == "__main__":
    main()
