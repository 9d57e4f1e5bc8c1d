#!/usr/bin/env python3
"""Runs `cluster/run` and looks at what it says and how it ends: where the words are wrong, the folder or the port is in
use, a command fails, a journal is lost, a connection breaks, somebody doesn't read, or it is interrupted or killed.

    tools/cluster_test.py CURPD FOLDER

CURPD is the program `curpd`. What is done is printed, and the status is 1 where something else comes than is wanted.
"""

import argparse
import asyncio
import contextlib
import shutil
import signal
import socket
import subprocess
import sys
import time
from collections.abc import Iterator
from pathlib import Path

TOP = Path(__file__).resolve().parent.parent
sys.path.insert(0, str(TOP / "cluster"))
sys.dont_write_bytecode = True
import client  # noqa: E402
import hosts  # noqa: E402
import node  # noqa: E402
import policy  # noqa: E402
import wires  # noqa: E402

LIMIT = 120  # seconds for anything that is waited for: much, since a machine may have much else to do
SMALL = ["--sets", "16"]


class Wrong(Exception):
    """Something else came than is wanted."""


def same(what: str, found, wanted) -> None:
    if found != wanted:
        raise Wrong(f"{what}: {found!r}, and {wanted!r} is wanted")
    print(f"    {what}: {found!r}")


def has(what: str, text: str, wanted: str) -> None:
    if wanted not in text:
        raise Wrong(f"{what}: {text!r} has no {wanted!r}")
    print(f"    {what}: {wanted!r}")


class Bench:
    """Runs `cluster/run` over folders of its own."""

    def __init__(self, options: argparse.Namespace):
        self.top = Path(options.folder)
        self.curpd = options.curpd

    def folder(self, name: str) -> Path:
        """A folder that isn't there yet."""
        shutil.rmtree(self.top / name, ignore_errors=True)
        return self.top / name

    def words(self, folder: Path, *more: str) -> list[str]:
        return [str(TOP / "cluster/run"), str(folder), "--curpd", self.curpd, *more]

    def ask(self, folder: Path, text: str, *more: str) -> subprocess.CompletedProcess:
        """A whole run, with that standard input."""
        return subprocess.run(self.words(folder, *more), input=text, capture_output=True, text=True, timeout=LIMIT)

    def refused(self, what: str, status: int, wanted: str, folder: Path, *more: str) -> None:
        """A run that can't be: it ends with that status and one line."""
        done = self.ask(folder, "put a 1\n", *more)
        same(f"{what}: the status", done.returncode, status)
        same(f"{what}: its lines", len(done.stderr.splitlines()), 1)
        has(what, done.stderr, wanted)

    @contextlib.contextmanager
    def running(self, folder: Path, *more: str) -> Iterator[subprocess.Popen]:
        """A run that goes on, once its first line was answered."""
        begun = subprocess.Popen(
            self.words(folder, *more), stdin=subprocess.PIPE, stdout=subprocess.PIPE, stderr=subprocess.PIPE, text=True
        )
        try:
            has("it answers", tell(begun, "put a 1"), "done")
            yield begun
        finally:
            begun.kill()
            begun.wait()


def tell(running: subprocess.Popen, line: str) -> str:
    """The answer to a line."""
    running.stdin.write(line + "\n")
    running.stdin.flush()
    return running.stdout.readline().strip()


def nodes_of(folder: Path) -> int:
    """How many processes have a journal in the folder."""
    lines = [Path(path) / "cmdline" for path in Path("/proc").iterdir() if path.name.isdigit()]
    count = 0
    for line in lines:
        with contextlib.suppress(OSError):
            count += f"{folder}/".encode() in line.read_bytes() and b"--journal" in line.read_bytes()
    return count


def gone(what: str, folder: Path) -> None:
    until = time.monotonic() + LIMIT
    while nodes_of(folder) and time.monotonic() < until:
        time.sleep(0.05)
    same(f"{what}: processes that are left", nodes_of(folder), 0)


# ---- what is tried


def wrong_words(bench: Bench) -> None:
    """Words and headers that are none, and a folder with another header: one line each, and nothing is begun."""
    folder = bench.folder("words")
    bench.refused("a header that isn't allowed", 2, "f", folder, "--f", "9")
    same("what it left", sorted(path.name for path in folder.iterdir()), ["lock"])
    bench.refused("a host without a command", 2, "NAME=COMMAND", folder, "--host", "M1")
    bench.refused("no such node", 2, "NAME=COMMAND", folder, "--host", "X1=sh -c")
    words = ["--clients", "1", "--redis-port", "0"]
    bench.refused("no client for Redis' port", 2, "the clients from 2 on", folder, *words)
    same("a run", bench.ask(folder, "put a 1\n", *SMALL).returncode, 0)
    bench.refused("another header", 2, "has another header", folder, "--sets", "8")
    bench.refused("no program", 1, "there is no program", folder, "--curpd", "/none")


def bad_lines(bench: Bench) -> None:
    """Lines that are no commands are told so, and the next one is answered."""
    lines = ["put", "put a", "multi a", "frob a", f"put {'k' * 33} 1", f"put a {'v' * 129}", "stop C1", "kill X9"]
    done = bench.ask(bench.folder("lines"), "\n".join([*lines, "put a 1", "get a", ""]), *SMALL)
    told = done.stdout.splitlines()
    same("lines that are told", len(told), len(lines) + 2)
    same("refused", all(line.startswith(("no such", "refused by", "C1 can't")) for line in told[:-2]), True)
    has("the next", told[-1], "'1'")
    same("the status", done.returncode, 0)


def in_use(bench: Bench) -> None:
    """A second run in a folder, a port in use: one line, and the first goes on. An interrupt leaves nothing."""
    folder = bench.folder("use")
    with bench.running(folder, *SMALL) as first:
        bench.refused("a folder in use", 1, "in use", folder)
        with socket.socket() as taken:
            taken.bind(("127.0.0.1", 0))
            taken.listen()
            port = str(taken.getsockname()[1])
            bench.refused("a port in use", 1, "in use", bench.folder("port"), *SMALL, "--redis-port", port)
        has("the first goes on", tell(first, "get a"), "'1'")
        first.send_signal(signal.SIGINT)
        same("interrupted: the status", first.wait(LIMIT), 0)
        same("interrupted: its lines", first.stderr.read(), f"6 nodes in {folder}\n")
    gone("interrupted", folder)


def killed(bench: Bench) -> None:
    """Killed, it leaves no process, and the folder goes on. A journal that was lost isn't made again."""
    folder = bench.folder("killed")
    with bench.running(folder, *SMALL) as first:
        first.kill()
    gone("killed", folder)
    (folder / "M1.journal").unlink()
    done = bench.ask(folder, "get a\nnodes\n")
    has("it goes on", done.stdout, "'1'")
    has("with another master", done.stdout, "1: M2 ")
    has("the lost journal", done.stderr, "M1 ended 8")
    same("it isn't there", (folder / "M1.journal").exists(), False)


def by_commands(bench: Bench) -> None:
    """Nodes by commands: one as `ssh` takes them, one that isn't there, one that says what is no parcel."""
    words = ["--host", "M1=sh -c", "--host", "B1=/none", "--host", "W1=echo hello, here is a banner;"]
    done = bench.ask(bench.folder("commands"), "put a 1\nget a\n", "--f", "2", *SMALL, *words)
    has("it answers", done.stdout, "'1'")
    has("no such command", done.stderr, "B1 can't begin")
    has("no parcels", done.stderr, "W1 ended 1: it said what is no parcel")
    same("the status", done.returncode, 0)


def free_port() -> int:
    with socket.socket() as one:
        one.bind(("127.0.0.1", 0))
        return one.getsockname()[1]


def redis_port(bench: Bench) -> None:
    """One that doesn't read what it is told holds up nobody, also not the end of the run."""
    port = free_port()
    put, get = b"*3\r\n$3\r\nSET\r\n$1\r\nk\r\n$100\r\n" + b"v" * 100 + b"\r\n", b"*2\r\n$3\r\nGET\r\n$1\r\nk\r\n"
    folder = bench.folder("redis")
    with bench.running(folder, *SMALL, "--redis-port", str(port)) as first:
        slow, other = (socket.create_connection(("127.0.0.1", port), LIMIT) for _ in range(2))
        slow.setsockopt(socket.SOL_SOCKET, socket.SO_RCVBUF, 4096)
        slow.settimeout(2)
        with contextlib.suppress(TimeoutError):
            slow.sendall(put + get * 30_000)
        other.sendall(get)
        same("another one is answered", other.recv(1000)[:4], b"$100")
        first.send_signal(signal.SIGINT)
        same("interrupted: the status", first.wait(LIMIT), 0)
    gone("interrupted", folder)


async def broken_connections(bench: Bench) -> None:
    """Connections between hosts that break are made again, and garbage on a port ends its connection alone."""
    folder = bench.folder("connections")
    folder.mkdir(parents=True)
    header = {"clients": 1, "f": 1, "fast": True, "parts": 1, "protocol": 2, "sets": 16, "ways": 4}
    wire = wires.Tcp()
    cluster = hosts.Cluster(node.Setting(bench.curpd, header, folder), policy.Numbers(), wire)
    await cluster.start()
    user = client.Client(cluster.hosts["C1"])
    for count in range(1, 6):
        same("an increment", await user.invoke(["incr", "6e"]), ["number", count])
        for one in list(wire.connections.values()):
            one.close()
        for name, said in (("M1", b"\0\0\0\x02C1" + b"\xff" * 9), ("W1", b"\0\0\0\x09nobody at all")):
            _, writer = await asyncio.open_connection("127.0.0.1", wire.port_of(name))
            writer.write(said)
    pairs = {tuple(sorted(pair)) for pair in wire.connections}
    same("a connection a pair", len(wire.connecting), len(pairs))
    wire.leave("B1")
    same("none to a host that left", [pair for pair in wire.connections if "B1" in pair], [])
    await cluster.finish()


def main() -> None:
    words = argparse.ArgumentParser(description=__doc__, formatter_class=argparse.RawDescriptionHelpFormatter)
    words.add_argument("curpd")
    words.add_argument("folder")
    options = words.parse_args()
    options.curpd = node.program(options.curpd)
    bench = Bench(options)
    try:
        for one in (wrong_words, bad_lines, in_use, killed, by_commands, redis_port, broken_connections):
            print(f"{one.__name__}: {one.__doc__}", flush=True)
            done = one(bench)
            if asyncio.iscoroutine(done):
                asyncio.run(done)
    except (Wrong, subprocess.TimeoutExpired) as wrong:
        sys.exit(f"wrong: {wrong}")
    print("all is as wanted")


if __name__ == "__main__":
    main()
