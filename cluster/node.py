"""The process of one node: begun, fed, killed, begun again."""

import asyncio
import contextlib
import fcntl
import json
import os
import re
import shlex
import signal
import subprocess
import sys
from collections.abc import Callable
from dataclasses import dataclass, field, replace
from pathlib import Path
from typing import TextIO

import parcels

# How `curpd node` ends: the input ended, or within a parcel; no journal could be opened. 12 is a disk that failed.
ENDED, CUT, NO_JOURNAL = 0, 3, 8
GARBLED, BAD_ARGUMENTS = 1, 2
MOST_WAITING = 8 << 20  # bytes that wait for a process which doesn't read: what comes beyond is lost
MOST_FINISHING = 20  # seconds that a process may take to answer what came before its input ended
NAME = re.compile(r"G|[CMBW][1-9][0-9]{0,9}")


def program(path: str) -> str:
    """The whole path of a program; where it isn't there, nothing can go on."""
    if not os.access(path, os.X_OK):
        sys.exit(f"there is no program {path}: build it, or name another one")
    return str(Path(path).resolve())


def hold(folder: Path) -> TextIO:
    """Keeps a folder for this program, as long as what it gives is open. Where another one has it, nothing goes on."""
    lock = open(folder / "lock", "w", encoding="utf-8")
    try:
        fcntl.flock(lock, fcntl.LOCK_EX | fcntl.LOCK_NB)
    except BlockingIOError:
        sys.exit(f"{folder} is in use by another run")
    return lock


def last_line(path: Path) -> str:
    """The last line of a log, or what fits of it."""
    with contextlib.suppress(OSError), open(path, "rb") as log:
        log.seek(max(log.seek(0, os.SEEK_END) - 300, 0))
        lines = log.read().decode(errors="replace").splitlines()
        return lines[-1] if lines else ""
    return ""


@dataclass
class Setting:
    """What all nodes of a cluster have in common."""

    curpd: str
    header: dict
    folder: Path
    # A node's name, and a command that takes a line for a shell as its last word: `ssh elsewhere`, or `sh -c`.
    hosts: dict[str, list[str]] = field(default_factory=dict)
    fronts: frozenset[str] = frozenset()  # the client nodes that have Redis' protocol in front

    def words(self, name: str, word: str) -> list[str]:
        """The command that runs `curpd` for a node."""
        header = json.dumps(self.header, separators=(",", ":"), sort_keys=True)
        words = [self.curpd, word, "--name", name, "--journal", str(self.journal(name)), "--header", header]
        words += ["--resp"] if word == "node" and name in self.fronts else []
        return [*self.hosts[name], shlex.join(words)] if name in self.hosts else words

    def journal(self, name: str) -> Path:
        return self.folder / f"{name}.journal"

    def log(self, name: str) -> Path:
        """What the processes of a node said on standard error."""
        return self.folder / f"{name}.log"

    def refusal(self) -> str:
        """Why `curpd` doesn't take the header; nothing where it does."""
        none = replace(self, folder=Path(os.devnull), hosts={})
        done = subprocess.run(none.words("G", "node"), stdin=subprocess.DEVNULL, capture_output=True, text=True)
        return done.stderr.strip() if done.returncode == BAD_ARGUMENTS else ""


def opening_names(header: dict) -> list[str]:
    """The nodes with which a cluster of that header begins."""
    keepers = range(1, header["parts"] * header["f"] + 1)
    names = ["G"] + [f"M{part}" for part in range(1, header["parts"] + 1)]
    names += [f"{kind}{number}" for kind in "BW" for number in keepers]
    return names + [f"C{number}" for number in range(1, header["clients"] + 1)]


class Node:
    """A node's process. It hands each parcel that the process says to `heard`, and its status to `ended`.

    A process that says what is no parcel is killed.
    """

    def __init__(
        self,
        name: str,
        setting: Setting,
        heard: Callable[[parcels.Parcel], None],
        ended: Callable[[int], None],
    ):
        self.name, self.setting, self.heard, self.ended = name, setting, heard, ended
        self.process: asyncio.subprocess.Process | None = None
        self.stdin: asyncio.StreamWriter | None = None  # what its process reads
        self.making: asyncio.subprocess.Process | None = None  # what makes its journal
        self.listening: asyncio.Task | None = None
        self.inputs = 0  # of this process
        self.begun = False  # whether its journal was made
        self.lost = 0  # parcels that found no process, or one that doesn't read

    def is_up(self) -> bool:
        return self.process is not None

    async def start(self, prefix: tuple[str, ...] = ()) -> None:
        """Begins its process; makes the journal before, where there was none. `prefix` are words before the command.

        An OSError comes where there is no such command, or no process or file more.
        """
        assert self.process is None
        with open(self.setting.log(self.name), "ab") as log:
            if not self.begun:
                # Where a journal is there this is refused, and the journal is opened.
                nothing = asyncio.subprocess.DEVNULL
                self.making = await self._run("format", (), log, nothing, nothing)
                self.begun = await self.making.wait() == 0
                self.making = None
            said = await self._open(prefix, log)
        self.inputs = 0
        self.listening = asyncio.create_task(self._listen(self.process, self.stdin, said))

    async def _open(self, prefix: tuple[str, ...], log) -> asyncio.StreamReader:
        """Begins its process between two pipes, and returns what it says."""
        pipe = asyncio.subprocess.PIPE
        self.process = await self._run("node", prefix, log, pipe, pipe)
        self.stdin = self.process.stdin
        return self.process.stdout

    async def _run(self, word: str, prefix: tuple[str, ...], log, given, said) -> asyncio.subprocess.Process:
        words = [*prefix, *self.setting.words(self.name, word)]
        # A signal for a file that may not grow stays ignored, so that such a write fails as on a full disk.
        return await asyncio.create_subprocess_exec(
            *words, stdin=given, stdout=said, stderr=log, restore_signals=False, start_new_session=True
        )

    async def _listen(
        self, process: asyncio.subprocess.Process, stdin: asyncio.StreamWriter, said: asyncio.StreamReader
    ) -> None:
        garbled = await self._hear(said)
        if garbled:
            kill_group(process)
            with contextlib.suppress(OSError), open(self.setting.log(self.name), "a", encoding="utf-8") as log:
                print(f"it said what is no parcel, and is killed: {garbled}", file=log)
        status = await process.wait()
        if not stdin.is_closing():
            stdin.transport.abort()
        if self.process is process:
            self.process = None
        self.ended(GARBLED if garbled else status)

    async def _hear(self, stdout: asyncio.StreamReader) -> parcels.Garbled | None:
        """Hears the process until it says nothing more, or what is no parcel."""
        came = bytearray()
        while data := await stdout.read(1 << 16):
            came += data
            try:
                told = [parcels.read(content) for content in parcels.cut(came)]
            except parcels.Garbled as fault:
                return fault
            # It has a journal, which is never made again: who lost it is lost.
            self.begun |= bool(told)
            for said in told:
                self.heard(said)
        return None

    def give(self, parcel: bytes) -> int:
        """Gives it a parcel, and returns its number among the inputs of the process; 0 where it is lost."""
        stdin = self.stdin if self.process else None
        if stdin is None or stdin.is_closing() or stdin.transport.get_write_buffer_size() > MOST_WAITING:
            self.lost += 1
            return 0
        stdin.write(parcel)
        self.inputs += 1
        return self.inputs

    def kill(self) -> None:
        """Kills the process, with whatever stands before its command."""
        if self.process is not None:
            process, self.process = self.process, None
            kill_group(process)

    async def gone(self) -> None:
        """Waits until the process that was killed, or whose input ends, has ended."""
        if self.listening is not None:
            await self.listening
            self.listening = None

    async def finish(self) -> None:
        """Ends its input, and waits until it has answered what came before. What goes on is killed."""
        process = self.process
        if process is not None:
            self.stdin.close()
            self.give_up(process)
        await self.gone()

    @staticmethod
    def give_up(process: asyncio.subprocess.Process) -> None:
        """Kills a process where it still goes on when it had time to end."""
        asyncio.get_running_loop().call_later(MOST_FINISHING, kill_group, process)


def kill_group(process: asyncio.subprocess.Process) -> None:
    """Kills a process, with whatever stands before its command."""
    if process.returncode is None:
        with contextlib.suppress(ProcessLookupError):
            os.killpg(process.pid, signal.SIGKILL)
