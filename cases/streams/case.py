"""Streams that fail, break off or are strange, and little memory: with which status and line each run ends."""

import os
import socket
import subprocess
import tempfile
from functools import partial
from pathlib import Path

from runs import HEADER, INVOKE, INVOKED, SECONDS, USAGE, Driven, deliver, require, seen

READ = {"status": 4, "stderr": "curp: reading failed\n"}
WRITE = {"status": 5, "stderr": "curp: writing failed\n"}
MEMORY = {"status": 6, "stderr": "curp: out of memory\n"}
SMALL = '{"clients":1,"f":1,"fast":true,"parts":1,"protocol":1,"sets":16,"ways":4}'
EXPIRE = '{"client":1,"do":"expire"}'
SET = "*3\r\n$3\r\nSET\r\n$1\r\na\r\n$1\r\n1\r\n"
# The program in an address space of 24 MB, in which there is room for it, but not for much more.
LITTLE = 'ulimit -v 24576; exec "$0" "$@"'


def by_shell(line, program, words, text=""):
    """Runs the program by a line of the shell."""
    return seen("sh", ["-c", line, program, *words], text)


def folder(program, words):
    """Nothing can be read of a folder."""
    inside = os.open(Path(__file__).parent, os.O_RDONLY)
    try:
        seen(program, words, stdin=inside).has_to_be(stdout="", **READ)
    finally:
        os.close(inside)


def closed(program, words):
    """There is no standard input at all."""
    by_shell('exec "$0" "$@" <&-', program, words).has_to_be(stdout="", **READ)


def written_only(program, words):
    """Standard input can be written alone."""
    with open("/dev/null", "wb") as null:
        seen(program, words, stdin=null).has_to_be(stdout="", **READ)


def broken_off(program, words, text, wrote):
    """The first read gives all that was sent, and the next one fails: the other end is closed, and lets fall what it got."""
    ours, theirs = socket.socketpair()
    with theirs:
        theirs.send(b"never taken")
        ours.sendall(text.encode())
        ours.close()
        seen(program, words, stdin=theirs).has_to_be(stdout=wrote, **READ)


def full(program, words, text):
    """The disk is full."""
    with open("/dev/full", "wb") as disk:
        seen(program, words, text, stdout=disk).has_to_be(**WRITE)


def unread(program, words, text):
    """A pipe that nobody reads."""
    reader, writer = os.pipe()
    os.close(reader)
    try:
        seen(program, words, text, stdout=writer).has_to_be(**WRITE)
    finally:
        os.close(writer)


def no_output(program, words, text):
    """There is no standard output at all."""
    by_shell('exec "$0" "$@" >&-', program, words, text).has_to_be(**WRITE)


def no_errors(program):
    """Nobody hears what there is to complain of: the status tells it all the same."""
    with open("/dev/full", "wb") as disk:
        ended = subprocess.run([program, "play"], input=b"", stdout=subprocess.PIPE, stderr=disk, timeout=SECONDS)
    require((ended.returncode, ended.stdout) == (3, b""), f"status {ended.returncode}")


def untouched(program, words):
    """Where words are no command line, nothing is read."""
    with tempfile.TemporaryFile() as file:
        file.write(f"{HEADER}\n".encode())
        file.seek(0)
        seen(program, words, stdin=file).has_to_be(2, "", f"curp: this can't stand there: {words[-1]}\n" + USAGE)
        require(os.lseek(file.fileno(), 0, os.SEEK_CUR) == 0, "something was read")


def in_little_memory(program, words, text=""):
    """Memory is at its end. What was written until then is given."""
    run = by_shell(LITTLE, program, words, text)
    run.has_to_be(**MEMORY)
    return run.stdout


def long_script(program):
    """Eight puts, and the first is delivered to the master again and again, with a reply to each."""
    puts = "".join(INVOKE.replace('"61"', f'"{key:04x}"') + "\n" for key in range(8))
    wrote = in_little_memory(program, ["play"], f"{HEADER}\n{puts}" + deliver(1, 1) * 190_000).decode()
    wanted = "".join(
        f"s{key + 1} done\nm{2 * key + 1} C1 M1 update 1.{key + 1} f1 e1 v1 put {key:04x} 31\n"
        f"m{2 * key + 2} C1 W1 record 1.{key + 1} f1 e1 put {key:04x} 31\n"
        for key in range(8)
    )
    wanted += "".join(f"s{9 + at} done\nm{17 + at} M1 C1 reply 1.1 unsynced e1 v1 done\n" for at in range(190_000))
    require(wanted.startswith(wrote), "what was written is no front of the text")
    require(wrote.count("\n") > 1_000, "hardly anything was written")


def of_reading():
    for words in (["play"], ["play", "--history"], ["check"], ["manage"], ["resp"]):
        name = " ".join(words)
        yield Driven(f"{name} of a folder", partial(folder, words=words))
        yield Driven(f"{name} of no input", partial(closed, words=words))
        yield Driven(f"{name} of what can be written alone", partial(written_only, words=words))
    claim = '{"cmd":["get","61"],"ev":"invoke","id":[1,1]}\n'
    for words, text, wrote in (
        (["play"], f"{HEADER}\n", ""),
        (["play"], f"{HEADER}\n{INVOKE}\n", INVOKED),
        (["play"], f"{HEADER}\n{INVOKE}\n{INVOKE}", INVOKED),
        (["play", "--history"], f"{HEADER}\n{INVOKE}\n", ""),
        (["check"], claim, ""),
        (["manage"], f"{SMALL}\n", ""),
        (["manage"], f"{SMALL}\n{EXPIRE}\n", "s1 done\nm1 G M1 expire c1\n"),
        (["resp"], SET, "+OK\r\n"),
        (["resp"], SET + "*2\r\n", "+OK\r\n"),
    ):
        name = f"{' '.join(words)} of {text.count(chr(10))} lines that break off"
        yield Driven(f"{name}, {len(text)} bytes", partial(broken_off, words=words, text=text, wrote=wrote))
    yield Driven("words that are none read nothing", partial(untouched, words=["play", "make"]))


def of_writing():
    for words, text in (
        (["play"], f"{HEADER}\n"),
        (["play"], f"{HEADER}\n{INVOKE}\n"),
        (["play", "--history"], f"{HEADER}\n{INVOKE}\n"),
        (["make", "--steps", "1"], ""),
        (["make", "--summary"], ""),
        (["live", "--clients", "1", "--commands", "1"], ""),
        (["check"], ""),
        (["manage"], f"{SMALL}\n"),
        (["resp"], SET),
    ):
        name = f"{' '.join(words)} of {len(text)} bytes"
        yield Driven(f"{name}, onto a full disk", partial(full, words=words, text=text))
        yield Driven(f"{name}, into a pipe that nobody reads", partial(unread, words=words, text=text), alone=True)
        yield Driven(f"{name}, and no output", partial(no_output, words=words, text=text))
    long = ["make", "--steps", "20000"]
    yield Driven("20,000 steps into a pipe that nobody reads", partial(unread, words=long, text=""), alone=True)
    yield Driven("nobody hears of a fault", no_errors)


def runs():
    yield from of_reading()
    yield from of_writing()
    yield Driven("play in little memory", long_script)
    yield Driven("live in little memory", partial(in_little_memory, words=["live"]))
