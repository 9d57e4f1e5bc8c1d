"""Talks: a line is sent once all that is wanted for those before it has come, and they are read, so that no read gives two."""

import fcntl
import os
import pty
import select
import socket
import subprocess
import sys
import termios
import time
from contextlib import contextmanager
from functools import partial

from runs import HEADER, INVOKE, INVOKED, SECONDS, Driven, Seen, Wrong, as_bytes, deliver, require

SMALL = '{"clients":1,"f":1,"fast":true,"parts":1,"protocol":1,"sets":16,"ways":4}'
SESSION = '{"clients":1,"f":1,"fast":true,"parts":1,"protocol":1,"sets":64,"ways":4}\n'
PUT = [
    (f"{HEADER}\n", ""),
    (f"{INVOKE}\n", INVOKED),
    ('{"do":"deliver","msg":1}\n', "s2 done\nm3 M1 C1 reply 1.1 unsynced e1 v1 done\n"),
    ('{"do":"deliver","msg":2}\n', "s3 done\nm4 W1 C1 accepted 1.1 e1\n"),
    ('{"do":"deliver","msg":3}\n', "s4 done\n"),
    ('{"do":"deliver","msg":4}\n', "s5 done\nc 1.1 done\n"),
]
ORDERS = [
    (f"{SMALL}\n", ""),
    ('{"client":1,"do":"expire"}\n', "s1 done\nm1 G M1 expire c1\n"),
    ('{"call":4,"do":"crash","kept":false}\n', "s2 done\n"),
    ('{"backup":1,"do":"recover","part":1,"witness":1}\n', "s3 stopped lost\n"),
    ('{"do":"nudge"}\n', "s4 done\nm2 G W1 start p1 e1\nm3 G M1 adopted p1 e1 v1\nm4 G M1 expire c1\n"),
]
REQUESTS = [
    ("*3\r\n$3\r\nSET\r\n$1\r\na\r\n$1\r\n1\r\n", "+OK\r\n"),
    ("*2\r\n$3\r\nget\r\n$1\r\na\r\n", "$1\r\n1\r\n"),
    ("*1\r\n$4\r\nPING\r\n", "-ERR unknown command\r\n"),
    ("*2\r\n$4\r\nincr\r\n$1\r\nn\r\n", ":1\r\n"),
    ("*2\r\n$3\r\ndel\r\n$1\r\na\r\n", ":1\r\n"),
]
BOTH = "".join(sent for sent, _ in REQUESTS[:2])
# What has nothing to say before its end: a history with its order, and a script of which a history is wanted.
EVENTS = [
    ('{"cmd":["put","61","31"],"ev":"invoke","id":[1,1]}\n', ""),
    ('{"ans":["done"],"ev":"complete","id":[1,1]}\n', ""),
    ('{"cmd":["put","61","31"],"ev":"place","id":[1,1]}\n', ""),
]
UNTOLD = [(f"{SMALL}\n", ""), ('{"client":1,"do":"fetch"}\n', "")]
ORDER = "order 1\n1.1 put 61 31 -> done\n"
# Words, a talk with each, and what it says at its end.
TALKS = [
    (["play"], PUT, ORDER),
    (["manage"], ORDERS, "decisions 2\n"),
    (["resp", "--f", "1"], REQUESTS, ""),
    (["check"], EVENTS, "yes\n"),
    (["play", "--history"], UNTOLD, ""),
]


class Talk:
    """The program, and both ends of what is said."""

    def __init__(self, child):
        self.child = child

    def send(self, text):
        """Sends a text once all that was sent before it is read."""
        last = time.monotonic() + SECONDS
        while unread(self.child.stdin):
            require(self.child.poll() is None, f"it ended; there was more to be sent: {text}")
            require(time.monotonic() < last, f"it read no more; there was more to be sent: {text}")
            time.sleep(0.0002)
        self.child.stdin.write(as_bytes(text))

    def has_to_say(self, text):
        """Waits for so many bytes, which have to be these."""
        wanted, said = as_bytes(text), b""
        while len(said) < len(wanted):
            if not select.select([self.child.stdout], [], [], SECONDS)[0]:
                raise Wrong(f"it said {said}, and then nothing; wanted {wanted}")
            more = os.read(self.child.stdout.fileno(), len(wanted) - len(said))
            require(more, f"it said {said}, and ended; wanted {wanted}")
            said += more
        require(said == wanted, f"it said {said}; wanted {wanted}")

    def has_to_end(self, stdout="", status=0, stderr=""):
        """Nothing more is sent."""
        out, err = self.child.communicate(timeout=SECONDS)
        Seen(self.child.returncode, out or b"", err).has_to_be(status, stdout, stderr)


def unread(pipe):
    """How many bytes of a pipe nobody has read yet."""
    return int.from_bytes(fcntl.ioctl(pipe, termios.FIONREAD, bytes(4)), sys.byteorder)


@contextmanager
def talk(program, words, stdin=subprocess.PIPE, stdout=subprocess.PIPE):
    """A talk with the program, which is ended where something is wrong."""
    streams = {"stdin": stdin, "stdout": stdout, "stderr": subprocess.PIPE}
    with subprocess.Popen([program, *words], bufsize=0, **streams) as child:
        try:
            yield Talk(child)
        finally:
            if child.poll() is None:
                child.kill()


def answered(program, words, turns, at_the_end="", **told):
    """Each turn is sent once all that was wanted before it has come."""
    with talk(program, words) as said:
        for sent, wanted in turns:
            said.send(sent)
            said.has_to_say(wanted)
        said.has_to_end(at_the_end, **told)


def byte_by_byte(program, words, sent, out):
    """Each byte is written by itself."""
    with talk(program, words) as said:
        for at in range(len(sent)):
            said.send(sent[at])
        said.has_to_end(out)


def reader_goes_away(program, words, turns, last):
    """Once all has come that was said so far, nobody reads any more, and one more line is sent."""
    with talk(program, words) as said:
        for sent, wanted in turns:
            said.send(sent)
            said.has_to_say(wanted)
        said.child.stdout.close()
        said.child.stdout = None
        said.send(last)
        said.has_to_end(status=5, stderr="curp: writing failed\n")


def breaks_off(program, words, turns):
    """Once all has come that was said so far, the next read fails: the other end is closed, and lets fall what it got. Nothing
    more was passed on."""
    ours, theirs = socket.socketpair()
    with theirs, talk(program, words, stdin=theirs) as said:
        theirs.send(b"never taken")
        for sent, wanted in turns:
            ours.sendall(as_bytes(sent))
            said.has_to_say(wanted)
        ours.close()
        said.has_to_end(status=4, stderr="curp: reading failed\n")


def passed_on(program, words, pieces, packets):
    """What is passed on together is one packet: such come for these pieces, one a read."""
    ours, theirs = socket.socketpair(type=socket.SOCK_SEQPACKET)
    with ours:
        with theirs, talk(program, words, stdout=theirs) as said:
            for piece in pieces:
                said.send(piece)
            said.has_to_end()
        ours.settimeout(SECONDS)
        came = list(iter(lambda: ours.recv(1 << 16), b""))
    require(came == [as_bytes(packet) for packet in packets], f"the packets {came}; wanted {packets}")


def at_a_terminal(program, words, text, out):
    """A text is typed, of which a line is read at a time, and then the key that ends the input, once."""
    ours, theirs = pty.openpty()
    form = termios.tcgetattr(theirs)
    form[0] &= ~termios.ICRNL
    form[3] &= ~termios.ECHO
    termios.tcsetattr(theirs, termios.TCSANOW, form)
    try:
        with talk(program, words, stdin=theirs) as said:
            os.write(ours, as_bytes(text) + b"\x04")
            said.has_to_end(out)
    finally:
        os.close(ours)
        os.close(theirs)


def long_talks():
    """Talks that are longer than all that a word does from time to time, as a round behind each sixteenth command."""
    replies = [(f"{{\"do\":\"deliver\",\"msg\":1}}\n", replied(step)) for step in range(2, 302)]
    turns = [(f"{HEADER}\n", ""), (f"{INVOKE}\n", INVOKED), *replies]
    yield Driven("300 deliveries", partial(answered, words=["play"], turns=turns, at_the_end=ORDER))
    expiries = [('{"client":1,"do":"expire"}\n', f"s{step} done\nm{step} G M1 expire c1\n") for step in range(1, 101)]
    turns = [(f"{SMALL}\n", ""), *expiries]
    yield Driven("100 orders", partial(answered, words=["manage"], turns=turns, at_the_end="decisions 100\n"))
    counted = [("*2\r\n$4\r\nINCR\r\n$1\r\nn\r\n", f":{count}\r\n") for count in range(1, 71)]
    for words in (["resp", "--f", "1"], ["resp", "--f", "2", "--every", "7"]):
        yield Driven(f"70 requests of {' '.join(words)}", partial(answered, words=words, turns=counted))


def replied(step):
    """What is printed where that step delivers the update again."""
    return f"s{step} done\nm{step + 1} M1 C1 reply 1.1 unsynced e1 v1 done\n"


def in_pieces():
    """A put and a get, and more, a byte a read; and how often it is passed on what is said of them, by how many come a read."""
    replies = [reply for _, reply in REQUESTS[:2]]
    ping, unknown = REQUESTS[2]
    steps = f"{SESSION}{INVOKE}\n" + deliver(1, 4) + '{"client":1,"cmd":["get","61"],"do":"invoke"}\n' + deliver(5, 8)
    script = "".join(sent for sent, _ in PUT)
    text = "".join(wanted for _, wanted in PUT) + ORDER
    for name, words, sent, out in (
        ("resp --f 1", ["resp", "--f", "1"], BOTH, "".join(replies)),
        ("resp --f 1 --every 1", ["resp", "--f", "1", "--every", "1"], BOTH, "".join(replies)),
        ("resp --f 1 --script", ["resp", "--f", "1", "--script"], BOTH, steps),
        ("resp of no command", ["resp"], ping, unknown),
        ("resp --f 1 --script of no command", ["resp", "--f", "1", "--script"], ping, SESSION),
        ("play", ["play"], script, text),
    ):
        yield Driven(f"{name}, byte by byte", partial(byte_by_byte, words=words, sent=sent, out=out))
    for name, pieces, packets in (
        ("byte by byte", list(BOTH), replies),
        ("that come one by one", [sent for sent, _ in REQUESTS[:2]], replies),
        ("that come together", [BOTH], ["".join(replies)]),
    ):
        goes = partial(passed_on, words=["resp", "--f", "1"], pieces=pieces, packets=packets)
        yield Driven(f"replies to requests {name}", goes)


def of_each_word():
    """Each talk of which one word is capable: read line by line, broken off behind each line, and at a terminal."""
    for words, turns, at_the_end in TALKS:
        name, whole = " ".join(words), "".join(sent for sent, _ in turns)
        yield Driven(name, partial(answered, words=words, turns=turns, at_the_end=at_the_end))
        for count in range(len(turns) + 1):
            goes = partial(breaks_off, words=words, turns=turns[:count])
            yield Driven(f"{name}, broken off behind {count}", goes)
        out = "".join(wanted for _, wanted in turns) + at_the_end
        yield Driven(f"{name} at a terminal", partial(at_a_terminal, words=words, text=whole, out=out))


def runs():
    yield from of_each_word()
    small = [(f"{SMALL}\n", "")] + PUT[1:]
    yield Driven("play of one client", partial(answered, words=["play"], turns=small, at_the_end=ORDER))
    cut = {"at_the_end": "", "status": 3, "stderr": "curp: line 7: bad json\n"}
    yield Driven("play up to a refused line", partial(answered, words=["play"], turns=PUT + [("{\n", "")], **cut))
    long = [(f"{HEADER}\n", "")] + [(f"{INVOKE}\n", step(number)) for number in range(1, 9)]
    yield Driven("eight invocations", partial(answered, words=["play"], turns=long, at_the_end="order 0\n"))
    yield from long_talks()
    for words in (["resp"], ["resp", "--f", "1", "--every", "1"], ["resp", "--f", "5", "--every", "2"]):
        yield Driven(" ".join(words), partial(answered, words=words, turns=REQUESTS))
    wrong = {"status": 11, "stderr": f"curp: bad request at {len(BOTH) + 1}\n"}
    turns = REQUESTS[:2] + [("*x", "-ERR protocol\r\n")]
    yield Driven("resp up to what is no request", partial(answered, words=["resp"], turns=turns, **wrong))
    yield from in_pieces()
    for words, turns in ((["play"], PUT), (["manage"], ORDERS), (["resp"], REQUESTS)):
        name = " ".join(words) + ", whose reader goes away"
        goes = partial(reader_goes_away, words=words, turns=turns[:2], last=turns[2][0])
        yield Driven(name, goes, alone=True)
    yield Driven("a header at a terminal", partial(at_a_terminal, words=["play"], text=f"{HEADER}\n", out="order 0\n"))


def step(number):
    """What is printed for the invocation as that step."""
    request, message = f"1.{number} f1 e1", 2 * number - 1
    return (
        f"s{number} done\nm{message} C1 M1 update {request} v1 put 61 31\n"
        f"m{message + 1} C1 W1 record {request} put 61 31\n"
    )
