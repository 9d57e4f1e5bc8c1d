"""The parcels of a node's process: what is given to it, and what it says. docs/PARCELS.md has their bytes.

Commands and answers are lists, as scripts and histories have them: ["put", "61", "31"], ["found", None].
"""

import sys
from pathlib import Path
from typing import NamedTuple

sys.path.insert(0, str(Path(__file__).resolve().parent.parent / "tools"))
import curpwire  # noqa: E402

# Bytes of a parcel behind its length. What says more is none to a host; a node would take four times that.
MOST = 1 << 30
KINDS = "GCMBW"  # the kinds of nodes by their bytes

# The tags of bodies that someone beside the nodes looks at.
UPDATE, SYNC, READ, CONFIGURATION, REPLY, WORTH, REFUSE, APPEND, APPENDED = 1, 2, 3, 6, 7, 8, 9, 12, 13
RECOVER, FENCE, FENCE_ANSWER, FREEZE, FROZEN_ANSWER, RECOVERED, ADOPTED = 18, 19, 20, 21, 22, 23, 24
PREPARE, PREPARED, GLANCE = 25, 26, 34
ASKS = {UPDATE, SYNC, READ, GLANCE}  # what a client asks a master


class Garbled(Exception):
    """What was said is no parcel, or one longer than any: so nothing says where the next one begins."""


class Stands(NamedTuple):
    """Where a journal stood when it was opened."""

    items: int
    last: int


class Sent(NamedTuple):
    """A message goes out. `content` is the whole parcel behind its length."""

    stamp: int
    tag: int
    sender: str
    addressee: str
    content: bytes

    def frame(self) -> bytes:
        return self.content[25:]

    def fields(self) -> bytes:
        """What stands behind the addressee."""
        return self.content[40:]

    def message(self) -> dict:
        return curpwire.decode(self.frame())[0]

    def request(self) -> tuple[int, int]:
        """The client and the number of the id that the body begins with, where it begins with one."""
        return int.from_bytes(self.content[40:44], "big"), int.from_bytes(self.content[44:48], "big")


class Completed(NamedTuple):
    """A request completed."""

    stamp: int
    client: int
    number: int
    answer: list


class Refused(NamedTuple):
    """An input of the process was refused: by the number that docs/RULES.md has, or by one of docs/PARCELS.md."""

    input: int
    number: int


class NoParcel(NamedTuple):
    """An input was nothing that may come."""

    input: int
    place: int


class Withheld(NamedTuple):
    """What an item did has no encoding."""

    step: int
    place: int
    stamp: int


class Pending(NamedTuple):
    """A request was pending when the journal was opened."""

    client: int
    number: int


class Bytes(NamedTuple):
    """A reply to a connection."""

    connection: int
    data: bytes


class Close(NamedTuple):
    """A connection ends."""

    connection: int


class More(NamedTuple):
    """More bytes of a connection may come."""

    connection: int


class Unknown(NamedTuple):
    """A parcel that this program doesn't know."""

    content: bytes


Parcel = Stands | Sent | Completed | Refused | NoParcel | Withheld | Pending | Bytes | Close | More | Unknown


# ---- numbers and nodes


def number_at(data: bytes | bytearray, place: int, size: int) -> int:
    return int.from_bytes(data[place : place + size], "big")


def name_of(data: bytes) -> str:
    """The name of a node, as its five bytes have it."""
    number = int.from_bytes(data[1:5], "big")
    return KINDS[data[0]] + (str(number) if number else "")


# ---- what a process says


def cut(came: bytearray) -> list[bytes]:
    """Takes the whole parcels that the bytes begin with, and gives their contents."""
    found, place = [], 0
    while place + 4 <= len(came):
        size = number_at(came, place, 4)
        if size > MOST:
            raise Garbled(f"a parcel of {size} bytes")
        if place + 4 + size > len(came):
            break
        found.append(bytes(came[place + 4 : place + 4 + size]))
        place += 4 + size
    del came[:place]
    return found


def read(content: bytes) -> Parcel:
    """What a process said in a parcel."""
    try:
        return read_whole(content)
    except (IndexError, KeyError, ValueError, curpwire.ShortFrame, curpwire.BadFrame) as fault:
        raise Garbled(f"a parcel that begins with {content[:8].hex()}") from fault


def read_whole(content: bytes) -> Parcel:
    kind = content[0]
    if kind == 0:
        return Stands(number_at(content, 1, 8), number_at(content, 9, 8))
    if kind == 1:
        stamp, tag = number_at(content, 17, 8), content[29]
        return Sent(stamp, tag, name_of(content[30:35]), name_of(content[35:40]), content)
    if kind == 2:
        answer = from_wire(read_item("answer", content[17:]))
        return Completed(number_at(content, 1, 8), number_at(content, 9, 4), number_at(content, 13, 4), answer)
    if kind == 3:
        return Refused(number_at(content, 1, 8), content[9])
    if kind == 4:
        return NoParcel(number_at(content, 1, 8), number_at(content, 9, 8))
    if kind == 5:
        return Withheld(number_at(content, 1, 8), number_at(content, 9, 8), number_at(content, 17, 8))
    if kind == 6:
        return Pending(number_at(content, 1, 4), number_at(content, 5, 4))
    if kind == 7:
        return Bytes(number_at(content, 1, 8), content[9:])
    if kind in (8, 9):
        return (Close if kind == 8 else More)(number_at(content, 1, 8))
    return Unknown(content)


def stamp_of(parcel: Parcel) -> int:
    """The stamp that a parcel tells, 0 where it tells none."""
    if isinstance(parcel, Stands):
        return parcel.last
    return parcel.stamp if isinstance(parcel, Sent | Completed | Withheld) else 0


# ---- what is given to a process


def parcel(content: bytes) -> bytes:
    return len(content).to_bytes(4, "big") + content


def arriving(sent: Sent) -> bytes:
    """The parcel by which a message comes to its addressee: the name that its sender gave it, and its frame."""
    return parcel(b"\0" + sent.content[30:35] + sent.content[1:])


def ordering(order: bytes, stamp: int) -> bytes:
    """The parcel of an order, with the highest stamp that whoever gives it has seen."""
    return parcel(b"\1" + order + stamp.to_bytes(8, "big"))


def bytes_of(connection: int, data: bytes) -> bytes:
    """The parcel by which bytes of a connection come to a client node with Redis' protocol in front."""
    return parcel(b"\2" + connection.to_bytes(8, "big") + data)


def closed(connection: int) -> bytes:
    """The parcel by which it is told that no more bytes of a connection come."""
    return parcel(b"\3" + connection.to_bytes(8, "big"))


def four(number: int) -> bytes:
    return number.to_bytes(4, "big")


def recover(part: int, backup: int, witness: int) -> bytes:
    return b"\1" + four(part) + four(backup) + four(witness)


def replace(part: int, kind: str, place: int) -> bytes:
    """Replaces a backup, B, or a witness, W."""
    return b"\2" + four(part) + (b"\1" if kind == "B" else b"\0") + four(place)


def migrate(lo: int, hi: int, part: int) -> bytes:
    return b"\3" + lo.to_bytes(8, "big") + hi.to_bytes(8, "big") + four(part)


def expire(client: int) -> bytes:
    return b"\5" + four(client)


def invoke(command: list) -> bytes:
    """A ValueError comes where it is no command: also where a key, a value or a list is too long or too short."""
    try:
        return b"\6" + write_item("command", to_wire(command))
    except (curpwire.BadFrame, ArithmeticError, KeyError) as fault:
        raise ValueError(f"no command: {command}") from fault


def retry(number: int) -> bytes:
    return b"\7" + four(number)


NUDGE_ORDER, FETCH_ORDER, SYNC_ORDER, COLLECT_ORDER = bytes([4]), bytes([8]), bytes([9]), bytes([10])


# ---- commands and answers


def read_item(name: str, data: bytes) -> dict:
    """What has that type of docs/WIRE.md, from bytes that begin with it."""
    return curpwire.walk(curpwire.Reader(bytes(4) + data), name)


def write_item(name: str, item: dict) -> bytes:
    writer = curpwire.Writer()
    curpwire.walk(writer, name, item)
    return bytes(writer.frame[4:])


def from_wire(item: dict) -> list:
    """A command or an answer in the words of scripts."""
    kind, *rest = item.values()
    if kind == "multi":
        return [kind] + [word for pair in rest[0] for word in (pair["key"], pair["value"])]
    return [kind, *rest]


def to_wire(command: list) -> dict:
    kind, *rest = command
    fields = {
        "get": ["key"],
        "put": ["key", "value"],
        "delete": ["key"],
        "incr": ["key"],
        "append": ["key", "value"],
        "condput": ["key", "expected", "value"],
    }
    if kind == "multi":
        pairs = [{"key": key, "value": value} for key, value in zip(rest[::2], rest[1::2])]
        return {"kind": kind, "pairs": pairs}
    if kind not in fields or len(rest) != len(fields[kind]):
        raise ValueError(f"no command: {command}")
    return {"kind": kind} | dict(zip(fields[kind], rest))
