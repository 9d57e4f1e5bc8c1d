#!/usr/bin/env python3
"""Reads and writes the parcels of the process of a node, as docs/PARCELS.md has them.

    tools/curpparcels.py --in FILE     prints the parcels of a file that come to a process, one line of JSON each
    tools/curpparcels.py --out FILE    prints those that a process says
    tools/curpparcels.py --check       compares this program with the examples of docs/PARCELS.md, and what it writes
                                       with what it reads

As a module it has `encode` and `decode`, for both ways: "in" and "out". A parcel is a dict as JSON has it, with the
names of docs/PARCELS.md: {"kind": "order", "order": {"kind": "expire", "client": 1}, "stamp": 0}. A check prints how many it compared, and ends with 1 at a difference.
"""

import json
import random
import sys
from pathlib import Path

import curpwire as wire

MOST = 4_294_967_287  # bytes behind the length of a parcel
WAYS = {"in": "arrival", "out": "outgoing"}
NAMED = "step u64, place u64, stamp u64"

# What parcels have besides the types of frames: the fields, or a byte and then fields by that byte.
wire.RECORDS["capture"] = wire.fields_in("master node, epoch u32, number u64")
wire.KINDS |= {
    "order": wire.kinds_in(
        "1 recover(part u32, backup u32, witness u32) 2 replace(part u32, backup truth, place u32) "
        "3 migrate(lo hash, hi hash, to u32) 4 nudge 5 expire(client u32) 6 invoke(command command) 7 retry(seq u32) "
        "8 fetch 9 sync 10 collect"
    ),
    "arrival": wire.kinds_in(
        f"0 message(from node, {NAMED}, message frame) 1 order(order order, stamp u64) "
        "2 bytes(connection u64, bytes rest) 3 closed(connection u64)"
    ),
    "outgoing": wire.kinds_in(
        f"0 stands(items u64, last u64) 1 sent({NAMED}, message frame) "
        "2 completed(stamp u64, id id, answer answer, by option of capture) 3 refused(input u64, number byte) "
        f"4 no-parcel(input u64, at u64) 5 withheld({NAMED}) 6 pending(id id) "
        "7 bytes(connection u64, bytes rest) 8 close(connection u64) 9 more(connection u64)"
    ),
}
wire.SPECIAL["frame"] = lambda io, given, _: io.message(given)
wire.SPECIAL["rest"] = lambda io, given, _: io.rest(given)


class TooLong(Exception):
    """No parcel has the length that stands there, so nothing behind it can be found."""


class Reader(wire.Reader):
    """Reads the items of a parcel, and frames."""

    def message(self, given):
        try:
            message, behind = wire.decode(self.frame[self.place :])
        except (wire.ShortFrame, wire.BadFrame) as why:
            raise wire.BadFrame(self.place) from why
        self.places.append(self.place)
        self.place = len(self.frame) - len(behind)
        return message

    def rest(self, given):
        """All bytes that are left, in hexadecimal digits."""
        rest = bytes(self.frame[self.place :]).hex()
        self.place = len(self.frame)
        return rest


class Writer(wire.Writer):
    """Writes the items that are given, and frames."""

    def message(self, given):
        self.frame += wire.encode(given)
        return given

    def rest(self, given):
        self.frame += bytes.fromhex(given)
        return given


class Maker(wire.Maker):
    """Makes items by chance, and frames."""

    def message(self, given):
        return wire.made(self.chance, *self.chance.choice(list(wire.KINDS["body"].values())))

    def rest(self, given):
        return self.chance.randbytes(self.chance.randrange(100)).hex()


def decode(way, data):
    """The parcel that the bytes begin with, and the bytes behind it. A `curpwire.ShortFrame` tells how many bytes are
    needed, and a `curpwire.BadFrame` the place of the first fault and how many bytes to pass over."""
    if len(data) < 4:
        raise wire.ShortFrame(4)
    length = int.from_bytes(data[:4], "big")
    if length > MOST:
        raise TooLong
    if len(data) < 4 + length:
        raise wire.ShortFrame(4 + length)
    reader = Reader(data[: 4 + length])
    try:
        parcel = wire.walk(reader, WAYS[way])
        if reader.place < 4 + length:
            raise wire.BadFrame(reader.place)
    except wire.BadFrame as bad:
        raise wire.BadFrame(bad.place, 4 + length) from bad
    return parcel, data[4 + length :]


def encode(way, parcel):
    """The bytes of a parcel. Where an item isn't valid that is a `curpwire.BadFrame`."""
    writer = Writer()
    if wire.walk(writer, WAYS[way], parcel) != parcel:
        raise ValueError("no parcel")
    return (len(writer.frame) - 4).to_bytes(4, "big") + bytes(writer.frame[4:])


# ---- the check

WANTED = {"examples read": 20}  # how many the page has. Whoever adds one raises it, so that none is lost unseen


def told_of(way, data):
    """What stands beside bytes on the page: the parcel, or why there is none."""
    try:
        parcel, behind = decode(way, data)
        return wire.json_of({"behind": len(behind)} if behind else parcel)
    except wire.ShortFrame as short:
        return wire.json_of({"short": short.needed})
    except wire.BadFrame as bad:
        return wire.json_of({"bad": bad.place})
    except TooLong:
        return wire.json_of({"too-long": int.from_bytes(data[:4], "big")})


def check_examples(check, page):
    shown = set()
    for way in WAYS:
        section = page.split(f"### Examples of what {'comes in' if way == 'in' else 'goes out'}\n")[1].split("\n#")[0]
        for words, told in wire.EXAMPLE.findall(section):
            data, parcel = bytes.fromhex(words), json.loads(told)
            check.same("examples read", told_of(way, data), told)
            if "kind" in parcel:
                shown.add((way, parcel["kind"]))
                check.same("examples written", encode(way, parcel).hex(), data.hex())
    every = {(way, kind) for way, name in WAYS.items() for kind, _ in wire.KINDS[name].values()}
    check.same("kinds with an example", shown, every)


def made(chance, kind, fields):
    """A parcel of that kind. It is made anew where nothing can stand behind an item."""
    while True:
        try:
            return {"kind": kind, **wire.walk_fields(Maker(chance), fields)}
        except wire.BadFrame:
            continue


def check_made(check):
    """A hundred parcels of each kind, each before the next one, and cut after each byte."""
    for way, name in WAYS.items():
        for kind, fields in wire.KINDS[name].values():
            chance = random.Random(kind)
            parcels = [made(chance, kind, fields) for _ in range(100)]
            for parcel, other in zip(parcels, parcels[1:] + parcels[:1]):
                data, behind = encode(way, parcel), encode(way, other)
                check.same("made parcels before another", decode(way, data + behind), (parcel, behind))
                for end in range(len(data)):
                    short = {"short": 4 if end < 4 else len(data)}
                    check.same("made parcels that are cut off", told_of(way, data[:end]), wire.json_of(short))


def check_all():
    check = wire.Check()
    check_examples(check, (wire.TOP / "docs" / "PARCELS.md").read_text(encoding="utf-8"))
    check_made(check)
    for what, count in WANTED.items():
        check.same("counts", f"{what}: {check.counts[what]}", f"{what}: {count}")
    for wrong in check.wrong[:20]:
        print(wrong)
    for what, count in check.counts.items():
        print(f"{count:9,} {what}")
    print(f"{len(check.wrong)} differ")
    return 1 if check.wrong else 0


def print_file(way, name):
    """Prints the parcels of a file. What is none is told and passed over."""
    whole = rest = memoryview(Path(name).read_bytes())
    while rest:
        place = len(whole) - len(rest)
        try:
            parcel, rest = decode(way, rest)
            print(wire.json_of(parcel))
        except wire.BadFrame as bad:
            print(wire.json_of({"no-parcel": place, "bad": place + bad.place}))
            rest = rest[bad.args[1] :]
        except (wire.ShortFrame, TooLong) as why:
            sys.exit(f"{name}: behind {place} bytes: {why!r}")


def main(words):
    if words == ["--check"]:
        sys.exit(check_all())
    if len(words) != 2 or words[0] not in ("--in", "--out"):
        sys.exit(__doc__)
    print_file(words[0].removeprefix("--"), words[1])


if __name__ == "__main__":
    main(sys.argv[1:])
