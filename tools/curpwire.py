#!/usr/bin/env python3
"""Encodes and decodes the frames of curp's messages, as docs/WIRE.md has them.

    tools/curpwire.py --read FILE    prints the frames of a file, one line of JSON each
    tools/curpwire.py --check        compares this program with docs/WIRE.md and with tables of the tests in crates, and
                                     what it encodes with what it decodes

As a module it has `encode` and `decode`. A message is a dict as JSON has it, with the names of docs/WIRE.md:
{"kind": "fetch", "from": "C1", "to": "G"}. A check prints how many it compared, and ends with 1 at a difference.
"""

import json
import random
import re
import sys
from collections import Counter
from pathlib import Path

LEAST, MOST = 11, 4_294_967_295  # bytes behind the length of a frame
NODES = "GCMBW"  # manager, client, master, backup, witness
SIZES = {"byte": 1, "truth": 1, "count": 4, "u32": 4, "u64": 8, "hash": 8, "node": 5}  # bytes
STRINGS = {"key": (1, 32), "value": (0, 128)}  # least and most bytes, behind a byte for their number

# The types that have fields: each field with its type.
RECORDS = {
    "id": "client u32, seq u32",
    "range": "lo hash, hi hash",
    "pair": "key key, value value",
    "request": "id id, first u32, command command",
    "record": "id id, answer answer",
    "first": "client u32, first u32",
    "package": "range range, pairs ascending list of pair, records ascending list of record, "
    "firsts ascending list of first, gone ascending list of u32",
    "partition": "part u32, epoch u32, version u32, master node, backups list of node, witnesses list of node, "
    "ranges ascending list of range",
}

# The types that are a byte and then fields by that byte: each byte with its kind and fields.
KINDS = {
    "command": "1 get(key key) 2 put(key key, value value) 3 delete(key key) 4 incr(key key) "
    "5 append(key key, value value) 6 condput(key key, expected option of value, value value) 7 multi(pairs pairs)",
    "answer": "1 done 2 removed(was truth) 3 number(number u64) 4 length(length u32) 5 swapped(did truth) 6 not-number "
    "7 overflow 8 too-long 9 found(value option of value)",
    "refusal": "1 version(current u32) 2 epoch(current u32) 3 not-owner 4 stale(first u32) 5 in-progress 6 expired "
    "7 switching",
    "reason": "1 conflict(held id) 2 full(set u32) 3 frozen 4 stranger(epoch u32) 5 idle",
    "append-answer": "0 stored(length u64) 1 fenced(epoch u32) 2 gap(length u64) 3 not-installed",
    "gc-answer": "0 suspects(requests list of request) 1 stranger(epoch option of u32)",
    "fence-reply": "0 log(entries list of entry) 1 fenced(epoch u32)",
    "entry": "1 op(request request, acknowledge u32) 2 take(migration u32, package package) "
    "3 give(migration u32, package package) 4 expire(client u32)",
    "body": """
        1 update(request request, epoch u32, version u32)
        2 sync(request request, epoch u32, version u32)
        3 read(request request, epoch u32, version u32)
        4 record(request request, epoch u32)
        5 fetch
        6 configuration(serial u32, parts list of partition)
        7 reply(id id, synced truth, epoch u32, version u32, answer answer)
        8 worth(id id, epoch u32, capture u64, answer answer)
        9 refuse(id id, refusal refusal)
        10 accepted(id id, epoch u32)
        11 rejected(id id, reason reason)
        12 append(epoch u32, base u64, round u64, entries list of entry)
        13 appended(epoch u32, round u64, answer append-answer)
        14 gc(epoch u32, ids list of id)
        15 collected(epoch u32, answer gc-answer)
        16 install(epoch u32)
        17 start(part u32, epoch u32)
        18 recover(part u32, epoch u32, version u32, backup node, witness node,
            backups list of node, witnesses list of node, range range)
        19 fence(epoch u32)
        20 fence-answer(epoch u32, answer fence-reply)
        21 freeze(epoch u32)
        22 frozen-answer(requests list of request)
        23 recovered(part u32, epoch u32)
        24 adopted(part u32, epoch u32, version u32)
        25 prepare(version u32, backups list of node, witnesses list of node)
        26 prepared(version u32)
        27 take-out(migration u32, range range)
        28 taken(migration u32, package package)
        29 give-in(migration u32, package package)
        30 given(migration u32)
        31 expire-client(client u32)
        32 probe(id id, epoch u32)
        33 probed(id id, epoch u32, live truth)
        34 glance(request request, epoch u32, version u32)
        35 quick(id id, epoch u32, version u32, capture u64, answer answer)
    """,
}


def fields_in(text):
    """Fields with their types, as the tables have them."""
    return [tuple(field.split(" ", 1)) for field in text.split(", ")] if text else []


def kinds_in(text):
    """Kinds and their fields by their bytes, as the tables have them."""
    found = re.findall(r"(\d+) ([a-z-]+)(?:\((.*?)\))?", " ".join(text.split()))
    return {int(byte): (kind, fields_in(fields)) for byte, kind, fields in found}


RECORDS = {name: fields_in(text) for name, text in RECORDS.items()}
KINDS = {name: kinds_in(text) for name, text in KINDS.items()}
# The sender and the addressee stand between the tag and the fields of a body.
ENDS = fields_in("from node, to node")
KINDS["body"] = {tag: (kind, ENDS + fields) for tag, (kind, fields) in KINDS["body"].items()}


class ShortFrame(Exception):
    """A frame is cut off: so many bytes of it are needed, 4, or all of them once its length is there."""

    needed = property(lambda self: self.args[0])


class BadFrame(Exception):
    """There is no frame: this is the place of the first item that doesn't end within it or isn't valid."""

    place = property(lambda self: self.args[0])


# ---- items: what is read whole or not at all


def to_bytes(name, item):
    """The bytes of an item of that type."""
    if name == "node":
        return bytes([NODES.index(item[:1])]) + int(item[1:] or 0).to_bytes(4, "big")
    if name in STRINGS:
        return bytes([len(item) // 2]) + bytes.fromhex(item)
    return bytes.fromhex(item) if name == "hash" else item.to_bytes(SIZES[name], "big")


def from_bytes(name, data):
    """The item of that type which has these bytes; None where there is none."""
    if name in STRINGS:
        least, most = STRINGS[name]
        return data[1:].hex() if least <= data[0] <= most else None
    if name == "hash":
        return data.hex()
    if name == "truth":
        return {0: False, 1: True}.get(data[0])
    if name != "node":
        return int.from_bytes(data, "big")
    kind, number = data[0], int.from_bytes(data[1:], "big")
    if kind >= len(NODES) or (kind == 0) != (number == 0):
        return None
    return NODES[kind] + (str(number) if number else "")


class Reader:
    """Reads the items of a frame, from the tag on, and keeps their places."""

    def __init__(self, frame):
        self.frame, self.place, self.places = frame, 4, [0]

    def item(self, name, given, is_valid=None):
        size = SIZES.get(name) or 1 + int.from_bytes(self.frame[self.place : self.place + 1], "big")
        data = bytes(self.frame[self.place : self.place + size])
        item = from_bytes(name, data) if len(data) == size else None
        if item is None or (is_valid and not is_valid(item)):
            raise BadFrame(self.place)
        self.places.append(self.place)
        self.place += size
        return item


class Writer:
    """Writes the items that are given. The first four bytes wait for the length."""

    def __init__(self):
        self.frame = bytearray(4)

    def item(self, name, given, is_valid=None):
        data = to_bytes(name, given)
        if from_bytes(name, data) != given or (is_valid and not is_valid(given)):
            raise BadFrame(len(self.frame))
        self.frame += data
        return given


# ---- what is made of items: these go through `io`, a reader or a writer, in their order


def walk(io, name, given=None, last=None):
    """What has that type. `given` is what to write; `last` stands before it in a list that ascends."""
    how, _, each = name.rpartition(" of ")
    if how == "option":
        return walk(io, each, given) if io.item("truth", given is not None) else None
    if how:
        return walk_list(io, each, given or (), how == "ascending list")
    if name in KINDS:
        return walk_kind(io, KINDS[name], given)
    if name in SPECIAL:
        return SPECIAL[name](io, given, last)
    if name in RECORDS:
        return walk_fields(io, RECORDS[name], given, last)
    return io.item(name, given, lambda item: last is None or last < item)


def walk_list(io, each, given, ascends):
    items = []
    for at in range(io.item("count", len(given))):
        items.append(walk(io, each, given and given[at], items[-1] if ascends and items else None))
    return items


def walk_kind(io, kinds, given):
    byte = given and next((byte for byte, (kind, _) in kinds.items() if kind == given["kind"]), 255)
    kind, fields = kinds[io.item("byte", byte, lambda byte: byte in kinds)]
    return {"kind": kind, **walk_fields(io, fields, given)}


def walk_fields(io, fields, given=None, last=None):
    """In a list that ascends the first field does."""
    found = {}
    for field, name in fields:
        found[field] = walk(io, name, given and given[field], last[field] if last and not found else None)
    return found


def walk_id(io, given, last):
    client = io.item("u32", given and given["client"], lambda client: not last or last["client"] <= client)
    above = last["seq"] if last and last["client"] == client else -1
    return {"client": client, "seq": io.item("u32", given and given["seq"], lambda seq: above < seq)}


def walk_range(io, given, last):
    """In a list that ascends a hash lies between two ranges."""
    lo = io.item("hash", given and given["lo"], lambda lo: not last or int(last["hi"], 16) + 1 < int(lo, 16))
    return {"lo": lo, "hi": io.item("hash", given and given["hi"], lambda hi: lo <= hi)}


def walk_pairs(io, given, _):
    """No key stands twice."""
    pairs = []
    for at in range(io.item("byte", len(given or ()), lambda count: 1 <= count <= 4)):
        key = io.item("key", given and given[at]["key"], lambda key: all(key != pair["key"] for pair in pairs))
        pairs.append({"key": key, "value": io.item("value", given and given[at]["value"])})
    return pairs


SPECIAL = {"id": walk_id, "range": walk_range, "pairs": walk_pairs}


# ---- frames


def decode(data):
    """The message whose frame the bytes begin with, and the bytes behind that frame."""
    if len(data) < 4:
        raise ShortFrame(4)
    length = int.from_bytes(data[:4], "big")
    if not LEAST <= length <= MOST:
        raise BadFrame(0)
    if len(data) < 4 + length:
        raise ShortFrame(4 + length)
    return read_frame(data[: 4 + length])[0], data[4 + length :]


def read_frame(frame):
    """The message of a whole frame, and the places of its items."""
    reader = Reader(frame)
    message = walk(reader, "body")
    if reader.place < len(frame):
        raise BadFrame(reader.place)
    return message, reader.places


def encode(message):
    """The frame of a message. Where an item isn't valid that is a BadFrame, and what is no message is a ValueError."""
    writer = Writer()
    try:
        written = walk(writer, "body", message)
    except (ArithmeticError, AttributeError, LookupError, TypeError) as fault:
        raise ValueError(f"no message: {fault!r}") from fault
    if written != message:
        raise ValueError(f"no message: it would be written as {written}")
    length = len(writer.frame) - 4
    if length > MOST:
        raise BadFrame(0)
    return length.to_bytes(4, "big") + bytes(writer.frame[4:])


# ---- the check

TOP = Path(__file__).resolve().parent.parent
FRAMES, FAULTS = "curp_test_frames/src/bodies.rt", "curp_test_encodings/src/faults.rt"
# How many the page and these have. Whoever adds one raises it, so that none is lost unseen.
WANTED = {"examples decoded": 78, "frames of the tests": 67, "faults of the tests": 51}
EXAMPLE = re.compile(r"((?:^ {4}[0-9a-f][0-9a-f ]*\n)+) {4}(\{.*\})", re.MULTILINE)
RECORD = re.compile(r"^\| ([a-z]+) \| (`[^|]*) \|", re.MULTILINE)
ONE_OF = re.compile(r"^An? \*\*([a-z-]+)\*\* is a byte and then its fields:\n\n((?:\|.*\n)+)", re.MULTILINE)
ONE_KIND = re.compile(r"^\| (\d+) \| `([a-z-]+)` \| ([^|]*) \|", re.MULTILINE)
BODY = re.compile(r"^### (\d+) ([a-z-]+)\n[^#]*?^Fields: (.*)\.$", re.MULTILINE)
TEST_FRAME = re.compile(r'"([0-9a-f]{8} [0-9a-f ]+)"')
TEST_FAULT = re.compile(r'"([0-9a-f ]+)",\s*(?:(\d+)|FrameError::(?:BadTag|Short \{\s*need: ([\d_]+),?\s*\})),?\s*\)')


class Check:
    """What was compared, and what differed."""

    def __init__(self):
        self.counts, self.wrong = Counter(), []

    def same(self, what, found, wanted):
        self.counts[what] += 1
        if found != wanted:
            self.wrong.append(f"{what}: {found}\n    wanted {wanted}")


class Maker:
    """Makes items by chance, in place of a reader."""

    def __init__(self, chance):
        self.chance = chance

    def item(self, name, given, is_valid=None):
        for _ in range(100):
            item = from_bytes(name, self.bytes_of(name))
            if item is not None and (is_valid is None or is_valid(item)):
                return item
        raise BadFrame(0)

    def bytes_of(self, name):
        chance = self.chance
        if name in STRINGS:
            size = chance.choice([*STRINGS[name], 2])
            return bytes([size]) + chance.randbytes(size)
        if name in ("byte", "count"):
            return chance.randrange(4 if name == "count" else 10).to_bytes(SIZES[name], "big")
        size = SIZES[name]
        if name == "node":
            return bytes([chance.randrange(len(NODES))]) + self.bytes_of("u32")
        edge = chance.choice([bytes(size), b"\1".rjust(size, b"\0"), b"\xff" * size])
        return chance.choice([edge, chance.randbytes(size)])


def made(chance, kind, fields):
    """A message of that kind. It is made anew where nothing can stand behind an item."""
    while True:
        try:
            return {"kind": kind, **walk_fields(Maker(chance), fields)}
        except BadFrame:
            continue


def json_of(value):
    return json.dumps(value, separators=(",", ":"))


def told_of(data):
    """What stands beside bytes on the page: the message, or why there is none."""
    try:
        return json_of(decode(data)[0])
    except ShortFrame as short:
        return json_of({"short": short.needed})
    except BadFrame as bad:
        return json_of({"bad": bad.place})


def check_examples(check, page):
    """Gives the frames that the page shows."""
    shown = set()
    for words, told in EXAMPLE.findall(page):
        frame = bytes.fromhex(words)
        check.same("examples decoded", told_of(frame), told)
        if told == told_of(frame) and "kind" in json.loads(told):
            shown.add(frame)
            check.same("examples encoded", encode(json.loads(told)).hex(), frame.hex())
            sizes = [len(word) // 2 for word in words.split()]
            places = [sum(sizes[:at]) for at in range(len(sizes))]
            check.same("examples with their spaces", (words, places), (words, read_frame(frame)[1]))
    check.same("bodies with an example", {frame[4] for frame in shown}, set(KINDS["body"]))
    return shown


def check_tables(check, page):
    """Each row is a type, maybe with the byte of a kind and the kind, and its fields."""
    rows = RECORD.findall(page)
    for name, kinds in ONE_OF.findall(page):
        rows += [(f"{name} {byte} {kind}", fields) for byte, kind, fields in ONE_KIND.findall(kinds)]
    rows += [(f"body {tag} {kind}", f"from node, to node, {fields}") for tag, kind, fields in BODY.findall(page)]
    found = {row: fields_in(re.sub("`|(, )?none$", "", fields)) for row, fields in rows}
    kinds = [(f"{name} {byte} {kind}", fields) for name in KINDS for byte, (kind, fields) in KINDS[name].items()]
    wanted = RECORDS | dict(kinds)
    for row in sorted(found | wanted):
        check.same("rows of tables", (row, found.get(row)), (row, wanted.get(row)))


def check_tests(check, shown):
    """The page shows each frame of the tests, and this program tells each fault as they do."""
    source = {name: (TOP / "crates" / name).read_text(encoding="utf-8") for name in (FRAMES, FAULTS)}
    source = {name: re.sub(r"\\\n\s*", "", text) for name, text in source.items()}
    for words in TEST_FRAME.findall(source[FRAMES]):
        check.same("frames of the tests", (words, bytes.fromhex(words) in shown), (words, True))
    for words, place, need in TEST_FAULT.findall(source[FAULTS]):
        wanted = {"short": int(need)} if need else {"bad": int(place or 4)}
        check.same("faults of the tests", (words, told_of(bytes.fromhex(words))), (words, json_of(wanted)))


def check_made(check):
    """A hundred messages of each kind, each before the next one, and cut after each byte."""
    for kind, fields in KINDS["body"].values():
        chance = random.Random(kind)
        messages = [made(chance, kind, fields) for _ in range(100)]
        for message, other in zip(messages, messages[1:] + messages[:1]):
            frame, behind = encode(message), encode(other)
            check.same("made messages", decode(frame), (message, b""))
            check.same("made messages before another", decode(frame + behind), (message, behind))
            for end in range(len(frame)):
                short = {"short": 4 if end < 4 else len(frame)}
                check.same("made frames that are cut off", told_of(frame[:end]), json_of(short))


def check_all():
    check = Check()
    page = (TOP / "docs" / "WIRE.md").read_text(encoding="utf-8")
    check_tables(check, page)
    check_tests(check, check_examples(check, page))
    check_made(check)
    for what, count in WANTED.items():
        if check.counts[what] != count:
            check.wrong.append(f"{what}: {check.counts[what]}, but {count} are wanted: WANTED has the number")
    for wrong in check.wrong[:20]:
        print(wrong)
    for what, count in check.counts.items():
        print(f"{count:9,} {what}")
    print(f"{len(check.wrong)} differ")
    return 1 if check.wrong else 0


def print_file(name):
    """Prints the messages of a file up to what is no frame, of which it then tells."""
    whole = rest = memoryview(Path(name).read_bytes())
    while rest:
        try:
            message, behind = decode(rest)
        except (ShortFrame, BadFrame) as why:
            sys.exit(f"{name}: behind {len(whole) - len(rest)} bytes: {why!r}")
        print(json_of(message))
        rest = behind


def main(words):
    if words == ["--check"]:
        sys.exit(check_all())
    if len(words) != 2 or words[0] != "--read":
        sys.exit(__doc__)
    print_file(words[1])


if __name__ == "__main__":
    main(sys.argv[1:])
