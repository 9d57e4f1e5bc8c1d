#!/usr/bin/env python3
"""Runs each word of the programs at each value of its small options and on its largest inputs: where no memory is refused,
each ends well; none ends out of memory to which none was refused; and no run on threads is made more than twice.

    tools/memory_at_will.py CURP CURPD FOLDER [--short]

CURP and CURPD are the programs `curp` and `curpd`; journals are left in FOLDER. A run that ends well has status 0, nothing
on standard error and its whole text: all steps and the order that it says, replies and sums that are worked out here. Some
runs of each word are refused memory from a call on, as tools/shim.py does it: such a one ends with status 6 where a call
was refused, or as the run that is refused nothing.

--short takes each option's values one at a time, and none of the largest inputs. The status is 1 where a run did anything
else.
"""

import argparse
import concurrent.futures
import itertools
import json
import os
import subprocess
import sys
import time
from functools import partial
from pathlib import Path

sys.dont_write_bytecode = True
sys.path.insert(0, str(Path(__file__).resolve().parent))
import curpparcels as parcels  # noqa: E402
import shim  # noqa: E402

KEY, VALUE = 32, 128  # the most bytes of a key and of a value
STEPS = 150
SECONDS = 300
FEW = {"f": range(1, 6), "parts": range(1, 17), "ways": range(1, 17), "protocol": (1, 2)}
OTHER = {
    "clients": (1, 2, 3, 7, 8, 16, 31, 32, 63, 64),
    "sets": (1, 2, 3, 16, 63, 64, 1023, 1024),
    "recoveries": (0, 1, 2, 5, 9),
}
REFUSED_AT = 40  # runs of a word that are refused memory


class Wrong(Exception):
    """A run did something else than is wanted."""


def want(what, holds):
    if not holds:
        raise Wrong(what)


def well(program, words, given=b""):
    """What a run writes that ends well."""
    ended = subprocess.run([program, *map(str, words)], input=given, capture_output=True, timeout=SECONDS)
    told = f"{' '.join(map(str, words))[:200]}: status {ended.returncode}, {ended.stderr[-200:]!r}"
    want(told, ended.returncode == 0 and not ended.stderr)
    return ended.stdout


def options(shape):
    return [word for name, value in shape.items() for word in (f"--{name}", value)]


def line_of(fields):
    return json.dumps(fields, separators=(",", ":"), sort_keys=True).encode() + b"\n"


# ---- shapes


def one_at_a_time():
    """Shapes in which one option has each of its values."""
    middle = {"f": 3, "parts": 2, "ways": 4, "protocol": 1, "clients": 8, "sets": 64, "recoveries": 3}
    for name, values in (FEW | OTHER).items():
        for value in values:
            yield {**middle, name: value}


def all_shapes():
    """Each f with each number of parts and of ways and either protocol; the other options turn."""
    turns = {name: itertools.cycle(values) for name, values in OTHER.items()}
    for values in itertools.product(*FEW.values()):
        yield dict(zip(FEW, values)) | {name: next(turn) for name, turn in turns.items()}


# ---- what is whole


def is_played(text, steps):
    """Whether it is the whole text of so many steps."""
    ran, at, order = text.rpartition(b"\norder ")
    count, _, places = order.partition(b"\n")
    told = sum(line[:1] == b"s" for line in ran.split(b"\n"))
    return bool(at) and told == steps and places.count(b"\n") == int(count)


def plays(curp, script, steps):
    """A script is played to its end, and `check` says yes to its history."""
    want("the text isn't whole", is_played(well(curp, ["play"], script), steps))
    history = well(curp, ["play", "--history"], script)
    want("an empty history", history or b'"ev"' not in script)
    want("check doesn't say yes", well(curp, ["check"], history) == b"yes\n")


def made(curp, shape, steps=STEPS):
    """A made script, played."""
    words = ["make", "--steps", steps, *options(shape)]
    script = well(curp, words)
    want(f"{words}: the script isn't whole", script.count(b"\n") == steps + 1)
    summary = well(curp, [*words, "--summary"]).split()
    want(f"{words}: {summary}", len(summary) == 12 and summary[:2] == [b"steps", str(steps).encode()])
    plays(curp, script, steps)


def threads_of(shape):
    """How many threads a run starts: two for each node, of the opening and of each recovery."""
    return 2 * (1 + shape["clients"] + (shape["parts"] + shape["recoveries"]) * (1 + 2 * shape["f"]))


def live(curp, library, shape, commands=3):
    """A run on threads that is made twice at most, and whose script is played to the text behind it, in which all is
    completed."""
    shape = {**shape, "clients": min(shape["clients"], 16), "recoveries": min(shape["recoveries"], 8), "commands": commands}
    ended = library.run([curp, "live", *map(str, options(shape))], seconds=SECONDS)
    want(f"live {shape}: status {ended.status}, {ended.err[-200:]!r}", ended.status == 0 and not ended.err)
    runs = ended.counts.threads / threads_of(shape)
    want(f"live {shape}: made {runs} times", runs in (1, 2))
    script, gap, text = ended.out.partition(b"\n\n")
    want(f"live {shape}: no empty line", gap)
    steps = script.count(b"\n")
    want(f"live {shape}: its text isn't whole", is_played(text, steps))
    want(f"live {shape}: another text is played", well(curp, ["play"], script + b"\n") == text)
    order = int(text.rpartition(b"\norder ")[2].split(b"\n")[0])
    want(f"live {shape}: {order} requests", order == shape["clients"] * commands)


def session(count):
    """Requests of the longest keys and values, and their replies."""
    store, texts, replies = {}, [], []
    for number in range(count):
        key, value = f"{number % 11:0{KEY}d}", f"{number:0{VALUE}d}"
        if number % 2:
            found = store.get(key)
            words, reply = ["get", key], "$-1\r\n" if found is None else f"${len(found)}\r\n{found}\r\n"
        else:
            words, reply = ["SET", key, value], "+OK\r\n"
            store[key] = value
        texts.append(f"*{len(words)}\r\n" + "".join(f"${len(word)}\r\n{word}\r\n" for word in words))
        replies.append(reply)
    return "".join(texts).encode(), "".join(replies).encode()


def resp(curp, f, every, count=60):
    requests, replies = session(count)
    words = ["resp", "--f", f, "--every", every]
    want(f"{words}: other replies", well(curp, words, requests) == replies)
    script = well(curp, [*words, "--script"], requests)
    plays(curp, script, script.count(b"\n") - 1)


def is_fast(shape):
    """Whether the clients of a header are fast, where the shape says nothing of it."""
    return shape["ways"] % 2 == 0


def header(shape):
    named = ("clients", "f", "parts", "protocol", "sets", "ways")
    return line_of({name: shape[name] for name in named} | {"fast": is_fast(shape)})


def manage(curp, shape, rounds=1):
    """Each order to the manager, and crashes: each line but a crash has its step, and all that was kept is counted."""
    lines = []
    for part in range(1, shape["parts"] + 1):
        for place in range(1, shape["f"] + 1):
            lines += [{"do": "recover", "part": part, "backup": place, "witness": place}, {"do": "nudge"}]
            lines += [{"do": "replace", "kind": kind, "part": part, "place": place} for kind in ("backup", "witness")]
            lines += [{"do": "crash", "call": place % 4 + 1, "kept": part % 2 == 0}, {"do": "expire", "client": 1}]
    lines *= rounds
    text = well(curp, ["manage"], header(shape) + b"".join(map(line_of, lines)))
    steps = [line.split(b" ", 1)[1] for line in text.split(b"\n") if line[:1] == b"s"]
    kept = sum(told in (b"done", b"stopped kept") for told in steps) - sum(line["do"] == "crash" for line in lines)
    want(f"manage {shape}: {len(steps)} steps of {len(lines)}", len(steps) == len(lines))
    want(f"manage {shape}: {text[-40:]!r}, and {kept} were kept", text.endswith(b"decisions %d\n" % kept))


def history(count):
    """Puts and gets of the longest keys and values, one after the other, and their order."""
    events, places, store = [], [], {}
    for number in range(1, count + 1):
        key, value = f"{number % 97:0{2 * KEY}x}", f"{number:0{2 * VALUE}x}"
        command = ["put", key, value] if number % 2 else ["get", key]
        answer = ["done"] if number % 2 else ["found", store.get(key)]
        if number % 2:
            store[key] = value
        id_ = [number % 64 + 1, number]
        events.append(line_of({"cmd": command, "ev": "invoke", "id": id_}))
        events.append(line_of({"ans": answer, "ev": "complete", "id": id_}))
        places.append(line_of({"cmd": command, "ev": "place", "id": id_}))
    return b"".join(events + places)


def check(curp, count):
    want(f"check of {3 * count} lines", well(curp, ["check"], history(count)) == b"yes\n")


# ---- nodes


def order(kind, **fields):
    return parcels.encode("in", {"kind": "order", "order": {"kind": kind, **fields}, "stamp": 0})


KINDS = [kind for kind, _ in parcels.wire.KINDS["outgoing"].values()]


def kinds(data):
    """The kinds of the parcels that a process said."""
    found, place = [], 0
    while place < len(data):
        found.append(KINDS[data[place + 4]])
        place += 4 + int.from_bytes(data[place : place + 4], "big")
    want("a parcel is cut off", place == len(data))
    return found


def node(curpd, folder, shape, name, given, wanted, more=()):
    """A node with a new journal gets this, and says so many parcels of each kind."""
    journal = folder / f"{'-'.join(map(str, (name, *more, *shape.values())))}.journal"
    journal.unlink(missing_ok=True)
    words = ["--name", name, "--header", header(shape).decode().strip(), "--journal", journal]
    well(curpd, ["format", *words])
    said = kinds(well(curpd, ["node", *words, *more], given))
    want(f"{name} {shape} says {said[:9]}", {kind: said.count(kind) for kind in set(said)} == wanted)
    again = kinds(well(curpd, ["node", *words]))
    want(f"{name} {shape} says {again[:9]} when it is opened", again[:1] == ["stands"])
    return journal


def nodes(curpd, folder, shape):
    """A node of each kind, with the greatest number of the opening, and what they did, gathered."""
    f, parts, clients = shape["f"], shape["parts"], shape["clients"]
    command = {"kind": "put", "key": "6b" * KEY, "value": "76" * VALUE}
    # Asked are the manager, the master, and by a fast client each witness.
    said = {"stands": 1, "sent": 2 + f * is_fast(shape)}
    journals = [
        node(curpd, folder, shape, f"C{clients}", order("fetch") + order("invoke", command=command), said),
        node(curpd, folder, shape, "G", order("recover", part=parts, backup=f, witness=f), {"stands": 1, "sent": 2 * f + 1}),
    ]
    if shape["ways"] % 2:
        journals.pop(0)
    for name in (f"M{parts}", f"B{parts * f}", f"W{parts * f}", "M99", "B99", "W99"):
        node(curpd, folder, shape, name, b"", {"stands": 1})
    ping = {"kind": "bytes", "connection": 1, "bytes": b"*1\r\n$4\r\nPING\r\n".hex()}
    told = {"stands": 1, "bytes": 1, "more": 1}
    node(curpd, folder, shape, "C1", parcels.encode("in", ping), told, ["--resp"])
    script = well(curpd, ["gather", *journals]).partition(b"\n\n")[0]
    want(f"gather {shape}: {script}", script.count(b"\n") == (3 if len(journals) == 2 else 1))


# ---- lengths


def recovered(commands):
    """A client that isn't fast asks for commands, one after the other; then the master is recovered."""
    lines = [b'{"clients":1,"f":1,"fast":false,"parts":1,"protocol":1,"sets":1024,"ways":16}\n']
    for number, command in enumerate(commands):
        lines.append(line_of({"client": 1, "cmd": command, "do": "invoke"}))
        lines += [b'{"do":"deliver","msg":%d}\n' % (4 * number + place) for place in (1, 2, 3, 4)]
    lines.append(b'{"backup":1,"do":"recover","part":1,"witness":1}\n')
    lines += [b'{"do":"deliver","msg":%d}\n' % (4 * len(commands) + place) for place in (1, 3, 4, 5, 6, 7, 8, 9, 10, 11)]
    return b"".join(lines), len(lines) - 1


def plays_recovered(curp, commands):
    script, steps = recovered(commands)
    text = well(curp, ["play"], script)
    want("the recovery isn't whole", is_played(text, steps) and b" adopted " in text and b" refused " not in text)
    want("not all is completed", text.count(b"\nc 1.") == len(commands) > 0)
    return script, steps


# A key of each length with the longest value, and a value of each length under the longest key.
LENGTHS = [(key, VALUE) for key in range(1, KEY + 1)] + [(KEY, value) for value in range(VALUE + 1)]


def commands_of(key, value):
    """Each command, on a key and with a value of so many bytes."""
    key, value = "6b" * key, "76" * value
    with_value = [["put", key, value], ["condput", key, value, value], ["multi", key, value], ["append", key, ""]]
    return [*with_value, ["get", key], ["delete", key], ["append", key, value], ["incr", key]]


def plays_lengths(curp):
    script, steps = plays_recovered(curp, [command for lengths in LENGTHS for command in commands_of(*lengths)])
    plays(curp, script, steps)


def resp_of_lengths(curp):
    """A put and a get of each length, and their replies."""
    requests, replies = b"", b""
    for key, value in LENGTHS:
        key, value = b"k" * key, b"v" * value
        requests += b"*3\r\n$3\r\nSET\r\n$%d\r\n%s\r\n$%d\r\n%s\r\n" % (len(key), key, len(value), value)
        requests += b"*2\r\n$3\r\nGET\r\n$%d\r\n%s\r\n" % (len(key), key)
        replies += b"+OK\r\n$%d\r\n%s\r\n" % (len(value), value)
    want("other replies to each length", well(curp, ["resp", "--f", "2", "--every", "9"], requests) == replies)


def nodes_of_lengths(curpd, folder):
    """A client for each length takes its commands, of which it has eight pending at most, and asks the master for each."""
    folder.mkdir(exist_ok=True)
    shape = {"f": 1, "parts": 1, "ways": 1, "protocol": 1, "clients": 1, "sets": 16}
    for lengths in LENGTHS:
        given = b"".join(order("invoke", command=kept(command)) for command in commands_of(*lengths))
        node(curpd, folder, shape, "C1", given, {"stands": 1, "sent": 8})


def kept(command):
    """A command of a line, as it stands in a parcel."""
    kind, key, *values = command
    if kind == "multi":
        return {"kind": kind, "pairs": [{"key": key, "value": values[0]}]}
    fields = {"put": ["value"], "append": ["value"], "condput": ["expected", "value"]}.get(kind, [])
    return {"kind": kind, "key": key} | dict(zip(fields, values))


# ---- the largest inputs


def largest_recovery(curp):
    puts = [["put", f"{number:0{2 * KEY}x}", f"{number:0{2 * VALUE}x}"] for number in range(36_000)]
    plays_recovered(curp, puts)


def largest(curp, curpd, folder, library):
    """Each word on its largest inputs."""
    shape = {"f": 5, "parts": 16, "ways": 16, "protocol": 2, "clients": 64, "sets": 1024, "recoveries": 64}
    yield "made scripts", lambda: made(curp, shape, 200_000)
    yield "made scripts of few nodes", lambda: made(curp, {"f": 1, "parts": 1, "clients": 1}, 200_000)
    yield "a recovery", lambda: largest_recovery(curp)
    yield "a run on threads", lambda: live(curp, library, shape, 100)
    yield "requests", lambda: resp(curp, 1, 1000, 12_000)
    yield "requests with five backups", lambda: resp(curp, 5, 0, 4_000)
    yield "orders", lambda: manage(curp, shape, 6)
    yield "a history", lambda: check(curp, 133_333)
    few = {"f": 1, "parts": 1, "ways": 4, "protocol": 1, "clients": 2, "sets": 16}
    count = 199_999
    wanted = {"stands": 1, "sent": count}

    def gathered():
        journal = node(curpd, folder, few, "C1", order("fetch") * count, wanted)
        script, _, text = well(curpd, ["gather", journal]).partition(b"\n\n")
        want("a gathered script", script.count(b"\n") == count and is_played(b"\n" + text, count))

    yield "a journal, gathered", gathered


# ---- refusals


def refused_runs(curp, curpd, folder):
    """A run of each word, each with its input."""
    script = well(curp, ["make", "--steps", "60", "--clients", "2"])
    few = {"f": 1, "parts": 1, "ways": 4, "protocol": 1, "clients": 2, "sets": 16}
    journal = node(curpd, folder, few, "G", order("nudge"), {"stands": 1, "sent": 2})
    named = ["--name", "G", "--header", header(few).decode().strip(), "--journal", str(journal)]
    yield [curp, "play"], script
    yield [curp, "play", "--history"], script
    yield [curp, "make", "--steps", "60", "--clients", "2"], b""
    yield [curp, "make", "--steps", "60", "--clients", "2", "--summary"], b""
    yield [curp, "check"], history(20)
    yield [curp, "resp", "--every", "3"], session(10)[0]
    yield [curp, "manage"], header(few) + line_of({"do": "expire", "client": 1}) * 20
    yield [curpd, "node", *named], order("expire", client=1)
    yield [curpd, "gather", str(journal)], b""


def refuse(library, command, given):
    """Refuses memory to a run from each of some calls on, and beyond its last. A journal grows from run to run, so a node's
    runs are compared by their status alone."""
    whole = library.run(command, given)
    want(f"{command}: {whole}", whole.status == 0 and not whole.counts.refused)
    is_node = "node" in command
    step = max(1, whole.counts.calls // REFUSED_AT)
    ended = 0
    for call in [*range(1, whole.counts.calls + 1, step), whole.counts.calls + 10_000]:
        ran = library.run(command, given, shim.each_from(call))
        told = f"{command[1:3]}, refused from call {call} on: {ran.status}, {ran.err}, {ran.counts}"
        want(told, ran.status == 6 if ran.counts.refused else ran.status == 0 and (is_node or ran.what() == whole.what()))
        ended += ran.status == 6
    want(f"{command}: no run was ended", ended)
    return ended


# ---- all of it


def all_at_once(name, runs, workers=os.cpu_count()):
    """Makes all runs, and tells how many there were, and the first that is wrong."""
    begun = time.monotonic()
    with concurrent.futures.ThreadPoolExecutor(workers) as pool:
        started = [pool.submit(run) for run in runs]
    want(f"{name}: no run", started)
    for it in started:
        it.result()
    print(f"{name}: {len(started)} runs, {time.monotonic() - begun:.1f} s", flush=True)


def main():
    parser = argparse.ArgumentParser(description=__doc__, formatter_class=argparse.RawDescriptionHelpFormatter)
    parser.add_argument("curp")
    parser.add_argument("curpd")
    parser.add_argument("folder")
    parser.add_argument("--short", action="store_true")
    given = parser.parse_args()
    curp, curpd, folder = os.path.abspath(given.curp), os.path.abspath(given.curpd), Path(given.folder).resolve()
    folder.mkdir(parents=True, exist_ok=True)
    library = shim.Shim(folder)
    alone = list(one_at_a_time())
    shapes = alone if given.short else alone + list(all_shapes())
    small = {tuple(shape.items()): shape for shape in shapes if not given.short or shape["clients"] == 8}.values()
    try:
        all_at_once("made scripts", [lambda it=it: made(curp, it) for it in shapes])
        of_threads = small if given.short else [it for it in shapes if it["ways"] % 5 == 1]
        all_at_once("runs on threads", [lambda it=it: live(curp, library, it) for it in of_threads], 1 + os.cpu_count() // 2)
        all_at_once("requests", [lambda f=f, e=e: resp(curp, f, e) for f in range(1, 6) for e in range(10)])
        all_at_once("orders", [lambda it=it: manage(curp, it) for it in small])
        all_at_once("histories", [lambda n=n: check(curp, n) for n in (*range(1, 40), 128, 1000)])
        all_at_once("nodes", [lambda it=it: nodes(curpd, folder, it) for it in small])
        lengths = folder / "lengths"
        of_lengths = [partial(plays_lengths, curp), partial(resp_of_lengths, curp), partial(nodes_of_lengths, curpd, lengths)]
        all_at_once("each length of keys and values", of_lengths)
        for name, run in [] if given.short else largest(curp, curpd, folder, library):
            all_at_once(f"the largest: {name}", [run])
        for command, text in refused_runs(curp, curpd, folder):
            ended = refuse(library, command, text)
            print(f"refused from a call on, {Path(command[0]).name} {command[1]}: {ended} runs ended by it")
    except Wrong as wrong:
        sys.exit(f"wrong: {wrong}")


if __name__ == "__main__":
    main()
