"""Words of `make`, `live` and `resp` with the numbers that they ask for: what is written has them.

The random words, the made commands and the first steps are worked out here from docs/SCRIPTS.md, so a number counts by what
follows from it.
"""

import json
from functools import partial
from pathlib import Path

from runs import Driven, Run, require, seen, table, written

HERE = Path(__file__).parent
WORD, WORDS = 2**32, 2**64
SCRIPT_STREAM = 54
NAMES = ["number", "f", "sets", "ways", "clients", "parts", "protocol"]


class Random:
    """PCG32: the generator of a number, on one of its streams."""

    def __init__(self, number, stream):
        self.increment = (2 * stream + 1) % WORDS
        self.state = (number + self.increment) % WORDS
        self.advance()

    def advance(self):
        self.state = (self.state * 6364136223846793005 + self.increment) % WORDS

    def word(self):
        state, turn = self.state, self.state >> 59
        self.advance()
        mixed = (((state >> 18) ^ state) >> 27) % WORD
        return (mixed >> turn | mixed << (32 - turn)) % WORD

    def pick(self, count):
        return self.word() % count

    def command(self):
        """A made command, as a line has it."""
        kind = self.pick(8)
        key = f"k{self.pick(16):x}".encode().hex()
        if kind < 2:
            return ["get", key]
        if kind < 4:
            return ["put", key, f"{self.word():08x}"]
        return [["incr", key], ["append", key, "78"], ["delete", key], ["condput", key, None, "31"]][kind - 4]


def line_of(step):
    """A line, its names in the order of their bytes."""
    return json.dumps(step, separators=(",", ":"), sort_keys=True)


def header(plan):
    """The header that a plan asks for."""
    shape = {name: plan[name] for name in NAMES if name != "number"}
    return line_of({**shape, "fast": True})


class Beginning:
    """The first steps of a made script, as far as they are known without a world: up to a migration, a recovery, a retry of
    a request that may be complete, or the step behind a delivery that sends something."""

    def __init__(self, plan):
        self.plan, self.random = plan, Random(plan["number"], SCRIPT_STREAM)
        self.sent, self.cursor, self.pending, self.steps, self.goes_on = [], 1, {}, [], True

    def add(self, step, *said):
        self.steps.append(line_of(step))
        self.sent += said

    def deliver(self):
        if not self.sent:
            return self.nudge()
        luck = self.random.pick(8)
        if luck == 1 and self.cursor <= len(self.sent):
            self.cursor += 1
        if luck == 0 or self.cursor > len(self.sent):
            message = 1 + self.random.pick(len(self.sent))
        else:
            message = self.cursor
            self.cursor += 1
        self.add({"do": "deliver", "msg": message})
        # What the manager says at first changes nothing.
        self.goes_on = self.sent[message - 1] == "G"

    def nudge(self):
        self.add({"do": "nudge"}, *["G"] * self.plan["parts"] * (self.plan["f"] + 1))

    def asked(self, command):
        """How many messages a client sends to ask: a read goes to the master alone, by protocol 1."""
        return 1 if command[0] == "get" and self.plan["protocol"] == 1 else 1 + self.plan["f"]

    def invoke(self):
        client = 1 + self.random.pick(self.plan["clients"])
        waiting = self.pending.setdefault(client, [])
        if len(waiting) == 8:
            return self.deliver()
        command = self.random.command()
        waiting.append(command)
        self.add({"client": client, "cmd": command, "do": "invoke"}, *["C"] * self.asked(command))

    def retry(self):
        client = 1 + self.random.pick(self.plan["clients"])
        waiting = self.pending.get(client)
        if not waiting:
            return self.deliver()
        self.add({"client": client, "do": "retry", "seq": 1}, *["C"] * self.asked(waiting[0]))

    def order(self, name):
        master = 1 + self.random.pick(self.plan["parts"])
        self.add({"do": name, "master": master}, *["M"] * self.plan["f"])

    def migrate(self):
        if self.random.pick(8):
            return self.deliver()
        first, part = self.random.pick(256), 1 + self.random.pick(self.plan["parts"])
        self.add({"do": "migrate", "hi": f"{first:02x}{'f' * 14}", "lo": f"{first:02x}{'0' * 14}", "to": part})
        self.goes_on = False

    def step(self):
        if len(self.steps) + 1 in recoveries(self.plan):
            places = [1 + self.random.pick(self.plan[name]) for name in ("parts", "f", "f")]
            self.add({"do": "recover", **dict(zip(("part", "backup", "witness"), places))})
            self.goes_on = False
            return
        kind = self.random.pick(64)
        if kind < 4:
            self.invoke()
        elif kind < 8:
            self.order("sync" if kind < 6 else "collect")
        elif kind == 8:
            self.add({"client": 1 + self.random.pick(self.plan["clients"]), "do": "fetch"}, "C")
        elif kind == 9:
            self.retry()
        elif kind == 10:
            self.nudge()
        elif kind == 11:
            self.migrate()
        else:
            self.deliver()

    def all(self):
        while self.goes_on and len(self.steps) < self.plan["steps"]:
            self.step()
        return self.steps


def recoveries(plan):
    """The numbers of the steps that recover a partition."""
    interval = plan["steps"] // (plan["recoveries"] + 1)
    return [interval * at for at in range(1, plan["recoveries"] + 1)] if interval else []


def plan_of(text, names):
    """The numbers of a row, and what is behind them."""
    numbers = text.split(" ")
    return dict(zip(names, map(int, numbers[: len(names)]))), numbers[len(names) :]


def made(program, words, plan, output):
    """The script has the header, so many steps, the first of which follow from the number, and recoveries where they are due;
    a summary tells of that script what `play` prints of it."""
    script = written(program, [word for word in words if word != "--summary"])
    first, *steps = script.splitlines()
    require(first == header(plan), f"header: {first}")
    require(len(steps) == plan["steps"], f"{len(steps)} steps")
    begins = Beginning(plan).all()
    for at, (line, wanted) in enumerate(zip(steps, begins)):
        require(line == wanted, f"step {at + 1}: wanted {wanted}, but it is {line}")
    recovered = [at + 1 for at, line in enumerate(steps) if '"do":"recover"' in line]
    require(recovered == recoveries(plan), f"recoveries: {recovered}")
    if output == "Summary":
        summary = dict(line.split(" ") for line in written(program, words).splitlines())
        played = written(program, ["play"], script).splitlines()
        order = next(int(line[6:]) for line in played if line.startswith("order "))
        counts = {
            "steps": plan["steps"],
            "refused": sum(" refused " in line for line in played),
            "messages": sum(line.startswith("m") for line in played),
            "completed": sum(line.startswith("c ") for line in played),
            "order": order,
        }
        weight = summary.pop("weight", "none")
        require(weight.isdigit() and int(weight) >= counts["messages"], f"weight {weight}")
        require(summary == {name: str(count) for name, count in counts.items()}, f"summary: {summary}, played: {counts}")


def ran(program, words, plan):
    """The script has the header, each client's commands, which follow from the number, and the recoveries; behind it and an
    empty line stands what `play` writes for it."""
    script, text = written(program, words).split("\n\n")
    first, *lines = script.splitlines()
    require(first == header(plan), f"header: {first}")
    steps = [json.loads(line) for line in lines]
    for client in range(1, plan["clients"] + 1):
        random = Random(plan["number"], client)
        wanted = [random.command() for _ in range(plan["commands"])]
        invoked = [step["cmd"] for step in steps if step["do"] == "invoke" and step["client"] == client]
        require(invoked == wanted, f"the commands of client {client}: {invoked}")
    parts = [step["part"] for step in steps if step["do"] == "recover"]
    require(parts == [1 + at % plan["parts"] for at in range(plan["recoveries"])], f"recoveries of {parts}")
    stops = [step["node"] for step in steps if step["do"] == "stop"]
    require(sorted(stops) == [f"M{at + 1}" for at in range(0, plan["recoveries"], 2)], f"stops of {stops}")
    completed = sum(line.startswith("c ") for line in text.splitlines())
    require(completed == plan["clients"] * plan["commands"], f"{completed} requests complete")
    seen(program, ["play"], script + "\n").has_to_be(stdout=text)


def answered(program, words, plan, output):
    """The header has f, and behind every so many commands the master is stopped."""
    get = "*2\r\n$3\r\nget\r\n$1\r\na\r\n" * 15
    script = written(program, words + [word for word in ["--script"] if word not in words], get).splitlines()
    first = line_of({"clients": 1, "f": plan["f"], "fast": True, "parts": 1, "protocol": 1, "sets": 64, "ways": 4})
    require(script[0] == first, f"header: {script[0]}")
    stops = sum('"do":"stop"' in line for line in script)
    wanted = 15 // plan["every"] if plan["every"] else 0
    require(stops == wanted, f"the master is stopped {stops} times, and not {wanted}")
    wrote = written(program, words, get)
    require((wrote == "$-1\r\n" * 15) == (output == "Replies"), "other output than is asked for")


def runs():
    for line, text in table(HERE / "make", 2):
        plan, (output,) = plan_of(text, NAMES + ["steps", "recoveries"])
        yield Driven(line, partial(made, words=line.split("|"), plan=plan, output=output))
    for line, text in table(HERE / "live", 2):
        plan, _ = plan_of(text, NAMES + ["commands", "recoveries"])
        yield Driven(line, partial(ran, words=line.split("|"), plan=plan))
    for line, text in table(HERE / "resp", 2):
        plan, (output,) = plan_of(text, ["f", "every"])
        yield Driven(line, partial(answered, words=line.split("|"), plan=plan, output=output))
    header = '{"clients":1,"f":1,"fast":true,"parts":1,"protocol":1,"sets":16,"ways":4}\n'
    put = '{"client":1,"cmd":["put","61",""],"do":"invoke"}\n'
    claim = '{"cmd":["put","61",""],"ev":"invoke","id":[1,1]}\n'
    for words in (["play", "--history"], ["--history", "play"]):
        yield Run(" ".join(words), words, header + put, claim)
    yield Run("play", ["play"], header, "order 0\n")
    yield Run("play --history of a header", ["play", "--history"], header, "")
    yield Run("check", ["check"], claim, "yes\n")
    yield Run("check of nothing", ["check"], "", "yes\n")
    yield Run("manage", ["manage"], header, "decisions 0\n")
    summary = "steps 4000\nrefused 4\nmessages 3757\nweight 21033\ncompleted 79\norder 114\n"
    yield Run("the summary of the defaults", ["make", "--summary"], "", summary)
