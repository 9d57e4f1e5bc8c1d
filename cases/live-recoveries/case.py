"""What the driver of a run on threads does, for each number of partitions and of recoveries, as a reader of the script sees
it: the manager is ordered nothing but the recoveries, the partitions take turns, and each is from the first backup and the
first witness of its partition; a recovery comes once so many requests are completed that recoveries are spread evenly over
them, and once every client knows the fresh master of the one before; the masters that are stopped are those that recoveries
with odd numbers replace; every client is told to fetch once for each recovery, once its fresh master serves; and a client
takes a configuration only where it was told to fetch, and retries nothing but behind one."""

import json

from runs import Driven, require, written

CLIENTS = 2
COMMANDS = 9
REQUESTS = CLIENTS * COMMANDS
PARTITIONS = range(1, 17)
RECOVERIES = range(9)


class Driver:
    """What the driver has done so far, as the steps tell of it."""

    def __init__(self, parts, recoveries):
        self.parts, self.recoveries = parts, recoveries
        self.recovered = 0
        self.completed = 0
        self.stopped = []
        # The masters that serve by the word that they are adopted; of each client how often it was told to fetch, how many
        # configurations it took, the fresh masters that these name, and whether its last other step was to take one.
        self.serving = set()
        self.fetches = {f"C{client}": 0 for client in range(1, CLIENTS + 1)}
        self.configurations = dict(self.fetches)
        self.known = {client: set() for client in self.fetches}
        self.may_retry = {client: False for client in self.fetches}

    def sees(self, step, message, completions):
        """A step with the message that it delivers, if it delivers one, and how many requests it completed."""
        if step["do"] == "recover":
            self.sees_recovery(step)
        elif step["do"] == "stop":
            self.stopped.append(step["node"])
        elif step["do"] == "fetch":
            self.sees_fetch(f"C{step['client']}")
        elif step["do"] == "retry":
            require(self.may_retry[f"C{step['client']}"], f"client {step['client']} retries behind no configuration")
        elif step["do"] == "deliver":
            self.sees_message(message)
        elif step["do"] == "invoke":
            self.may_retry[f"C{step['client']}"] = False
        else:
            require(step["do"] in ("sync", "collect"), f"a step that nobody orders: {step}")
        self.completed += completions

    def sees_recovery(self, step):
        number = self.recovered + 1
        wanted = {"backup": 1, "do": "recover", "part": (number - 1) % self.parts + 1, "witness": 1}
        require(step == wanted, f"recovery {number} is {step}")
        least = number * REQUESTS // (self.recoveries + 1)
        require(self.completed >= least, f"recovery {number} comes behind {self.completed} completions and not {least}")
        for client, known in self.known.items():
            before = {f"M{self.parts + earlier}" for earlier in range(1, number)}
            require(before <= known, f"recovery {number} comes before {client} knows {before - known}")
        self.recovered = number

    def sees_fetch(self, client):
        self.fetches[client] += 1
        self.may_retry[client] = False
        fresh = f"M{self.parts + self.fetches[client]}"
        require(fresh in self.serving, f"fetch {self.fetches[client]} of {client} comes before {fresh} serves")

    def sees_message(self, message):
        _, to, kind, *words = message
        if kind == "adopted":
            self.serving.add(to)
        if to in self.fetches:
            self.may_retry[to] = kind == "config"
            if kind == "config":
                self.configurations[to] += 1
                require(self.configurations[to] <= self.fetches[to], f"{to} takes a configuration that it didn't ask for")
                self.known[to] |= {word.split(",")[2] for word in words if "=" in word}

    def ends(self):
        require(self.completed == REQUESTS, f"{self.completed} completions")
        require(self.recovered == self.recoveries, f"{self.recovered} recoveries")
        for client, fetches in self.fetches.items():
            require(fetches == self.recoveries, f"{client} is told to fetch {fetches} times")
        wanted = sorted(f"M{number}" for number in range(1, self.recoveries + 1, 2))
        require(sorted(self.stopped) == wanted, f"stopped are {self.stopped}, and not {wanted}")


def one_run(program, parts, recoveries):
    text = written(
        program,
        ["live", "--f", "1", "--clients", str(CLIENTS), "--commands", str(COMMANDS), "--parts", str(parts)]
        + ["--recoveries", str(recoveries), "--protocol", str(1 + recoveries % 2)],
    )
    script, empty, played = text.partition("\n\n")
    require(empty, "no empty line behind the script")
    steps = [json.loads(line) for line in script.split("\n")[1:]]
    told, _, _ = played.partition("\norder ")
    # What is printed of each step: its own line, and behind it its messages and its completions.
    parts_of_text = ("\n" + told).split("\ns")[1:]
    require(len(parts_of_text) == len(steps) > 0, f"{len(parts_of_text)} steps are played of {len(steps)}")
    messages = [line.split(" ")[1:] for line in told.split("\n") if line.startswith("m")]
    driver = Driver(parts, recoveries)
    for step, printed in zip(steps, parts_of_text):
        message = messages[step["msg"] - 1] if step["do"] == "deliver" else None
        driver.sees(step, message, printed.count("\nc "))
    driver.ends()


def all_recoveries(parts):
    def go(program):
        for recoveries in RECOVERIES:
            one_run(program, parts, recoveries)

    return go


def runs():
    for parts in PARTITIONS:
        yield Driven(f"{parts} partitions", all_recoveries(parts))
