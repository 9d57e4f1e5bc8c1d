"""A hundred runs of sixteen clients in each protocol, one partition and three recoveries in a row: each ends well, and its
script is played again to the same bytes. Of each run is read, as a reader would, that every master was ordered to sync and to
collect when that was due, as its next step; that every client retried all that was pending, in order, as its next steps after
each configuration; that no client had more than four requests pending, and one had four; that witnesses were told to drop
something. In some of each 25 the master that the second recovery replaces answered after its successor served."""

import json

from runs import Driven, require, written

# After so many updates and syncs a master is ordered to sync, and after so many to collect.
SYNC_AFTER = 8
COLLECT_AFTER = 32

CLIENTS = 16
MASTERS = 4


class Pace:
    """What a master was asked so far, and which orders are due."""

    def __init__(self, master):
        self.name = f"M{master}"
        self.asked = 0
        self.sync = False
        self.collect = False

    def sees_order(self, order):
        if order == "sync":
            require(self.sync, f"{self.name} syncs and wasn't due")
            self.sync = False
        elif order == "collect":
            require(not self.sync and self.collect, f"{self.name} collects and wasn't due")
            self.collect = False

    def sees_message(self, kind):
        require(not self.sync and not self.collect, f"{self.name} takes a message while an order is due")
        if kind in ("update", "sync"):
            self.asked += 1
            self.sync = self.asked % SYNC_AFTER == 0
            self.collect = self.asked % COLLECT_AFTER == 0

    def ends(self):
        require(not self.sync and not self.collect, f"{self.name} ends while an order is due")


class Asker:
    """A client, as the steps so far tell of it."""

    def __init__(self, client):
        self.name = f"C{client}"
        self.invoked = 0
        # The numbers of the pending requests, rising, and those of them that it is still to retry, the next one first.
        self.pending = []
        self.due = []
        self.most_pending = 0

    def sees_retry(self, seq):
        require(self.due and self.due[0] == seq, f"{self.name} retries {seq} and not {self.due}")
        self.due.pop(0)

    def sees_other_step(self):
        require(not self.due, f"{self.name} makes another step while {self.due} are to be retried")

    def sees_invoke(self):
        self.sees_other_step()
        self.invoked += 1
        self.pending.append(self.invoked)
        self.most_pending = max(self.most_pending, len(self.pending))

    def sees_configuration(self):
        self.sees_other_step()
        self.due = list(self.pending)

    def sees_completion(self, seq):
        require(seq in self.pending, f"{seq} of {self.name} completes and wasn't pending")
        self.pending.remove(seq)

    def ends(self):
        require(not self.due, f"{self.name} ends while {self.due} are to be retried")


class Run:
    """The steps of a run, its messages, and what is written of each step."""

    def __init__(self, text):
        script, _, self.played = text.partition("\n\n")
        self.steps = [json.loads(line) for line in script.split("\n")[1:]]
        self.lines = self.played.split("\n")
        # For each message, that of number 1 first: its words from the sender on.
        self.messages = [line.split(" ")[1:] for line in self.lines if line.startswith("m")]

    def delivered(self, step):
        """The message that a step delivers, if it delivers one."""
        return self.messages[step["msg"] - 1] if step["do"] == "deliver" else None

    def keeps_pace(self):
        paces = {f"M{number}": Pace(number) for number in range(1, MASTERS + 1)}
        for step in self.steps:
            message = self.delivered(step)
            if message is None:
                if step["do"] in ("sync", "collect"):
                    paces[f"M{step['master']}"].sees_order(step["do"])
            elif message[1] in paces:
                paces[message[1]].sees_message(message[2])
        for pace in paces.values():
            pace.ends()

    def retries_all(self):
        """Looks at each step, and at the completions behind it. Gives how many requests a client had pending at most."""
        askers = {f"C{number}": Asker(number) for number in range(1, CLIENTS + 1)}
        for line in self.lines:
            if line.startswith("c "):
                client, seq = line.split(" ")[1].split(".")
                askers[f"C{client}"].sees_completion(int(seq))
            elif line.startswith("s") and line.endswith(" done"):
                self.is_seen_by(askers, self.steps[int(line[1:-len(" done")]) - 1])
        for asker in askers.values():
            asker.ends()
        return max(asker.most_pending for asker in askers.values())

    def is_seen_by(self, askers, step):
        message = self.delivered(step)
        if message is not None:
            asker = askers.get(message[1])
            if asker and message[2] == "config":
                asker.sees_configuration()
            elif asker:
                asker.sees_other_step()
        elif "client" in step:
            asker = askers[f"C{step['client']}"]
            if step["do"] == "invoke":
                asker.sees_invoke()
            elif step["do"] == "retry":
                asker.sees_retry(step["seq"])
            else:
                asker.sees_other_step()

    def drops_records(self):
        return any("gc" in message for message in self.messages)

    def answers_late(self, old, new):
        """Whether a master answers a client after the step by which another one takes the word that it is adopted."""
        for number, step in enumerate(self.steps, 1):
            if (self.delivered(step) or [])[:3] == ["G", new, "adopted"]:
                behind = self.lines[self.lines.index(f"s{number} done"):]
                return any(is_answer(line.split(" "), old) for line in behind)
        return False


def is_answer(words, master):
    return len(words) > 3 and words[0].startswith("m") and words[1] == master and words[2].startswith("C") and words[3] == "reply"


def one_run(program, protocol):
    """One run; gives whether the superseded master answered late."""
    text = written(program, ["live", "--clients", str(CLIENTS), "--parts", "1", "--commands", "10", "--protocol", protocol])
    script, empty, played = text.partition("\n\n")
    require(empty, "no empty line behind the script")
    require(written(program, ["play"], script + "\n") == played, "the script is played to another text")
    run = Run(text)
    run.keeps_pace()
    require(run.retries_all() == 4, "the most that a client had pending isn't four")
    require(run.drops_records(), "no witness was told to drop something")
    return run.answers_late("M2", "M3")


def twenty_five_runs(protocol):
    def go(program):
        late = [one_run(program, protocol) for _ in range(25)]
        require(any(late), "in none of 25 runs the superseded master answered late")

    return go


def runs():
    for protocol in ("1", "2"):
        for first in (1, 26, 51, 76):
            yield Driven(f"protocol {protocol}, runs {first} to {first + 24}", twenty_five_runs(protocol))
