"""Orders for the manager at the largest sizes."""

from runs import Run

LARGE = '{"clients":64,"f":5,"fast":true,"parts":16,"protocol":1,"sets":16,"ways":4}\n'
SMALL = '{"clients":1,"f":1,"fast":true,"parts":1,"protocol":1,"sets":16,"ways":4}\n'
NUDGE = '{"do":"nudge"}\n'


def crash(call):
    return f'{{"call":{call},"do":"crash","kept":true}}\n'


class Text:
    """What is printed, step by step."""

    def __init__(self):
        self.lines, self.steps, self.messages = [], 0, 0

    def step(self, said=(), how="done"):
        self.steps += 1
        self.lines.append(f"s{self.steps} {how}\n")
        for words in said:
            self.messages += 1
            self.lines.append(f"m{self.messages} G {words}\n")

    def ends(self, decisions):
        return "".join(self.lines) + f"decisions {decisions}\n"


def largest_script():
    """Each of 64 clients is gone, each of 16 partitions is being recovered, and the first of two nudges is stopped."""
    expire = "".join(f'{{"client":{client},"do":"expire"}}\n' for client in range(1, 65))
    recover = "".join(f'{{"backup":5,"do":"recover","part":{part},"witness":5}}\n' for part in range(1, 17))
    return LARGE + expire + recover + crash(4) + NUDGE + NUDGE


def recovery(part):
    """What the order sends that recovers a partition: the next numbers, and five fresh backups and witnesses."""
    fresh, last, new = range(80 + 5 * part - 4, 80 + 5 * part + 1), 5 * part, part + 1
    lists = "+".join(f"B{node}" for node in fresh) + " " + "+".join(f"W{node}" for node in fresh)
    return (
        [f"B{node} install e{new}" for node in fresh]
        + [f"W{node} start p{part} e{new}" for node in fresh]
        + [f"M{16 + part} recover p{part} e{new} v{new} B{last} W{last} {lists}"]
    )


def expiry(client):
    return [f"M{part} expire c{client}" for part in range(1, 17)]


def largest_text():
    text = Text()
    for client in range(1, 65):
        text.step(expiry(client))
    for part in range(1, 17):
        text.step(recovery(part))
    text.step()
    text.step(how="stopped kept")
    recoveries = [said for part in range(1, 17) for said in recovery(part)]
    text.step(recoveries + [said for client in range(1, 65) for said in expiry(client)])
    return text.ends(82)


def nudged(count):
    text = Text()
    for _ in range(count):
        text.step(["W1 start p1 e1", "M1 adopted p1 e1 v1"])
    return text


def too_many():
    return "".join(nudged(200_000).lines)


def opened_again_script():
    """A crash behind each of the last hundreds of some thousand orders."""
    return SMALL + NUDGE * 4_000 + (crash(4) + NUDGE + crash(3) + NUDGE) * 100


def opened_again_text():
    text = nudged(4_000)
    for _ in range(100):
        text.step()
        text.step(how="stopped kept")
        text.step()
        text.step(how="stopped lost")
    return text.ends(4_100)


def runs():
    yield Run("the-largest-nudge", ["manage"], largest_script, largest_text)
    yield Run("200000-orders", ["manage"], SMALL + NUDGE * 200_000, lambda: nudged(200_000).ends(200_000))
    more = {"status": 7, "stderr": "curp: more than 200000 steps\n"}
    yield Run("200001-orders", ["manage"], SMALL + NUDGE * 200_001, too_many, **more)
    yield Run("a-journal-opened-again-and-again", ["manage"], opened_again_script, opened_again_text)
