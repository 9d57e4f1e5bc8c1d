"""From any one backup and any one witness all is recovered that has completed, behind each front of a script.

The script has two clients that put, count, append, read and swap over four keys: free updates, one that is held back by a
conflict, rounds, a collection with suspects, and a read.
"""

from functools import partial
from pathlib import Path

from runs import Driven, Run, deliver, require, written

HEADER, *STEPS = (Path(__file__).parent / "script").read_text(encoding="utf-8").splitlines(keepends=True)
# More messages than a recovery and what comes of it send here.
MOST_SENT = 100
# Five backups are installed and five witnesses started, and a fresh master gets its order.
LARGEST = """{"clients":64,"f":5,"fast":true,"parts":16,"protocol":1,"sets":1024,"ways":16}
{"backup":5,"do":"recover","part":16,"witness":5}
"""
RECOVERED = (
    "s1 done\n"
    + "".join(f"m{place} G B{80 + place} install e2\n" for place in range(1, 6))
    + "".join(f"m{5 + place} G W{80 + place} start p16 e2\n" for place in range(1, 6))
    + "m11 G M17 recover p16 e2 v2 B80 W80 B81+B82+B83+B84+B85 W81+W82+W83+W84+W85\norder 0\n"
)


def recover(backup, witness, sent):
    """The master is stopped and replaced, and all that is sent from then on is delivered, in order."""
    return (
        '{"do":"stop","node":"M1"}\n'
        f'{{"backup":{backup},"do":"recover","part":1,"witness":{witness}}}\n' + deliver(sent + 1, sent + MOST_SENT)
    )


def recovers(program, steps):
    """Whether behind so many steps each pair's new master is adopted, and each completed request stands in the order with
    its answer."""
    front = HEADER + "".join(STEPS[:steps])
    sent = sum(line.startswith("m") for line in written(program, ["play"], front).splitlines())
    for backup, witness in ((1, 1), (1, 2), (2, 1), (2, 2)):
        lines = written(program, ["play"], front + recover(backup, witness, sent)).splitlines()
        which = f"backup {backup}, witness {witness}: "
        require(any(" G M2 adopted " in line for line in lines), which + "the new master isn't adopted")
        places = [line.split(" ", 1) for line in lines if " -> " in line]
        order = {(name, place.rsplit(" -> ", 1)[1]) for name, place in places}
        for line in lines:
            if line.startswith("c "):
                name, answer = line[2:].split(" ", 1)
                require((name, answer) in order, which + f"{line} isn't in the order")


def runs():
    require(len(STEPS) == 60, f"{len(STEPS)} steps")
    for steps in range(len(STEPS) + 1):
        yield Driven(f"behind-{steps}-steps", partial(recovers, steps=steps))
    yield Run("the-largest-world", ["play"], LARGEST, RECOVERED)
