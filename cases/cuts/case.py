"""A put in one round trip, whose script is cut behind each of its bytes."""

from runs import HEADER, INVOKE, INVOKED, Run, deliver

SCRIPT = f"{HEADER}\n{INVOKE}\n" + deliver(1, 4)
# The text of each of its steps.
STEPS = [
    INVOKED,
    "s2 done\nm3 M1 C1 reply 1.1 unsynced e1 v1 done\n",
    "s3 done\nm4 W1 C1 accepted 1.1 e1\n",
    "s4 done\n",
    "s5 done\nc 1.1 done\n",
]


def order(steps):
    """The order behind so many steps: the master has the put from the second on."""
    return "order 0\n" if steps < 2 else "order 1\n1.1 put 61 31 -> done\n"


def cut(end):
    """The run of a front of the script. Its last line is one where it is whole, also without its line feed."""
    lines = SCRIPT[:end].split("\n")
    last = lines.pop()
    lines += [last] if last.endswith("}") else []
    is_whole = bool(lines) and (last == "" or last.endswith("}"))
    steps = max(len(lines) - 1, 0)
    text = "".join(STEPS[:steps])
    name = f"behind-{end}"
    if is_whole:
        return Run(name, ["play"], SCRIPT[:end], text + order(steps))
    return Run(name, ["play"], SCRIPT[:end], text, f"curp: line {len(lines) + 1}: bad json\n", 3)


def runs():
    for end in range(len(SCRIPT) + 1):
        yield cut(end)
