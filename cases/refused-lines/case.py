"""Lines that are refused, each with why: as a header, behind a header, and as the command of an invocation."""

from pathlib import Path

from runs import HEADER, INVOKE, INVOKED, Run, table

HERE = Path(__file__).parent


def refused(line, why, number):
    return {"status": 3, "stderr": f"curp: line {number}: {why}\n", "name": line or "an empty line"}


def runs():
    for line, why in table(HERE / "headers", 2):
        # An input without any line is refused as its first one, too.
        yield Run(args=["play"], stdin=line, **refused(f"header {line}", why, 1))
        yield Run(args=["play"], stdin=f"{line}\n{INVOKE}\n", **refused(f"header {line} and a step", why, 1))
        yield Run(args=["manage"], stdin=f"{line}\n", **refused(f"header {line} of orders", why, 1))
    steps = table(HERE / "steps", 2)
    steps += [(f'{{"client":7,"cmd":{line},"do":"invoke"}}', why) for line, why in table(HERE / "commands", 2)]
    for line, why in steps:
        # The text of the step before it is written.
        lines = f"{HEADER}\n{INVOKE}\n{line}"
        yield Run(args=["play"], stdin=f"{lines}\n", stdout=INVOKED, **refused(f"step {line}", why, 3))
        if line:
            yield Run(args=["play"], stdin=lines, stdout=INVOKED, **refused(f"last step {line}", why, 3))
        yield Run(args=["play", "--history"], stdin=f"{lines}\n", **refused(f"step {line} of a history", why, 3))
    no_text = b'{"clients":1,"f":1,"fast":"\xff"}'
    yield Run(args=["play"], stdin=no_text, **refused("header that is no UTF-8", "bad json", 1))
