"""Lines behind a header that `manage` refuses, each with why."""

from pathlib import Path

from runs import Run, table

HEADER = '{"clients":1,"f":1,"fast":true,"parts":1,"protocol":1,"sets":16,"ways":4}'


def runs():
    for line, why in table(Path(__file__).parent / "orders", 2):
        yield Run(line, ["manage"], f"{HEADER}\n{line}\n", "", f"curp: line 2: {why}\n", 3)
