"""What a `case.py` is written with: runs of the program, and what is wrong with one.

`runs()` of a `case.py` gives its runs: each a `Run`, whose words, input and end are known beforehand, or a `Driven`, which
starts the program by itself, and raises `Wrong` where something is. A text may be bytes, a str, or a function that makes it.
"""

import subprocess
from dataclasses import dataclass
from pathlib import Path
from typing import Any, Callable

TOP = Path(__file__).resolve().parent.parent
# A run that takes longer is ended, and wrong.
SECONDS = 60

HEADER = '{"clients":2,"f":1,"fast":true,"parts":1,"protocol":1,"sets":16,"ways":4}'
INVOKE = '{"client":1,"cmd":["put","61","31"],"do":"invoke"}'
# What is printed for that invocation as the first step.
INVOKED = "s1 done\nm1 C1 M1 update 1.1 f1 e1 v1 put 61 31\nm2 C1 W1 record 1.1 f1 e1 put 61 31\n"
USAGE = (
    "curp: usage: curp play, make, live, check, resp or manage, each with its options; curp --help tells them\n"
    "curp: make takes --number, --f, --sets, --ways, --clients, --parts, --protocol, --steps and --recoveries, each with"
    " a number, and --summary; live takes the same but --steps and --summary, and --commands with a number; play takes"
    " --history; check and manage take none; resp takes --f and --every, each with a number, and --script\n"
)


class Wrong(Exception):
    """What differs."""


def require(condition, told):
    """What has to hold, and what is told where it doesn't."""
    if not condition:
        raise Wrong(told)


def deliver(first, last):
    """Steps that deliver the messages of these numbers."""
    return "".join(f'{{"do":"deliver","msg":{message}}}\n' for message in range(first, last + 1))


def table(file, columns):
    """The rows of a text file, a line each, as columns that ` | ` parts, from the right; empty lines and those that begin
    with `# ` are none."""
    rows = []
    for line in file.read_text(encoding="utf-8").split("\n"):
        if line and not line.startswith("# "):
            row = line.rsplit(" | ", columns - 1)
            require(len(row) == columns, f"{file}: a row that isn't whole: {line}")
            rows.append(row)
    return rows


def has_history(history, text):
    """A history has an event for each completion of a played text, and a place for each of its order."""
    lines = text.splitlines()
    completed = sum(line.startswith("c ") for line in lines)
    ordered = int(next(line for line in lines if line.startswith("order ")).split()[1])
    for what, wanted in (('"ev":"complete"', completed), ('"ev":"place"', ordered)):
        require(history.count(what) == wanted, f"{history.count(what)} lines of the history have {what}, and not {wanted}")


def as_bytes(text):
    """A text as bytes."""
    text = text() if callable(text) else text
    return text.encode() if isinstance(text, str) else text


def shown(line):
    """A line as it is told: its bytes are seen, and it isn't too long."""
    if line is None:
        return "nothing"
    told = repr(line)[1:]
    return told if len(told) <= 240 else f"{told[:180]} .. {told[-40:]} ({len(line)} bytes)"


def difference(stream, wanted, got):
    """What is told where a stream has other bytes than are wanted."""
    wanted_lines, got_lines = wanted.split(b"\n"), got.split(b"\n")
    wanted_lines = [line + b"\n" for line in wanted_lines[:-1]] + [line for line in wanted_lines[-1:] if line]
    got_lines = [line + b"\n" for line in got_lines[:-1]] + [line for line in got_lines[-1:] if line]
    at = next((at for at, (one, other) in enumerate(zip(wanted_lines, got_lines)) if one != other), None)
    at = min(len(wanted_lines), len(got_lines)) if at is None else at
    one, other = [lines[at] if at < len(lines) else None for lines in (wanted_lines, got_lines)]
    where = f"{stream}, line {at + 1}: "
    return f"{where}wanted {shown(one)}\n{'but it is '.rjust(len(where) + 7)}{shown(other)}"


@dataclass
class Seen:
    """What is seen of a run from outside: how it ended, and what it wrote."""

    status: int
    stdout: bytes
    stderr: bytes

    def has_to_be(self, status=0, stdout=None, stderr=b""):
        """Tells all that differs; where no output is given, any will do."""
        wrong = []
        if self.status != status:
            wrong.append(f"status: wanted {status}, but it is {self.status}")
        if self.stderr != as_bytes(stderr):
            wrong.append(difference("stderr", as_bytes(stderr), self.stderr))
        if stdout is not None and self.stdout != (wanted := as_bytes(stdout)):
            wrong.append(difference("stdout", wanted, self.stdout))
        require(not wrong, "\n".join(wrong))


def seen(program, args, text=b"", **options):
    """Runs the program to its end, on this input. Other streams and limits are as `subprocess.run` has them."""
    if "stdin" not in options:
        options["input"] = as_bytes(text)
    options.setdefault("stdout", subprocess.PIPE)
    try:
        ended = subprocess.run([program, *args], stderr=subprocess.PIPE, timeout=SECONDS, **options)
    except subprocess.TimeoutExpired:
        raise Wrong(f"it didn't end within {SECONDS} seconds") from None
    return Seen(ended.returncode, ended.stdout or b"", ended.stderr)


def written(program, args, text=b""):
    """What a run writes that ends well and says nothing, as a text."""
    run = seen(program, args, text)
    run.has_to_be(status=0)
    return run.stdout.decode()


@dataclass
class Run:
    """A run whose end is known beforehand."""

    name: str
    args: list
    stdin: Any = b""
    stdout: Any = b""
    stderr: Any = b""
    status: int = 0
    alone: bool = False

    def go(self, program):
        seen(program, self.args, self.stdin).has_to_be(self.status, self.stdout, self.stderr)


@dataclass
class Driven:
    """A run, or several, by a function that gets the program's path."""

    name: str
    go: Callable[[str], None]
    # No other run is under way meanwhile: a process that is just being started has a copy of each open end of a pipe.
    alone: bool = False
