"""Made scripts: the numbers, the first steps and the first commands are those of programs that were written apart, in another
language; what is made is played to its end, with as many messages and completions as the summary says."""

import json

from runs import Driven, Run, require, written

SUMMARY = "steps 4000\nrefused 4\nmessages 3757\nweight 21033\ncompleted 79\norder 114\n"

LONGEST = "--steps 200000 --clients 64 --parts 8 --recoveries 0".split()

MOST_RECOVERIES = "--steps 6500 --clients 64 --parts 16 --f 5 --sets 1024 --ways 16 --recoveries 64".split()

# What client 1 does first by the number 1: keys and values by their bytes.
FIRST_COMMANDS = [
    ["get", "6b34"],
    ["condput", "6b33", None, "31"],
    ["delete", "6b39"],
    ["delete", "6b33"],
    ["put", "6b62", "d24d7799"],
]


def count(text, front):
    return sum(line.startswith(front) for line in text.split("\n"))


def played(program, options):
    """What is played of the script that these options make."""
    return written(program, ["play"], written(program, ["make", *options]))


def has_counts(summary, text):
    """Looks for the numbers of a summary in what is played; both tell the order's length in one line."""
    lines = summary.split("\n")[:-1]
    for name, front in (("steps", "s"), ("messages", "m"), ("completed", "c ")):
        line = f"{name} {count(text, front)}"
        require(line in lines, f"the summary doesn't say: {line}")
    order = next((line for line in text.split("\n") if line.startswith("order ")), None)
    require(order == lines[-1], f"the summary says {lines[-1]}, but it is {order}")


def the_default_script_has_its_steps(program):
    header, *steps = written(program, ["make"]).splitlines()
    require(len(steps) == 4_000, f"{len(steps)} steps")


def the_default_script_is_played(program):
    has_counts(SUMMARY, played(program, []))


def a_script_of_protocol_2_is_played(program):
    """Of the reads in the script some are answered at once, and complete by that."""
    text = played(program, ["--protocol", "2"])
    has_counts(written(program, ["make", "--protocol", "2", "--summary"]), text)
    require(" quick " in text and " live " in text, "no read is answered at once")


def each_step_has_a_line(options, steps):
    def go(program):
        lines = count(played(program, options), "s")
        require(lines == steps, f"{lines} lines of steps")

    return go


def the_first_steps_of_the_default_number(program):
    made = written(program, ["make", "--steps", "2", "--recoveries", "0"])
    header, *steps = [json.loads(line) for line in made.splitlines()]
    require(header["clients"] == 8, f"{header}")
    require(steps == [{"do": "nudge"}, {"client": 8, "do": "fetch"}], f"{steps}")


def the_first_commands_of_a_client(program):
    text = written(program, ["live", "--number", "1", "--clients", "1", "--commands", "5", "--recoveries", "0"])
    steps = [json.loads(line) for line in text.partition("\n\n")[0].split("\n")[1:]]
    made = [step["cmd"] for step in steps if step["do"] == "invoke"]
    require(made == FIRST_COMMANDS, f"{made}")


def runs():
    yield Run("the default script in numbers", ["make", "--summary"], stdout=SUMMARY)
    yield Driven("the default script has its steps", the_default_script_has_its_steps)
    yield Driven("the default script is played", the_default_script_is_played)
    yield Driven("a script of protocol 2 is played", a_script_of_protocol_2_is_played)
    yield Driven("the longest script is played", each_step_has_a_line(LONGEST, 200_000))
    yield Driven("a run has 64 recoveries", each_step_has_a_line(MOST_RECOVERIES, 6_500))
    yield Driven("the first steps of the default number", the_first_steps_of_the_default_number)
    yield Driven("the first commands of a client", the_first_commands_of_a_client)
