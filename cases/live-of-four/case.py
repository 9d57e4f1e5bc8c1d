"""Four clients complete all their 200 commands in either protocol, with no recovery, one and eight, and the script of the run
is played again to the same bytes."""

from runs import Driven, require, written


def four_end(protocol, recoveries):
    def go(program):
        text = written(
            program,
            ["live", "--f", "2", "--clients", "4", "--parts", "1", "--recoveries", recoveries, "--protocol", protocol],
        )
        completed = sum(line.startswith("c ") for line in text.split("\n"))
        require(completed == 200, f"{completed} completions")
        script, empty, played = text.partition("\n\n")
        require(empty, "no empty line behind the script")
        require(written(program, ["play"], script + "\n") == played, "the script is played to another text")

    return go


def runs():
    for protocol in ("1", "2"):
        for recoveries in ("0", "1", "8"):
            yield Driven(f"protocol {protocol}, {recoveries} recoveries", four_end(protocol, recoveries))
