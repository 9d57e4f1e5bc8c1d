"""Scripts of each shape that are made and played, the largest ones, and a long run on threads."""

from functools import partial

from runs import Driven, has_history, require, seen, written


def made_and_played(program, words, steps):
    """Each step has its line, and the order is one of the history."""
    script = written(program, words)
    text = written(program, ["play"], script).splitlines()
    told = sum(line.startswith("s") for line in text)
    require(told == steps, f"{told} steps are told of, and not {steps}")
    claim = written(program, ["play", "--history"], script)
    has_history(claim, "\n".join(text))
    seen(program, ["check"], claim).has_to_be(stdout="yes\n")


def long_run(program):
    """1,600 commands, in more than 20,000 steps."""
    lines = written(program, ["live", "--clients", "16", "--commands", "100", "--f", "5"]).splitlines()
    completed, steps = (sum(line.startswith(front) for line in lines) for front in ("c ", "s"))
    require(completed == 1_600, f"{completed} requests complete")
    require(steps > 20_000, f"{steps} steps")


def runs():
    for f in range(1, 6):
        for parts in range(1, 17):
            words = f"make --f {f} --parts {parts} --steps 400 --recoveries 2"
            yield Driven(words, partial(made_and_played, words=words.split(), steps=400))
    words = (
        "make --number 7 --f 4 --sets 1024 --ways 16 --clients 64 --parts 7 --protocol 2 --steps 50001 --recoveries 1"
    )
    yield Driven("a script by all options", partial(made_and_played, words=words.split(), steps=50_001))
    yield Driven("a long run on threads", long_run)
