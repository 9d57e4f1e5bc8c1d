"""Each script of examples/ with all that is written for it, its status and the line on standard error; and its history, which
`check` has to find in order."""

from functools import partial

from runs import TOP, Driven, Run, has_history, require, seen

EXAMPLES = TOP / "examples"
# Those that are worked examples, and those that were made.
WANTED = {"*.script": 42, "made/*.script": 3}


def ended(script):
    """The status of an example, and the line on standard error."""
    file = script.with_suffix(".status")
    code, _, line = file.read_text(encoding="utf-8").partition(" ") if file.exists() else ("0", "", "")
    return int(code), line


def claimed(program, script, status, line):
    """`check` says yes to what `play --history` writes, which has each completion of the example, and its order; of a script
    that is refused nothing is written."""
    run = seen(program, ["play", "--history"], script.read_bytes())
    run.has_to_be(status, None if status == 0 else b"", line)
    if status == 0:
        out = script.with_suffix(".out").read_text(encoding="utf-8")
        has_history(run.stdout.decode(), out)
        seen(program, ["check"], run.stdout).has_to_be(stdout="yes\n")


def runs():
    for pattern, wanted in WANTED.items():
        scripts = sorted(EXAMPLES.glob(pattern))
        require(len(scripts) == wanted, f"{len(scripts)} files {pattern}, but {wanted} are wanted")
        for script in scripts:
            status, line = ended(script)
            out = script.with_suffix(".out").read_bytes()
            yield Run(script.stem, ["play"], script.read_bytes(), out, line, status)
            yield Driven(f"{script.stem}-history", partial(claimed, script=script, status=status, line=line))
