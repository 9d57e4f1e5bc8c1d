"""Each order of the manager, stopped at each call of the disk: it is kept exactly where the last of the four calls is stopped
and what wasn't synced outlives the crash. A nudge behind it shows which of the two it was."""

from runs import Run

HEADER = '{"clients":2,"f":1,"fast":true,"parts":2,"protocol":1,"sets":16,"ways":4}'
RECOVER = '{"backup":1,"do":"recover","part":1,"witness":1}'
NUDGE = '{"do":"nudge"}'

# What a nudge sends where there was no order.
FIRST = ["G W1 start p1 e1", "G M1 adopted p1 e1 v1"]
SECOND = ["G W2 start p2 e1", "G M2 adopted p2 e1 v1"]
# What it sends for a partition that is being recovered.
RECOVERING = ["G B3 install e2", "G W3 start p1 e2", "G M3 recover p1 e2 v2 B1 W1 B3 W3"]

# An order, and what a nudge sends where it was kept.
ORDERS = {
    "recover": (RECOVER, RECOVERING + SECOND),
    "replace-a-backup": (
        '{"do":"replace","kind":"backup","part":1,"place":1}',
        ["G B3 install e1", "G M1 prepare v2 B3 W1"] + SECOND,
    ),
    "replace-a-witness": (
        '{"do":"replace","kind":"witness","part":2,"place":1}',
        FIRST + ["G W3 start p2 e1", "G M2 prepare v2 B2 W3"],
    ),
    "migrate": (
        '{"do":"migrate","hi":"00000000000000ff","lo":"0000000000000000","to":2}',
        FIRST + SECOND + ["G M1 take g1 0000000000000000-00000000000000ff"],
    ),
    "expire": ('{"client":2,"do":"expire"}', FIRST + SECOND + ["G M1 expire c2", "G M2 expire c2"]),
    "nudge": (NUDGE, FIRST + SECOND),
    "recovered": ('{"do":"recovered","epoch":1,"part":1}', FIRST + SECOND),
}


def numbered(first, messages):
    """Messages with their numbers, from the first on."""
    return "".join(f"m{first + at} {message}\n" for at, message in enumerate(messages))


def crash(call, kept):
    return f'{{"call":{call},"do":"crash","kept":{str(kept).lower()}}}'


def script(*lines):
    return "".join(f"{line}\n" for line in (HEADER, *lines))


def stopped(name, order, nudged, call, kept):
    """The order alone is stopped."""
    is_kept = call == 4 and kept
    word, sent, decisions = ("kept", nudged, 2) if is_kept else ("lost", FIRST + SECOND, 1)
    out = f"s1 done\ns2 stopped {word}\ns3 done\n{numbered(1, sent)}decisions {decisions}\n"
    return Run(name, ["manage"], script(crash(call, kept), order, NUDGE), out)


def adoption(name, call, kept):
    """The adoption of a recovered master is stopped: a nudge tells of the adopted lists, or of the attempt."""
    is_kept = call == 4 and kept
    adopted = ["G W3 start p1 e2", "G M3 adopted p1 e2 v2"] + SECOND
    word, sent, decisions = ("kept", adopted, 3) if is_kept else ("lost", RECOVERING + SECOND, 2)
    out = (
        f"s1 done\n{numbered(1, RECOVERING)}s2 done\ns3 stopped {word}\ns4 done\n{numbered(4, sent)}decisions {decisions}\n"
    )
    lines = script(RECOVER, crash(call, kept), '{"do":"recovered","epoch":2,"part":1}', NUDGE)
    return Run(name, ["manage"], lines, out)


def runs():
    for call in range(1, 5):
        for kept in (False, True):
            where = f"call-{call}-" + ("and-kept" if kept else "and-lost")
            for name, (order, nudged) in ORDERS.items():
                yield stopped(f"{name}-{where}", order, nudged, call, kept)
            yield adoption(f"adopt-{where}", call, kept)
