"""The longest line, one that is longer, and a line of each length between."""

from runs import HEADER, INVOKE, INVOKED, Run

LONGEST = 65_536
SMALL = '{"clients":1,"f":1,"fast":true,"parts":1,"protocol":1,"sets":16,"ways":4}'


def wide(line, length):
    """A line that blanks fill up to so many bytes."""
    return line + " " * (length - len(line))


def too_long(line):
    return {"status": 10, "stderr": f"curp: line {line} is too long\n"}


def deep(depth):
    """A delivery beside a name too many, whose value has so many levels."""
    return '{"do":"deliver","msg":1,"x":' + "[" * depth + "]" * depth + "}"


def put(key, value):
    """A put of a key and a value of so many bytes."""
    return f'{{"client":1,"cmd":["put","{"ab" * key}","{"0f" * value}"],"do":"invoke"}}'


def of_header():
    longest, longer = wide(HEADER, LONGEST), wide(HEADER, LONGEST + 1)
    yield Run("the-longest-header", ["play"], longest, "order 0\n")
    yield Run("the-longest-header-and-its-line-feed", ["play"], longest + "\n", "order 0\n")
    yield Run("a-longer-header", ["play"], longer, **too_long(1))
    yield Run("a-longer-header-and-its-line-feed", ["play"], longer + "\n", **too_long(1))
    yield Run("a-longer-second-line", ["play"], f"{longest}\n{longer}\n", **too_long(2))
    yield Run("a-second-line-of-blanks", ["play"], f"{HEADER}\n" + " " * (LONGEST + 1), **too_long(2))
    for thousands in range(1, 66):
        yield Run(f"a-header-of-{thousands}000-bytes", ["play"], wide(HEADER, thousands * 1_000), "order 0\n")


def of_steps():
    longest = wide("", LONGEST - len(INVOKE)) + INVOKE
    yield Run("the-longest-step", ["play"], f"{HEADER}\n{longest}", INVOKED + "order 0\n")
    both = f'{HEADER}\n{longest}\n{{"do":"nudge"}}\n'
    yield Run("the-longest-step-and-another", ["play"], both, INVOKED + nudged() + "order 0\n")
    yield Run("a-longer-step", ["play"], f"{HEADER}\n{INVOKE}\n {longest}\n", INVOKED, **too_long(3))
    # It needn't be whole: what comes behind its 65,537 bytes isn't read.
    yield Run("a-line-without-end", ["play"], f"{HEADER}\n{INVOKE}\n" + "x" * 1_000_000, INVOKED, **too_long(3))
    cut = {"status": 3, "stderr": "curp: line 1: bad json\n"}
    yield Run("cut-in-the-longest-line", ["play"], wide(HEADER, LONGEST - 2) + "x", **cut)
    yield Run("the-longest-line-that-is-none", ["play"], "x" * LONGEST, **cut)


def nudged():
    """What a nudge is answered with as the second step."""
    return "s2 done\nm3 G W1 start p1 e1\nm4 G M1 adopted p1 e1 v1\n"


def of_other_words():
    history = '{"cmd":["get","61"],"ev":"invoke","id":[1,1]}'
    yield Run("the-longest-line-of-a-history", ["check"], wide(history, LONGEST), "yes\n")
    yield Run("a-longer-line-of-a-history", ["check"], f"{history}\n" + wide("", LONGEST + 1), **too_long(2))
    order = '{"client":1,"do":"expire"}'
    expired = "s1 done\nm1 G M1 expire c1\n"
    yield Run("the-longest-order", ["manage"], f"{SMALL}\n{wide(order, LONGEST)}", expired + "decisions 1\n")
    yield Run("a-longer-order", ["manage"], f"{SMALL}\n{order}\n" + wide("", LONGEST + 1), expired, **too_long(3))


def of_contents():
    """JSON is read up to 127 levels; keys have up to 32 bytes and values up to 128, and a multi-put has up to four pairs."""
    for depth, why in ((126, "bad field other"), (127, "bad json")):
        told = {"status": 3, "stderr": f"curp: line 2: {why}\n"}
        yield Run(f"{depth + 1}-levels", ["play"], f"{HEADER}\n{deep(depth)}\n", **told)
    for key, value in ((33, 1), (1, 129), (200, 1)):
        told = {"status": 3, "stderr": "curp: line 2: bad field cmd\n"}
        yield Run(f"a-key-of-{key}-and-a-value-of-{value}", ["play"], f"{HEADER}\n{put(key, value)}\n", **told)
    keys, value = ["0" * 62 + f"0{at}" for at in range(1, 5)], "0f" * 128
    words = ",".join(f'"{key}","{value}"' for key in keys)
    step = f'{{"client":1,"cmd":["multi",{words}],"do":"invoke"}}'
    told = " ".join(f"{key} {value}" for key in keys)
    out = f"s1 done\nm1 C1 M1 update 1.1 f1 e1 v1 multi {told}\nm2 C1 W1 record 1.1 f1 e1 multi {told}\norder 0\n"
    yield Run("the-largest-command", ["play"], f"{HEADER}\n{step}\n", out)


def runs():
    for part in (of_header, of_steps, of_other_words, of_contents):
        yield from part()
