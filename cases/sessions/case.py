"""Requests of Redis' protocol, and the replies: each word and each fault, cuts, and the limits."""

from runs import Driven, Run, deliver, require, seen, written

SET = "*3\r\n$3\r\nSET\r\n$1\r\na\r\n$1\r\n1\r\n"
GET = "*2\r\n$3\r\nget\r\n$1\r\na\r\n"
PING = "*1\r\n$4\r\nPING\r\n"
REPLIES = "+OK\r\n$1\r\n1\r\n"
HEADER = '{"clients":1,"f":1,"fast":true,"parts":1,"protocol":1,"sets":64,"ways":4}\n'
# Exactly the steps of a put and a get.
SCRIPT = (
    HEADER
    + '{"client":1,"cmd":["put","61","31"],"do":"invoke"}\n'
    + deliver(1, 4)
    + '{"client":1,"cmd":["get","61"],"do":"invoke"}\n'
    + deliver(5, 8)
)
PROTOCOL = "-ERR protocol\r\n"

# Commands in a row, with what each is replied.
SESSION = [
    ("get a", "$-1"),
    ("set a 1", "+OK"),
    ("GET a", "$1\r\n1"),
    ("SeT a 22", "+OK"),
    ("gEt a", "$2\r\n22"),
    ("append a 333", ":5"),
    ("append b 4", ":1"),
    ("incr n", ":1"),
    ("incr n", ":2"),
    ("INCR a", "-ERR not a number"),
    ("incrby n 1", ":3"),
    ("IncrBy a 1", "-ERR not a number"),
    ("incrby n 2", "-ERR increment by 1 only"),
    ("incrby n -1", "-ERR increment by 1 only"),
    ("incrby n one", "-ERR value is not an integer or out of range"),
    ("incrby n 9223372036854775808", "-ERR value is not an integer or out of range"),
    ("incr n", ":4"),
    ("del b", ":1"),
    ("del b", ":0"),
    ("mset b 1 c 2", "+OK"),
    ("get c", "$1\r\n2"),
    ("mset b 1", "+OK"),
    ("mset b 1 c 2 d 3 e 4", "+OK"),
    ("condnew f 5", ":1"),
    ("condnew f 6", ":0"),
    ("setnx f 6", ":0"),
    ("setnx h 5", ":1"),
    ("get h", "$1\r\n5"),
    ("condput f 4 6", ":0"),
    ("condput f 5 6", ":1"),
    ("condput g 5 6", ":0"),
    ("get f", "$1\r\n6"),
    ("set z " + "v" * 128, "+OK"),
    ("append z w", "-ERR too long"),
    ("get z", "$128\r\n" + "v" * 128),
    ("set " + "k" * 32 + " 1", "+OK"),
    ("get " + "k" * 32, "$1\r\n1"),
    ("echo a", "$1\r\na"),
    ("ECHO " + "v" * 128, "$128\r\n" + "v" * 128),
    # What means no command, by the first that holds.
    ("ping", "-ERR unknown command"),
    ("gets a", "-ERR unknown command"),
    ("client setinfo LIB-NAME redis-py", "-ERR unknown command"),
    ("config get save", "-ERR unknown command"),
    ("hello 3", "-ERR unknown command"),
    ("select 0", "-ERR unknown command"),
    ("decrby n 1", "-ERR unknown command"),
    ("echo", "-ERR arguments"),
    ("echo a b", "-ERR arguments"),
    ("echo " + "v" * 129, "-ERR size"),
    ("get", "-ERR arguments"),
    ("get a b", "-ERR arguments"),
    ("set a", "-ERR arguments"),
    ("set a 1 2", "-ERR arguments"),
    ("set a 1 nx", "-ERR arguments"),
    ("del a b", "-ERR arguments"),
    ("del", "-ERR arguments"),
    ("incr", "-ERR arguments"),
    ("incr a 1", "-ERR arguments"),
    ("incrby a", "-ERR arguments"),
    ("incrby a 1 1", "-ERR arguments"),
    ("setnx a", "-ERR arguments"),
    ("append a", "-ERR arguments"),
    ("condput a 1", "-ERR arguments"),
    ("condnew a", "-ERR arguments"),
    ("mset", "-ERR arguments"),
    ("mset a", "-ERR arguments"),
    ("mset a 1 b 2 c 3 d 4 e 5", "-ERR arguments"),
    ("get " + "k" * 33, "-ERR size"),
    ("set a " + "v" * 129, "-ERR size"),
    ("incrby " + "k" * 33 + " 2", "-ERR size"),
    ("setnx " + "k" * 33 + " 1", "-ERR size"),
    ("mset a 1 a 2", "-ERR key twice"),
]


# Requests that ask nothing.
EMPTY = ["\r\n", "\n", "*0\r\n", "*00000\r\n", "*-1\r\n"]
# Bytes that are none, and where that is seen.
NONE = [("\r", 1), ("\r\r\n", 1), (" \r\n", 0), ("PING\r\n", 0), ("*-2\r\n", 2), ("*-1\n", 3), ("*0-1\r\n", 2)]
# What redis-cli --pipe sends behind the bytes that it was given.
LAST_OF_PIPE = "\r\n*2\r\n$4\r\nECHO\r\n$20\r\n" + "0123456789\r\n*$-+abcd" + "\r\n"


def request(words):
    """A request of these words, with blanks between them."""
    words = words.split(" ")
    return f"*{len(words)}\r\n" + "".join(f"${len(word)}\r\n{word}\r\n" for word in words)


def cut(end):
    """How a put and a get end that are cut behind so many bytes."""
    if end == 0:
        return 0, "", ""
    if end == len(SET):
        return 0, "+OK\r\n", ""
    if end == len(SET + GET):
        return 0, REPLIES, ""
    before = "" if end < len(SET) else "+OK\r\n"
    return 11, before + PROTOCOL, f"curp: bad request at {end}\n"


def largest_multi():
    """Four of the longest keys, each with one of the longest values: the request, and the line of its invocation."""
    keys, value = ["k" * 31 + str(key) for key in range(4)], "v" * 128
    told = ",".join(f'"{key.encode().hex()}","{value.encode().hex()}"' for key in keys)
    pairs = " ".join(f"{key} {value}" for key in keys)
    line = f'{{"client":1,"cmd":["multi",{told}],"do":"invoke"}}\n'
    return Run("the-largest-request", ["resp", "--f", "1", "--script"], request(f"mset {pairs}"), HEADER + line + deliver(1, 4))


def commands():
    """Each command as the line of a script."""
    told = {
        "get a": '"get","61"',
        "set a 1": '"put","61","31"',
        "del a": '"delete","61"',
        "incr a": '"incr","61"',
        "incrby a 1": '"incr","61"',
        "append a 1": '"append","61","31"',
        "condnew a 1": '"condput","61",null,"31"',
        "setnx a 1": '"condput","61",null,"31"',
        "condput a 2 1": '"condput","61","32","31"',
        "mset a 1": '"multi","61","31"',
        "mset b 2 a 1": '"multi","62","32","61","31"',
    }
    for words, command in told.items():
        line = f'{{"client":1,"cmd":[{command}],"do":"invoke"}}\n'
        name = "as-a-line-" + words.replace(" ", "-")
        yield Run(name, ["resp", "--f", "1", "--script"], request(words), HEADER + line + deliver(1, 4))
    for name, words, command in (
        ("other-bytes", [b"set", b"\xaf\x09", b""], '"put","af09",""'),
        ("an-empty-value-that-is-expected", [b"condput", b"a", b"", b"1"], '"condput","61","","31"'),
        ("line-feeds", [b"append", b"\r\n", b"\n\r\n"], '"append","0d0a","0a0d0a"'),
    ):
        told = b"*%d\r\n" % len(words) + b"".join(b"$%d\r\n%s\r\n" % (len(word), word) for word in words)
        line = f'{{"client":1,"cmd":[{command}],"do":"invoke"}}\n'
        yield Run(f"as-a-line-{name}", ["resp", "--f", "1", "--script"], told, HEADER + line + deliver(1, 4))


def answers_with_recoveries(program):
    """Recoveries change no answer: with one behind each command the master is stopped three times."""
    requests = GET + SET + GET
    args = ["resp", "--f", "2", "--every", "1"]
    seen(program, args, requests).has_to_be(stdout="$-1\r\n" + REPLIES)
    steps = written(program, args + ["--script"], requests)
    stops = steps.count('"do":"stop"')
    require(stops == 3, f"the master is stopped {stops} times, and not 3")


def steps_of_gets(program, gets, steps, status=0, stderr=b""):
    """How many lines a script of so many gets with five backups has: the header, and so many steps."""
    run = seen(program, ["resp", "--f", "5", "--script"], GET * gets)
    run.has_to_be(status, stderr=stderr)
    lines = run.stdout.count(b"\n")
    require(lines == steps + 1, f"{gets} gets take {lines - 1} steps, and not {steps}")


def too_heavy(program):
    """A recovery behind each command hands the whole log on, to six nodes: then the messages are too heavy."""
    multi = request("MSET a 1 b 1 c 1 d 1")
    run = seen(program, ["resp", "--f", "5", "--every", "1"], multi * 1_000)
    require(run.status == 9, f"status: wanted 9, but it is {run.status}")
    weight = run.stderr.decode().removeprefix("curp: weight ").removesuffix("\n")
    require(weight.isdigit() and 2_000_000 < int(weight) < 2_010_000, f"stderr: {run.stderr}")
    replies = run.stdout.decode()
    require(replies == "+OK\r\n" * (len(replies) // 5), "there are other replies than +OK")
    require(len(replies) // 5 > 200, f"there are {len(replies) // 5} replies")


def of_sessions():
    both = SET + GET
    yield Run("a-put-and-a-get", ["resp", "--f", "1"], both, REPLIES)
    yield Run("a-recovery-behind-each", ["resp", "--f", "1", "--every", "1"], both, REPLIES)
    yield Run("their-steps", ["resp", "--f", "1", "--script"], both, SCRIPT)
    yield Run("no-request", ["resp"])
    yield Run("no-command", ["resp"], PING, "-ERR unknown command\r\n")
    yield Run("no-command-and-no-step", ["resp", "--f", "1", "--script"], PING, HEADER)
    told = {"status": 11, "stderr": "curp: bad request at 4\n"}
    yield Run("no-request-can-go-on-so", ["resp"], "*2\r\nX", PROTOCOL, **told)
    yield Run("no-request-can-go-on-so-behind-a-script", ["resp", "--f", "1", "--script"], "*2\r\nX", HEADER, **told)
    for words in ([], ["--f", "1", "--every", "1"], ["--f", "5", "--every", "3"]):
        requests = "".join(request(words) for words, _ in SESSION)
        replies = "".join(f"{reply}\r\n" for _, reply in SESSION)
        yield Run("each-word-" + "".join(words).replace("--", "-").strip("-"), ["resp"] + words, requests, replies)
    for end in range(len(both) + 1):
        status, replies, stderr = cut(end)
        yield Run(f"cut-behind-{end}", ["resp", "--f", "1"], both[:end], replies, stderr, status)
    yield Driven("recoveries-change-no-answer", answers_with_recoveries)
    for number, empty in enumerate(EMPTY, 1):
        yield Run(f"nothing-is-asked-{number}", ["resp", "--f", "1"], empty + SET + empty + empty + GET + empty, REPLIES)
    yield Run("nothing-asked-is-no-step", ["resp", "--f", "1", "--script"], "".join(EMPTY) + both + "\r\n", SCRIPT)
    yield Run("a-pipe-is-ended", ["resp", "--f", "1"], both + LAST_OF_PIPE, REPLIES + LAST_OF_PIPE.split("ECHO\r\n")[1])
    for number, (bytes_of, at) in enumerate(NONE, 1):
        told = {"status": 11, "stderr": f"curp: bad request at {len(SET) + at}\n"}
        yield Run(f"bytes-that-are-none-{number}", ["resp", "--f", "1"], SET + bytes_of, "+OK\r\n" + PROTOCOL, **told)


def of_limits():
    # A get takes 13 steps with five backups, and a round and a collection behind each sixteenth 11 each.
    yield Driven("16-gets", lambda program: steps_of_gets(program, 16, 230))
    yield Driven("13914-gets", lambda program: steps_of_gets(program, 13_914, 200_000))
    more = (7, "curp: more than 200000 steps\n")
    yield Driven("13915-gets", lambda program: steps_of_gets(program, 13_915, 200_000, *more))
    yield Run("14000-gets", ["resp", "--f", "5"], GET * 14_000, "$-1\r\n" * 13_914, more[1], more[0])
    yield Run("200000-requests", ["resp", "--f", "1"], PING * 200_000, "-ERR unknown command\r\n" * 200_000)
    empty = "*1\r\n$0\r\n\r\n" * 200_001
    yield Run("200001-requests", ["resp", "--f", "1"], empty, "-ERR unknown command\r\n" * 200_000, more[1], more[0])
    yield Run("200001-requests-that-ask-nothing", ["resp", "--f", "1"], "\n" * 200_001, "", more[1], more[0])
    yield Driven("too-heavy", too_heavy)


def runs():
    yield from of_sessions()
    yield from commands()
    yield largest_multi()
    yield from of_limits()
