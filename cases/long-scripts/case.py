"""Scripts of many steps and many messages, and the limits of both."""

from runs import HEADER, INVOKE, Run, deliver

FAST = '{"clients":64,"f":5,"fast":true,"parts":1,"protocol":1,"sets":1024,"ways":16}\n'
SLOW = '{"clients":64,"f":5,"fast":false,"parts":1,"protocol":1,"sets":16,"ways":4}\n'
DELIVER_9 = '{"do":"deliver","msg":9}'
TOO_MANY = "curp: more than 200000 steps\n"


class Text:
    """What is printed, step by step."""

    def __init__(self):
        self.lines, self.steps, self.messages = [], 0, 0

    def step(self, *said, how="done"):
        """A step, and what the messages say that it sends."""
        self.steps += 1
        self.lines.append(f"s{self.steps} {how}")
        for words in said:
            self.messages += 1
            self.lines.append(f"m{self.messages} {words}")

    def line(self, line):
        self.lines.append(line)

    def all(self):
        return "\n".join(self.lines) + "\n"


def keys_of_64():
    """The key and the command of each client's put: the longest key and value."""
    for client in range(1, 65):
        yield client, f"{client:02x}" + "61" * 31, "62" * 128


def puts_of_64_clients():
    """Each of 64 fast clients puts a value of the greatest length under a key of its own, of the greatest length too. All
    updates and records are delivered, a round is begun, and then all that is sent is delivered until nothing is left."""
    invoked = [f'{{"client":{client},"cmd":["put","{key}","{value}"],"do":"invoke"}}\n' for client, key, value in keys_of_64()]
    return FAST + "".join(invoked) + deliver(1, 384) + '{"do":"sync","master":1}\n' + deliver(385, 778)


def text_of_64_clients():
    text = Text()
    for client, key, value in keys_of_64():
        record = [f"C{client} W{w} record {client}.1 f1 e1 put {key} {value}" for w in range(1, 6)]
        text.step(f"C{client} M1 update {client}.1 f1 e1 v1 put {key} {value}", *record)
    for client in range(1, 65):
        text.step(f"M1 C{client} reply {client}.1 unsynced e1 v1 done")
        for w in range(1, 6):
            text.step(f"W{w} C{client} accepted {client}.1 e1")
    text.step(*[f"M1 B{b} append e1 b0 n64 r1" for b in range(1, 6)])
    for client in range(1, 65):
        for _ in range(6):
            text.step()
        text.line(f"c {client}.1 done")
    for b in range(1, 6):
        text.step(f"B{b} M1 stored e1 l64 r1")
    for _ in range(5):
        text.step()
    text.line("order 64")
    for client, key, value in keys_of_64():
        text.line(f"{client}.1 put {key} {value} -> done")
    return text.all()


def reads():
    """30,000 reads of one client, one after the other. Each has four messages: the client asks the master, which asks the
    backup, which answers, and then the master answers."""
    read = '{"client":1,"cmd":["get","61"],"do":"invoke"}\n'
    return HEADER + "\n" + "".join(read + deliver(4 * at + 1, 4 * at + 4) for at in range(30_000))


def text_of_reads():
    text = Text()
    for at in range(1, 30_001):
        text.step(f"C1 M1 read 1.{at} f{at} e1 v1 get 61")
        text.step(f"M1 B1 append e1 b0 n0 r{at}")
        text.step(f"B1 M1 stored e1 l0 r{at}")
        text.step(f"M1 C1 value 1.{at} e1 r{at} none")
        text.step()
        text.line(f"c 1.{at} none")
    text.line("order 30000")
    for at in range(1, 30_001):
        text.line(f"1.{at} get 61 -> none")
    return text.all()


def nine_invocations():
    """A ninth invocation while eight are pending is refused. Once one has completed the next goes, with the least number
    that is pending."""
    return f"{HEADER}\n" + 9 * f"{INVOKE}\n" + deliver(1, 2) + deliver(17, 18) + f"{INVOKE}\n"


def text_of_nine_invocations():
    text = Text()
    for seq in range(1, 9):
        text.step(f"C1 M1 update 1.{seq} f1 e1 v1 put 61 31", f"C1 W1 record 1.{seq} f1 e1 put 61 31")
    text.step(how="refused call 1")
    text.step("M1 C1 reply 1.1 unsynced e1 v1 done")
    text.step("W1 C1 accepted 1.1 e1")
    text.step()
    text.step()
    text.line("c 1.1 done")
    text.step("C1 M1 update 1.9 f2 e1 v1 put 61 31", "C1 W1 record 1.9 f2 e1 put 61 31")
    text.line("order 1")
    text.line("1.1 put 61 31 -> done")
    return text.all()


MULTI = '["multi","61","31","62","31","63","31","64","31"]'


def heavy():
    """64 clients that aren't fast ask for eight multi-puts each, of the same four keys, and the master is given the first 401
    requests. Each makes it send five appends of all that it holds, until all messages are too heavy. A stop is made."""
    invoked = [8 * f'{{"client":{client},"cmd":{MULTI},"do":"invoke"}}\n' for client in range(1, 65)]
    return SLOW + "".join(invoked) + deliver(1, 401) + '{"do":"stop","node":"M1"}\n'


def text_of_heavy():
    text = Text()
    told = "multi 61 31 62 31 63 31 64 31"
    weight = 0
    for client in range(1, 65):
        for seq in range(1, 9):
            text.step(f"C{client} M1 sync {client}.{seq} f1 e1 v1 {told}")
            weight += 1
    for length in range(1, 401):
        text.step(*[f"M1 B{b} append e1 b0 n{length} r{length}" for b in range(1, 6)])
        # One for the message, one for each entry, and one for each of its pairs.
        weight += 5 * (1 + 5 * length)
    text.step(how=f"refused full {weight}")
    text.step()
    text.line("order 400")
    for at in range(400):
        text.line(f"{at // 8 + 1}.{at % 8 + 1} {told} -> done")
    return text.all()


def refusals(count):
    return "".join(f"s{step} refused no-message\n" for step in range(1, count + 1))


def runs():
    yield Run("64-clients", ["play"], puts_of_64_clients, text_of_64_clients)
    yield Run("30000-reads", ["play"], reads, text_of_reads)
    yield Run("8-pending-requests", ["play"], nine_invocations, text_of_nine_invocations)
    yield Run("a-heavy-world", ["play"], heavy, text_of_heavy)
    yield Run("200000-steps", ["play"], HEADER + f"\n{DELIVER_9}" * 200_000, lambda: refusals(200_000) + "order 0\n")
    yield Run("200001-steps", ["play"], HEADER + f"\n{DELIVER_9}" * 200_001, lambda: refusals(200_000), TOO_MANY, 7)
    # A line is read before its step is counted.
    told = {"status": 3, "stderr": "curp: line 200002: bad json\n"}
    cut = HEADER + f"\n{DELIVER_9}" * 200_000 + "\n{"
    yield Run("a-refused-line-behind-200000-steps", ["play"], cut, lambda: refusals(200_000), **told)
    longer = HEADER + f"\n{DELIVER_9}" * 200_001
    yield Run("a-history-of-200001-steps", ["play", "--history"], longer, "", TOO_MANY, 7)
