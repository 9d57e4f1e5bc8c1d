#!/usr/bin/env python3
"""Measures the program, and writes docs/PERFORMANCE.md with its plots, docs/pictures/performance-*.svg, and a line of README.md.

    tools/measure.py CURP       CURP is the program, as `rt run` in crates/curp leaves it in crates/curp/out/curp

Times are seconds of the processor for the whole process, the least of three runs; memory is the most that the process
had, and 19 MB at least, which this program has itself. They are of the machine that runs this. Counts (of round trips, of records) are
the same on every machine.
"""

import json
import os
import random
import subprocess
import sys
import tempfile
import time
from html import escape
from math import exp, floor, log10
from pathlib import Path

sys.dont_write_bytecode = True
sys.path.insert(0, str(Path(__file__).resolve().parent))
import growth  # noqa: E402

TOP = Path(__file__).resolve().parent.parent
PAGE = TOP / "docs" / "PERFORMANCE.md"
PICTURES = TOP / "docs" / "pictures"
README = TOP / "README.md"
RATE, RATE_ENDS = "<!-- rate of nodes: written by tools/measure.py -->", "<!-- end of the rate -->"
COLOURS = ["#1a5fb4", "#b03030", "#2e7d32", "#8e44ad", "#c77700"]
# Seconds below which a time isn't told apart from the noise of a run.
NOISE = 0.02


# ---- running the program


def run(curp, words, given=None):
    """Runs the program on words and an input: the seconds of the processor that it took, its memory in bytes, and the file
    of what it wrote.

    Nothing of it is kept here, since a process begins with the memory of the one that started it as its most."""
    sink = tempfile.TemporaryFile("w+")
    if given:
        given.seek(0)
    child = subprocess.Popen([curp, *words], stdin=given or subprocess.DEVNULL, stdout=sink)
    _, status, used = os.wait4(child.pid, 0)
    if status:
        sys.exit(f"{curp} {' '.join(words)} ended with {status}")
    sink.seek(0)
    return used.ru_utime + used.ru_stime, used.ru_maxrss * 1024, sink


def timed(curp, words, given=None):
    """The same, by the run of three that took the least time."""
    return min((run(curp, words, given) for _ in range(3)), key=lambda told: told[0])


def behind_threads(curp, words):
    """Runs the program on threads: the seconds by the clock, and the seconds of the processor that its first thread took
    once it was the only one again. The second is read every millisecond."""
    begun = time.monotonic()
    child = subprocess.Popen([curp, *words], stdin=subprocess.DEVNULL, stdout=subprocess.DEVNULL)
    tasks = Path(f"/proc/{child.pid}/task")
    most, alone, last = 0, None, 0
    while True:
        try:
            count = len(list(tasks.iterdir()))
            last = int((tasks / str(child.pid) / "schedstat").read_text().split()[0]) or last
        except (OSError, IndexError):
            break
        if os.waitid(os.P_PID, child.pid, os.WEXITED | os.WNOHANG | os.WNOWAIT):
            break
        most = max(most, count)
        if count > 1:
            alone = None
        elif most > 1 and alone is None:
            alone = last
        time.sleep(0.001)
    if child.wait():
        sys.exit(f"{curp} {' '.join(words)} ended with {child.returncode}")
    return time.monotonic() - begun, (last - (alone or last)) / 1e9


def file_of(text):
    """A file with these bytes."""
    script = tempfile.TemporaryFile("w+b")
    script.write(text)
    script.flush()
    return script


def seconds(took):
    """A time, where it is more than noise."""
    return f"{took:.2f}" if took >= NOISE else f"below {NOISE}"


def script_of(lines):
    """A file with these lines."""
    script = tempfile.TemporaryFile("w+")
    script.writelines(f"{line}\n" for line in lines)
    script.flush()
    return script


class Play:
    """A script that is played step by step, where each step may depend on what was printed."""

    def __init__(self, curp, **header):
        whole = {"clients": 1, "f": 1, "fast": "true", "parts": 1, "protocol": 1, "sets": 64, "ways": 4, **header}
        self.child = subprocess.Popen([curp, "play"], stdin=subprocess.PIPE, stdout=subprocess.PIPE, text=True)
        self.steps = 0
        self.tell("{" + ",".join(f'"{name}":{value}' for name, value in sorted(whole.items())) + "}")

    def tell(self, line):
        self.child.stdin.write(line + "\n")

    def step(self, line):
        """Makes a step, and gives the lines that it printed behind its own."""
        self.tell(line)
        # A message that was never sent: its refusal ends the text of the step before it.
        self.tell('{"do":"deliver","msg":0}')
        self.child.stdin.flush()
        self.steps += 2
        end = f"s{self.steps} refused no-message\n"
        lines = []
        for text in self.child.stdout:
            if text == end:
                return lines[1:]
            lines.append(text.split())
        sys.exit("the program ended before its script did")

    def put(self, client, key):
        return self.step(f'{{"client":{client},"cmd":["put","{key}","31"],"do":"invoke"}}')

    def deliver(self, number):
        return self.step(f'{{"do":"deliver","msg":{number}}}')

    def end(self):
        self.child.stdin.close()
        self.child.stdout.read()
        self.child.wait()


# ---- what is measured


def by_plan(curp, name, values, steps, **options):
    """Made scripts that differ in one number: how long they take to play, and how much memory."""
    rows = []
    for value in values:
        plan = {"steps": steps, **options, name: value}
        words = ["make", *(word for key, number in plan.items() for word in (f"--{key}", str(number)))]
        script = timed(curp, words)[2]
        took, memory, text = timed(curp, ["play"], script)
        messages = sum(line.startswith("m") for line in text)
        rows.append((value, messages, took, memory))
    return rows


def puts(updates):
    """The lines of a script in which a client that isn't fast puts so many keys, one after the other."""
    yield '{"clients":1,"f":1,"fast":false,"parts":1,"protocol":1,"sets":64,"ways":4}'
    for number in range(updates):
        yield f'{{"client":1,"cmd":["put","{number:08x}","31"],"do":"invoke"}}'
        yield from (f'{{"do":"deliver","msg":{4 * number + place}}}' for place in (1, 2, 3, 4))


def recovered(updates):
    """The same, and then the master is recovered: install, recover; fence, freeze; log, frozen; append; stored;
    recovered; adopted."""
    yield from puts(updates)
    yield '{"backup":1,"do":"recover","part":1,"witness":1}'
    yield from (f'{{"do":"deliver","msg":{4 * updates + place}}}' for place in (1, 3, 4, 5, 6, 7, 8, 9, 10, 11))


def recovery(curp, updates):
    """A master with so many updates in its log is recovered: what that takes, beside what comes before."""
    before = timed(curp, ["play"], script_of(puts(updates)))[0]
    took, memory, text = timed(curp, ["play"], script_of(recovered(updates)))
    if not any(" adopted " in line for line in text):
        sys.exit("a recovery wasn't adopted")
    return updates, before, max(took - before, 0), memory


def one_round_trips(curp, keys, sets, ways, updates=400, clients=8, seed=1):
    """Clients put random keys, and every message comes in turn: which share of the updates completes with no synced
    reply. A round begins where the master asks for one, and a collection after each 50 updates."""
    draw = random.Random(seed)
    play = Play(curp, clients=clients, sets=sets, ways=ways)
    early = done = 0
    waiting = []
    for number in range(updates):
        waiting += play.put(number % clients + 1, f"{draw.randrange(keys):04x}")
        if number % clients != clients - 1:
            continue
        while waiting:
            batch, waiting = waiting, []
            for line in batch:
                if not line[0].startswith("m"):
                    continue
                sent = play.deliver(line[0][1:])
                if any(words[0] == "c" for words in sent):
                    done += 1
                    early += line[3] != "reply" or line[5] == "unsynced"
                waiting += sent
        if number % 50 >= 50 - clients:
            waiting += play.step('{"do":"sync","master":1}')
            waiting += play.step('{"do":"collect","master":1}')
    play.end()
    return early / done if done else 0.0


def first_full_set(curp, sets, ways, seed):
    """How many records of random keys a witness takes before the first that finds its set full."""
    draw = random.Random(seed)
    play = Play(curp, clients=1, sets=sets, ways=ways)
    taken = 0
    while True:
        sent = play.put(1, f"{draw.randrange(2**64):016x}")
        update, record = (int(words[0][1:]) for words in sent)
        answer = play.deliver(record)[0]
        if answer[3] == "rejected" and answer[5] == "full":
            play.end()
            return taken
        reply = play.deliver(update)[0]
        taken += answer[3] == "accepted"
        for words in (answer, reply):
            play.deliver(int(words[0][1:]))


def by_chance(sets, ways):
    """How many balls fall at random into so many bins before one finds its bin with `ways` in it, on average: the bins
    fill as Poisson processes, so it is the integral of the chance that none has more than `ways`, less that one ball."""
    total, step, x = 0.0, 0.005, 0.0
    while True:
        term = part = exp(-x)
        for k in range(1, ways + 1):
            part *= x / k
            term += part
        chance = term**sets
        total += chance * step
        if chance < 1e-9:
            return total * sets - 1
        x += step


# ---- what is written


def size(number):
    return f"{number / 1e6:.0f} MB" if number >= 1e7 else f"{number / 1e6:.1f} MB"


def table(head, rows):
    whole = [head, ["---"] * len(head), *rows]
    return "\n".join("| " + " | ".join(map(str, row)) + " |" for row in whole)


def above(number):
    """The next round number."""
    power = 10 ** floor(log10(number))
    return next(power * step for step in (1, 2, 2.5, 5, 10) if power * step >= number)


def plot(name, title, across, up, lines, names=None):
    """Draws lines of points, each with its name, and writes the picture. The axis across goes from the first point to the
    last, and tells where points are, or their names."""
    width, height, left, top, right, bottom = 640, 360, 70, 40, 150, 50
    points = [point for _, line in lines for point in line]
    least_x, most_x, most_y = min(x for x, _ in points), max(x for x, _ in points), above(max(y for _, y in points))
    across_all, up_all = (width - left - right) / (most_x - least_x), (height - top - bottom) / most_y
    place = lambda x, y: (left + (x - least_x) * across_all, height - bottom - y * up_all)
    style = "text { font: 12px sans-serif; fill: #222 } .axis { stroke: #888 } .grid { stroke: #ddd }"
    parts = [f'<svg xmlns="http://www.w3.org/2000/svg" width="{width}" height="{height}" viewBox="0 0 {width} {height}">']
    parts += [f"<style>{style}</style>", f'<rect width="{width}" height="{height}" fill="#fff"/>']
    parts.append(f'<text x="{left}" y="22" font-weight="bold">{escape(title)}</text>')
    free = 0
    for x, told in enumerate(names) if names else ((x, x) for x in sorted({x for x, _ in points})):
        px = place(x, 0)[0]
        if px >= free:
            parts.append(f'<text x="{px:.1f}" y="{height - bottom + 18}" text-anchor="middle">{told}</text>')
            free = px + 50
    for tick in range(6):
        y = most_y * tick / 5
        py = place(least_x, y)[1]
        parts.append(f'<line x1="{left}" y1="{py:.1f}" x2="{width - right}" y2="{py:.1f}" class="grid"/>')
        parts.append(f'<text x="{left - 8}" y="{py + 4:.1f}" text-anchor="end">{y:g}</text>')
    parts.append(f'<text x="{(left + width - right) / 2}" y="{height - 10}" text-anchor="middle">{escape(across)}</text>')
    turned = f'transform="rotate(-90 16 {height / 2})"'
    parts.append(f'<text x="16" y="{height / 2}" text-anchor="middle" {turned}>{escape(up)}</text>')
    for number, (told, line) in enumerate(lines):
        colour = COLOURS[number % len(COLOURS)]
        path = " ".join(f"{x:.1f},{y:.1f}" for x, y in (place(*point) for point in line))
        parts.append(f'<polyline points="{path}" fill="none" stroke="{colour}" stroke-width="2"/>')
        parts += [f'<circle cx="{x:.1f}" cy="{y:.1f}" r="3" fill="{colour}"/>' for x, y in (place(*point) for point in line)]
        parts.append(f'<text x="{width - right + 12}" y="{top + 18 * number + 10}" style="fill: {colour}">{escape(told)}</text>')
    PICTURES.mkdir(parents=True, exist_ok=True)
    (PICTURES / f"performance-{name}.svg").write_text("\n".join([*parts, "</svg>", ""]), encoding="utf-8")
    return f"![{title}](pictures/performance-{name}.svg)"


def plan_part(curp):
    """The pages' part on made scripts."""
    steps = by_plan(curp, "steps", [1000, 5000, 20000, 50000, 100000, 200000], 0)
    parts = by_plan(curp, "parts", [1, 2, 4, 8, 16], 20000)
    copies = by_plan(curp, "f", [1, 2, 3, 4, 5], 20000)
    recoveries = by_plan(curp, "recoveries", [3, 56], 200000)
    wide = by_plan(curp, "parts", [8], 200000, clients=64)
    head = ["messages", "seconds", "memory"]
    show = lambda rows: [(value, messages, seconds(took), size(memory)) for value, messages, took, memory in rows]
    return [
        "## Playing a made script",
        "Scripts of `curp make` with its own numbers but for the one that a table names; `curp play` reads each and "
        "writes its text.",
        table(["`--steps`", *head], show(steps)),
        plot("steps", "Time of a made script", "steps", "seconds", [("play", [(row[0], row[2]) for row in steps])]),
        plot("memory", "Memory of a made script", "steps", "MB", [("play", [(row[0], row[3] / 1e6) for row in steps])]),
        "With 20,000 steps, by partitions and by backups:",
        table(["`--parts`", *head], show(parts)),
        table(["`--f`", *head], show(copies)),
        "With 200,000 steps, by recoveries, and the same with 64 clients and 8 partitions:",
        table(["`--recoveries`", *head], show(recoveries)),
        table(["`--parts`, with `--clients 64`", *head], show(wide)),
    ]


def write_rate(updates, ahead, took):
    """Writes the rate of the nodes themselves to the front page."""
    before, begins, rest = README.read_text(encoding="utf-8").partition(RATE)
    _, ends, behind = rest.partition(RATE_ENDS)
    if not ends:
        sys.exit(f"{README} has no place for the rate of nodes")
    told = f"In one process {updates:,} puts with all their messages take {ahead} s, and a recovery of them {took} s "
    told += "([docs/PERFORMANCE.md](docs/PERFORMANCE.md))."
    README.write_text(f"{before}{begins}\n{told}\n{ends}{behind}", encoding="utf-8")


def recovery_part(curp):
    rows = [recovery(curp, updates) for updates in (1000, 4000, 16000, 36000)]
    told = [(n, seconds(before), seconds(took), size(memory)) for n, before, took, memory in rows]
    write_rate(*told[-1][:3])
    return [
        "## A recovery",
        "One client that isn't fast puts so many keys, each on the backup before the next; then the master is recovered. "
        "The time of the recovery is that of its 11 steps: the difference of two times. It grows with the log, which the "
        "backup sends whole and the fresh backup gets whole, and which the fresh master executes once.",
        table(["updates in the log", "seconds ahead of it", "seconds of the recovery", "memory"], told),
    ]


def families_part(curp):
    """Steps that once cost the whole run so far."""
    counts = [2000, 4000, 8000]
    replaced = lambda *it: growth.done_orders(*it, "replace", kind="backup", part=1, place=1)
    crashed = lambda _, size: growth.manager_orders(size, growth.CRASH + growth.EXPIRE)
    families = [
        ("replacements of a backup", "play", replaced),
        ("migrations of ever other ranges", "play", growth.migrations),
        ("reads that wait for one round", "play", growth.waiting_reads),
        ("`manage`, crashes behind each order", "manage", crashed),
    ]
    took = {name: [timed(curp, [word], file_of(made(curp, n)))[0] for n in counts] for name, word, made in families}
    return [
        "## Many of one kind",
        "So many of one kind in a script, each carried out before the next. Each costs what it sends, and a logarithm of "
        "what came before, which `tools/growth.py` counts.",
        table(["", *(f"{n:,}, seconds" for n in counts)], [(name, *(seconds(it) for it in took[name])) for name in took]),
        plot("families", "Many of one kind", "how many", "seconds", [(name.replace("`", ""), list(zip(counts, took[name]))) for name in took]),
    ]


def round_trip_part(curp):
    keys = [1, 4, 16, 64, 256, 1024, 4096]
    shapes = [(4, 1), (16, 2), (64, 4), (256, 4)]
    shares = {(sets, ways): [one_round_trips(curp, k, sets, ways) for k in keys] for sets, ways in shapes}
    rows = [(f"{sets} x {ways}", *(f"{100 * share:.0f} %" for share in line)) for (sets, ways), line in shares.items()]
    places = list(range(len(keys)))
    lines = [
        (f"{sets} sets of {ways}", [(place, 100 * share) for place, share in zip(places, line)])
        for (sets, ways), line in shares.items()
    ]
    return [
        "## Updates in one round trip",
        "Eight clients put random keys of so many, 400 updates in all; every message comes, in turn; each eight updates "
        "are under way together, and after each 50 there is a round and a collection. The share of updates that complete "
        "with no synced reply, by the shape of witnesses (sets x slots of a set) and the number of keys:",
        table(["sets x ways", *(f"{k} keys" for k in keys)], rows),
        plot("round-trips", "Updates that complete in one round trip", "keys", "percent", lines, keys),
    ]


def full_set_part(curp):
    shapes = [(sets, ways) for ways in (1, 2, 4, 8) for sets in (16, 64, 256)]
    runs = 40
    rows = []
    for sets, ways in shapes:
        found = [first_full_set(curp, sets, ways, seed) for seed in range(runs)]
        rows.append((sets, ways, sum(found) / runs, min(found), max(found), by_chance(sets, ways)))
    told = [(s, w, f"{mean:.1f}", least, most, f"{chance:.1f}") for s, w, mean, least, most, chance in rows]
    lines = [(f"{w} slots", [(s, mean) for s, v, mean, *_ in rows if v == w]) for w in (1, 2, 4, 8)]
    return [
        "## Records until the first full set",
        f"How many records of random keys a witness takes before the first that finds its set full, in {runs} runs, and "
        "what chance alone gives on average: balls that fall at random into bins. FNV-1a spreads the keys over the sets as "
        "chance does. (The CURP paper has such a figure for its witnesses.)",
        table(["sets", "slots of a set", "on average", "least", "most", "by chance"], told),
        plot("full-sets", "Records until the first full set", "sets", "records", lines),
    ]


def beside_part(curp):
    """The time to play a script beside that which Python's json takes to read the same lines."""
    made = "make --steps 200000 --clients 64 --parts 8".split()
    rng = random.Random(3)
    again = ['{"clients":64,"f":3,"fast":true,"parts":1,"protocol":1,"sets":64,"ways":4}']
    again += [f'{{"client":{c},"cmd":["put","{7 * c:04x}","{"ab" * 10}"],"do":"invoke"}}' for c in range(1, 65)]
    again += [f'{{"do":"deliver","msg":{rng.randrange(1, 257)}}}' for _ in range(64, 200000)]
    scripts = [(f"`{' '.join(made)}`", run(curp, made)[2]), ("64 puts, and each message again and again", script_of(again))]
    rows = []
    for name, script in scripts:
        # Turn by turn, since the speed of a machine changes from minute to minute.
        turns = [(plays_to_nowhere(curp, script), json_reads(script)) for _ in range(9)]
        ratios = sorted(took / read for took, read in turns)
        took, read = (min(told) for told in zip(*turns))
        rows.append((name, f"{took:.2f}", f"{read:.2f}", f"{took / read:.2f}", f"{ratios[0]:.2f} to {ratios[-1]:.2f}"))
    return [
        "## Playing beside reading",
        "The seconds that `play` takes for a script of 200,000 steps when its text goes nowhere, and those that Python's "
        "`json` takes to read the lines: the least of nine turns each, and the ratio of these; behind it the least and the "
        "greatest ratio of one turn.",
        table(["script", "seconds", "seconds of Python", "ratio", "in one turn"], rows),
    ]


def plays_to_nowhere(curp, script):
    script.seek(0)
    child = subprocess.Popen([curp, "play"], stdin=script, stdout=subprocess.DEVNULL)
    _, status, used = os.wait4(child.pid, 0)
    if status:
        sys.exit(f"{curp} play ended with {status}")
    return used.ru_utime + used.ru_stime


def json_reads(script):
    script.seek(0)
    begun = time.process_time()
    for line in script:
        json.loads(line)
    return time.process_time() - begun


def live_part(curp):
    words = "live --clients 16 --commands 100 --f 3 --parts 4".split()
    rows = []
    for recoveries in (0, 3):
        for processors in (4, 2):
            use = os.sched_getaffinity(0)
            os.sched_setaffinity(0, sorted(use)[:processors])
            turns = [behind_threads(curp, [*words, "--recoveries", str(recoveries)]) for _ in range(9)]
            os.sched_setaffinity(0, use)
            whole, behind = (sorted(told) for told in zip(*turns))
            rate = f"{1600 / whole[4]:,.0f}"
            rows.append((recoveries, processors, f"{whole[0]:.2f}", f"{whole[4]:.2f}", rate, f"{behind[0]:.2f}", f"{behind[4]:.2f}"))
    return [
        "## Nodes on threads",
        f"`curp {' '.join(words)}`: 1,600 commands, about 25,000 steps and 91 threads, with three recoveries 133. Behind the run is one thread: it "
        "gives the inputs of all journals to nodes made anew, compares, gathers, prints, and plays the script. The seconds of "
        "the whole are by the clock, those of this thread are of the processor; the least and the median of nine runs.",
        table(["recoveries", "processors", "least", "median", "commands a second", "behind the run, least", "median"], rows),
    ]


def frame_part():
    """What was measured apart, in November 2026, by a program that writes and reads one message over and over."""
    rows = [
        ("an update", "frame", 62, "5,200,000", "2,800,000"),
        ("an update", "JSON", 168, "2,700,000", "620,000"),
        ("an append of 16 operations", "frame", 743, "1,100,000", "120,000"),
        ("an append of 16 operations", "JSON", 2031, "370,000", "47,000"),
    ]
    return [
        "## Messages as bytes",
        "How often a second one processor writes a message as its frame, tested with `is_light` before, and reads it of "
        "the frame; beside it what `serde_json` takes to print the same message from a `Value`, with keys and values in "
        "hexadecimal, and to read it as one. These figures weren't made by `tools/measure.py`.",
        table(["message", "as", "bytes", "written", "read"], rows),
    ]


def main():
    if len(sys.argv) != 2:
        sys.exit(__doc__)
    curp = str(Path(sys.argv[1]).resolve())
    parts = [
        "# Measured",
        "What the program costs, and how often an update takes one round trip. `tools/measure.py crates/curp/out/curp` "
        "makes this page and its pictures, but for its last two sections; the times are the least of three runs on one machine, and the counts are the same on every "
        "machine. Memory below 19 MB isn't told apart, nor below 38 MB where recoveries are measured.",
    ]
    parts += plan_part(curp) + beside_part(curp) + recovery_part(curp) + families_part(curp) + round_trip_part(curp) + full_set_part(curp) + frame_part() + live_part(curp)
    # These parts of the page are written by tools/measure_curpd.py and cluster/figures.
    kept = PAGE.read_text(encoding="utf-8").partition("\n## Nodes as processes\n")
    PAGE.write_text("\n\n".join(parts) + "\n" + "".join(kept[1:]), encoding="utf-8")


if __name__ == "__main__":
    main()
