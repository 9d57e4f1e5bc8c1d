#!/usr/bin/env python3
"""Draws a script's run as a sequence diagram, from what `curp play` prints for it.

Nodes are columns, and time goes down, a step at a time. Witnesses stand on the other side of the clients than masters, so
that no message between a client and a witness crosses a master. An arrow goes from the step that sent a message to the one
that delivered it; a second delivery is dashed, and a message that is never delivered ends in a cross. A larger cross on a
node's line is its stop. What a client asks and is answered stands in the margin, beside a point on the client's line.

    examples/to_svg.py                  draws the pictures of docs/pictures, from the examples of this folder, and those that
                                        docs/pictures/diagrams.py draws
    examples/to_svg.py --check          writes nothing, names the pictures that aren't what it would draw, and ends with 1
                                        if there are any
    examples/to_svg.py SCRIPT OUTPUT    draws that script and its output to standard output
"""

import json
import math
import re
import sys
from dataclasses import dataclass, field
from html import escape
from pathlib import Path

EXAMPLES = Path(__file__).resolve().parent
PICTURES = EXAMPLES.parent / "docs" / "pictures"
DRAWN = ["one-put", "read-in-one-round-trip", "conflict", "recovery-replays"]
KINDS = "WCMBG"
COLUMN, LEFT, TOP, STEP, LINE = 170, 150, 50, 30, 15
sys.path.insert(0, str(PICTURES))
sys.dont_write_bytecode = True
import diagrams  # noqa: E402


@dataclass
class Sent:
    """A message: who sent it to whom, and what its line says."""

    number: int
    source: str
    target: str
    words: list


@dataclass
class Step:
    """A step: its line in the script, its outcome, what it sent and what completed in it."""

    order: dict
    outcome: str
    sent: list = field(default_factory=list)
    completed: list = field(default_factory=list)
    top: int = 0


def steps_of(script, output):
    """The steps of a script, with what was printed for each."""
    orders = [json.loads(line) for line in script.splitlines()[1:]]
    steps = []
    for line in output.splitlines():
        first, *words = line.split()
        if first == "order":
            break
        if first == "c":
            steps[-1].completed.append((words[0], " ".join(words[1:])))
        elif first[0] == "s":
            steps.append(Step(orders[len(steps)], " ".join(words)))
        else:
            steps[-1].sent.append(Sent(int(first[1:]), words[0], words[1], words[2:]))
    return steps


def columns_of(steps):
    """The nodes that have a part, each with the place of its column."""
    names = {name for step in steps for message in step.sent for name in (message.source, message.target)}
    names |= {f"C{step.order['client']}" for step in steps if step.order["do"] in ("invoke", "retry", "fetch")}
    names |= {step.order["node"] for step in steps if step.order["do"] == "stop"}
    ordered = sorted(names, key=place_of)
    return {name: LEFT + COLUMN // 2 + COLUMN * place for place, name in enumerate(ordered)}


def place_of(name):
    """Where a node stands among the columns: the first witness is the one beside the clients."""
    number = int(name[1:] or 0)
    return KINDS.index(name[0]), -number if name[0] == "W" else number


def place_all(steps):
    """Gives each step its height, by how much it sends, and returns the height of all."""
    top = TOP + STEP
    for step in steps:
        step.top = top
        top += STEP + LINE * max(0, len(step.sent) - 1)
    return top + STEP // 2


def text(x, y, words, anchor="start", kind="said"):
    return f'<text x="{x}" y="{y}" text-anchor="{anchor}" class="{kind}">{escape(words)}</text>'


def line(x1, y1, x2, y2, kind, end=""):
    marker = f' marker-end="url(#{end})"' if end else ""
    return f'<line x1="{x1}" y1="{y1}" x2="{x2}" y2="{y2}" class="{kind}"{marker}/>'


def cross(x, y, size, kind):
    return (
        f'<path d="M{x - size},{y - size} L{x + size},{y + size} M{x - size},{y + size} L{x + size},{y - size}" class="{kind}"/>'
    )


def label_of(message):
    """A message in few words: its kind and, where it is of one, its request."""
    request = message.words[1] if len(message.words) > 1 and re.fullmatch(r"\d+\.\d+", message.words[1]) else ""
    if message.words[0] == "frozen":
        request = ""
    early = " unsynced" if "unsynced" in message.words else ""
    return f"m{message.number} {message.words[0]} {request}{early}".replace("  ", " ").strip()


def arrow(message, columns, start, end, again, labels):
    """A message on its way, with its label along it: at its end, or where no other label is."""
    source, target = columns[message.source], columns[message.target]
    side = 1 if source < target else -1
    words = label_of(message)
    length, width = math.hypot(target - source, end - start), 6.5 * len(words)
    across, down = (target - source) / length, (end - start) / length

    def covered(behind):
        return [(target - across * (behind + at), end - down * (behind + at)) for at in range(0, int(width), 6)]

    def room(behind):
        return min((math.dist(mine, other) for mine in covered(behind) for other in labels), default=math.inf)

    behind = 14 if room(14) > 14 else max(14, length - width - 6, key=room)
    labels += covered(behind)
    slope = round(math.degrees(math.atan2(end - start, abs(target - source))) * side, 1)
    label = text(round(-behind * side, 1), -4, words, "end" if side > 0 else "start")
    label = f'<g transform="translate({target},{end}) rotate({slope})">{label}</g>'
    return [line(source, start, target - 3 * side, end, "again" if again else "way", "head"), label]


def lost(message, columns, start):
    """A message that is never delivered."""
    source, target = columns[message.source], columns[message.target]
    side = 1 if source < target else -1
    stop = source + side * 46
    label = text(stop + 8 * side, start + 13, f"{label_of(message)}, lost", "start" if side > 0 else "end", "note")
    return [line(source, start, stop, start + 9, "again"), cross(stop, start + 9, 4, "lost"), label]


def asked(order, number):
    """What a client's own step is about. A value that a command expects to be absent is a hyphen, as `play` prints it."""
    if order["do"] == "invoke":
        return f"{order['client']}.{number} {' '.join('-' if word is None else word for word in order['cmd'])}"
    if order["do"] == "retry":
        return f"retry {order['client']}.{order['seq']}"
    return f"{order['do']} C{order['client']}"


def life_lines(steps, columns, height):
    """A line for each node, which is dashed behind its stop."""
    stops = {step.order["node"]: step.top for step in steps if step.order["do"] == "stop" and step.outcome == "done"}
    parts = []
    for name, x in columns.items():
        stop = stops.get(name, height)
        parts += [text(x, TOP - 8, name, "middle", "node"), line(x, TOP, x, stop, "life")]
        if name in stops:
            parts += [cross(x, stop, 8, "stop"), line(x, stop, x, height, "gone")]
    return parts


def own_marks(steps, columns):
    """What each step says of itself, in the margin, and the points on the clients' lines."""
    parts, numbers = [], {}
    for place, step in enumerate(steps, 1):
        order, y = step.order, step.top + 4
        parts.append(text(10, y, f"s{place}", kind="step"))
        if order["do"] in ("invoke", "retry", "fetch"):
            client = order["client"]
            numbers[client] = numbers.get(client, 0) + (order["do"] == "invoke")
            parts.append(f'<circle cx="{columns[f"C{client}"]}" cy="{step.top}" r="4" class="dot"/>')
            about = asked(order, numbers[client])
        elif order["do"] == "stop":
            about = f"stop {order['node']}"
        else:
            about = "" if order["do"] == "deliver" else order["do"]
        for request, answer in step.completed:
            parts.append(f'<circle cx="{columns["C" + request.split(".")[0]]}" cy="{step.top}" r="5" class="done"/>')
            about = f"{request}: {answer}"
        refused = "" if step.outcome == "done" else f" {step.outcome}"
        parts.append(text(42, y, about + refused, kind="refused" if refused else "request"))
    return parts


def arrows(steps, columns):
    """All messages, each from the step that sent it to those that delivered it. Labels come last: no line crosses them."""
    parts, labels = [], []
    arrivals = {}
    for step in steps:
        if step.order["do"] == "deliver" and step.outcome == "done":
            arrivals.setdefault(step.order["msg"], []).append(step.top)
    for step in steps:
        for place, message in enumerate(step.sent):
            start = step.top + place * LINE
            ends = arrivals.get(message.number, [])
            for again, end in enumerate(ends):
                parts += arrow(message, columns, start, end, again > 0, labels)
            if not ends:
                parts += lost(message, columns, start)
    return sorted(parts, key=lambda part: part.startswith(("<text", "<g")))


STYLE = """
text { font: 12px sans-serif; fill: #222; stroke: #fff; stroke-width: 4px; paint-order: stroke }
.node { font-weight: bold; font-size: 14px }
.step { fill: #777; font-size: 11px } .refused, .note { fill: #b03030; font-size: 11px } .request { fill: #1a5fb4 }
line, path { stroke: #222; stroke-width: 1.2; fill: none } .life { stroke: #bbb } .gone { stroke: #ddd; stroke-dasharray: 2 4 }
.again { stroke-dasharray: 5 3 } .lost, .stop { stroke: #b03030; stroke-width: 2 }
.dot { fill: #fff; stroke: #1a5fb4; stroke-width: 1.5 } .done { fill: #1a5fb4 } .head { fill: #222; stroke: none }
"""


def picture(script, output, marks=lambda steps, columns, height: []):
    """The whole picture, as one text. `marks` gives what else is drawn."""
    steps = steps_of(script, output)
    columns = columns_of(steps)
    height = place_all(steps)
    width = LEFT + COLUMN * len(columns)
    point = '<path d="M0,0 L9,4 L0,8 z" class="head"/>'
    head = f'<marker id="head" markerWidth="9" markerHeight="8" refX="8" refY="4" orient="auto">{point}</marker>'
    parts = life_lines(steps, columns, height) + marks(steps, columns, height)
    parts += arrows(steps, columns) + own_marks(steps, columns)
    return "\n".join(
        [f'<svg xmlns="http://www.w3.org/2000/svg" width="{width}" height="{height}" viewBox="0 0 {width} {height}">']
        + [f"<style>{STYLE}</style>", f"<defs>{head}</defs>", f'<rect width="{width}" height="{height}" fill="#fff"/>']
        + parts
        + ["</svg>", ""]
    )


def main():
    words = sys.argv[1:]
    if len(words) == 2:
        print(picture(*(Path(word).read_text(encoding="utf-8") for word in words)), end="")
        return
    if words not in ([], ["--check"]):
        sys.exit(__doc__)
    stale = False
    drawn = {
        name: picture(*((EXAMPLES / f"{name}{end}").read_text(encoding="utf-8") for end in (".script", ".out")))
        for name in DRAWN
    }
    for name, made in {**drawn, **diagrams.drawn()}.items():
        file = PICTURES / f"{name}.svg"
        if file.exists() and file.read_text(encoding="utf-8") == made:
            continue
        stale = True
        if words:
            print(f"docs/pictures/{file.name} isn't what examples/to_svg.py draws")
        else:
            PICTURES.mkdir(parents=True, exist_ok=True)
            file.write_text(made, encoding="utf-8")
    sys.exit(1 if words and stale else 0)


if __name__ == "__main__":
    main()
