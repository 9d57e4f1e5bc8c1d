"""Draws the pictures of docs/pictures that show no script: the nodes of a deployment and what an embedder supplies, the life
of a master, and the layers of crates, of which `crates.txt` says what stands on what. `examples/to_svg.py` writes and checks
them."""

from html import escape
from pathlib import Path

CRATES = Path(__file__).resolve().parents[2] / "crates.txt"

STYLE = """
text { font: 12px sans-serif; fill: #222 } .name { font-weight: bold; font-size: 13px } .small { fill: #555; font-size: 11px }
.way { stroke: #222; stroke-width: 1.2; fill: none } .yours { stroke: #1a5fb4; stroke-width: 1.2; stroke-dasharray: 5 3; fill: none }
.box { fill: #fff; stroke: #222; stroke-width: 1.2 } .law { fill: #eef4fb } .code { fill: #f2f7ee } .shared { fill: #f5f5f5 }
.ground { fill: none; stroke: #bbb; stroke-dasharray: 4 4 } .head { fill: #222 } .blue { fill: #1a5fb4 }
.label { stroke: #fff; stroke-width: 4px; paint-order: stroke }
"""


def text(x, y, words, kind="", anchor="middle"):
    return f'<text x="{x}" y="{y}" text-anchor="{anchor}" class="{kind}">{escape(words)}</text>'


def lines(x, y, rows, kind="", anchor="middle"):
    """Rows of text, one below the other."""
    return [text(x, y + 15 * place, row, kind, anchor) for place, row in enumerate(rows)]


def box(x, y, width, height, name, rows=(), kind=""):
    """A box with a name, and rows below it, in the middle."""
    top = y + height / 2 - 7.5 * len(rows) + 5
    return [
        f'<rect x="{x}" y="{y}" width="{width}" height="{height}" rx="4" class="box {kind}"/>',
        text(x + width / 2, top, name, "name"),
        *lines(x + width / 2, top + 16, rows, "small"),
    ]


def arrow(points, kind="way"):
    """A line through these points, with a head at its end."""
    path = " L".join(f"{x},{y}" for x, y in points)
    return f'<path d="M{path}" class="{kind}" marker-end="url(#{"blue" if kind == "yours" else "head"})"/>'


def whole(width, height, parts):
    """The picture, with its words above its lines."""
    heads = "".join(
        f'<marker id="{name}" markerWidth="9" markerHeight="8" refX="8" refY="4" orient="auto"><path d="M0,0 L9,4 L0,8 z" class="{name}"/></marker>'
        for name in ("head", "blue")
    )
    parts = sorted(parts, key=lambda part: part.startswith("<text"))
    return "\n".join(
        [f'<svg xmlns="http://www.w3.org/2000/svg" width="{width}" height="{height}" viewBox="0 0 {width} {height}">']
        + [f"<style>{STYLE}</style>", f"<defs>{heads}</defs>", f'<rect width="{width}" height="{height}" fill="#fff"/>']
        + parts
        + ["</svg>", ""]
    )


def deployment():
    """The nodes, which messages go between them, and what is not in them."""
    parts = ['<rect x="280" y="20" width="500" height="330" rx="6" class="ground"/>']
    parts += [text(292, 38, "a partition: 1 to 16 of them", "small", "start")]
    parts += box(30, 165, 130, 60, "client", ["1 to 64"])
    parts += box(330, 165, 130, 60, "master", ["one that is adopted"])
    parts += box(610, 55, 140, 60, "witnesses", ["f of them, 1 to 5"])
    parts += box(610, 275, 140, 60, "backups", ["f of them, 1 to 5"])
    parts += box(330, 405, 130, 60, "manager", ["one"])
    # client and master
    parts += [arrow([(160, 185), (328, 185)]), arrow([(330, 207), (162, 207)])]
    parts += lines(222, 163, ["update, sync,", "read, glance"], "label small")
    parts += lines(222, 223, ["reply, value,", "quick, refuse"], "label small")
    # client and witnesses
    parts += [arrow([(95, 165), (95, 75), (608, 75)]), arrow([(610, 95), (125, 95), (125, 163)])]
    parts += [text(420, 69, "record, probe", "label small"), text(420, 111, "accepted or rejected, live or not-live", "label small")]
    # master and witnesses
    parts += [arrow([(440, 165), (640, 117)]), arrow([(690, 115), (462, 180)])]
    parts += [text(505, 143, "gc, freeze", "label small", "end"), text(590, 162, "suspects or stranger, frozen", "label small", "start")]
    # master and backups
    parts += [arrow([(462, 208), (690, 273)]), arrow([(640, 275), (440, 227)])]
    parts += [text(610, 238, "append, fence", "label small", "start"), *lines(424, 262, ["stored, or why not;", "log, or fenced"], "label small", "start")]
    # manager and the others
    parts += [arrow([(380, 405), (380, 227)]), arrow([(410, 225), (410, 403)])]
    parts += lines(370, 272, ["recover,", "prepare,", "adopted,", "take, give,", "expire"], "label small", "end")
    parts += lines(420, 306, ["recovered, prepared,", "taken, given"], "label small", "start")
    parts += [arrow([(460, 445), (680, 445), (680, 337)]), text(570, 438, "install", "label small")]
    parts += [arrow([(460, 425), (765, 425), (765, 117)]), text(720, 418, "start", "label small")]
    parts += [arrow([(80, 225), (80, 445), (328, 445)]), arrow([(330, 425), (110, 425), (110, 227)])]
    parts += [text(205, 461, "fetch", "label small"), text(205, 418, "configuration", "label small")]
    # what isn't here
    parts += ['<rect x="30" y="490" width="750" height="150" rx="6" class="ground"/>', text(44, 510, "What whoever runs the nodes supplies", "name", "start")]
    parts += lines(44, 530, [
        "the way of each message from a node to its addressee: it may be lost, late, or come often",
        "when a node is given an order: invoke, retry, fetch; sync, collect; recover, replace, migrate, nudge, expire",
        "the clock behind these orders, and who finds that a node is gone: the nodes have neither",
        "threads or processes in which the nodes run, and memory",
        "a disk under the journal of each node that is to outlive its process (trait Disk)",
    ], "", "start")
    parts += lines(44, 620, ["Messages as bytes are here: curp_wire."], "small", "start")
    return whole(810, 660, parts)


def cluster():
    """The processes of a cluster that runs, and what is between them."""
    parts = ['<rect x="20" y="20" width="760" height="300" rx="6" class="ground"/>']
    parts += [text(32, 38, "one program of Python: cluster/run, or cluster/break", "small", "start")]
    for x, name, chores in (
        (50, "host of C1", ["retries after silence,", "fetches after a refusal"]),
        (230, "host of M1", ["sync and collect, by", "updates or milliseconds"]),
        (410, "host of B1, W1, ..", ["nothing"]),
        (590, "host of G", ["probes; nudge, recover,", "replace"]),
    ):
        parts += box(x, 180, 160, 80, name, chores)
        parts += [arrow([(x + 60, 260), (x + 60, 378)]), arrow([(x + 100, 380), (x + 100, 262)])]
        parts += [arrow([(x + 80, 180), (x + 80, 122)]), arrow([(x + 80, 120), (x + 80, 178)])]
        parts += [text(x + 52, 305, "in", "label small", "end"), text(x + 108, 305, "out", "label small", "start")]
        parts += box(x, 380, 160, 60, "curpd node", ["a process, proved"], "code")
        parts += [arrow([(x + 80, 440), (x + 80, 478)])] + box(x + 20, 480, 120, 40, "its journal", [], "shared")
    parts += box(50, 60, 700, 60, "the wire", ["TCP on the loopback, or within the program: may lose, repeat, delay and reorder"])
    parts += lines(30, 550, [
        "What a host gives its process: messages that came, as the sender's process said them, and orders, each with the highest",
        "stamp that was seen. What the process says: its messages, once they stand in its journal; completions; refusals.",
        "Afterwards `curpd gather` makes one script of the journals, whatever the hosts and the wire did.",
    ], "", "start")
    return whole(800, 600, parts)


def master():
    """What a master goes through, and by which message."""
    parts = box(40, 60, 150, 64, "fresh", ["refuses: switching"])
    parts += box(300, 60, 170, 64, "asks", ["one backup for its log,", "one witness for requests"])
    parts += box(580, 60, 170, 64, "stores", ["the replayed log on each", "fresh backup"])
    parts += box(580, 230, 170, 64, "waits", ["to be adopted"])
    parts += box(300, 230, 170, 64, "serves", ["updates and reads"])
    parts += box(300, 390, 170, 64, "switches", ["no reply, value or gc;", "refuses: switching"])
    parts += [arrow([(190, 92), (298, 92)]), text(244, 84, "recover", "label small")]
    parts += [arrow([(470, 92), (578, 92)]), *lines(524, 68, ["log and", "frozen"], "label small")]
    parts += [arrow([(665, 124), (665, 228)]), *lines(674, 165, ["the last backup", "has stored it:", "recovered is sent"], "label small", "start")]
    parts += [arrow([(580, 262), (472, 262)]), text(525, 254, "adopted", "label small")]
    parts += [arrow([(350, 294), (350, 388)]), *lines(342, 332, ["prepare of a", "later version"], "label small", "end")]
    parts += [arrow([(420, 390), (420, 296)]), *lines(430, 332, ["adopted of that version; prepared was sent", "once each backup of the new list had the log"], "label small", "start")]
    parts += [arrow([(130, 262), (298, 262)]), *lines(40, 248, ["masters of", "the opening"], "small", "start")]
    parts += lines(40, 500, [
        "A master isn't told that another one was adopted in its place. It goes on as it is: backups that a later master has",
        "fenced take nothing of it, and what it still answers agrees with the order.",
        "Wherever it is, it may be stopped, for good. While it asks, stores, waits or switches, the order sync sends again what",
        "it waits for.",
    ], "", "start")
    return whole(800, 565, parts)


# The layers, lowest row first: a name, what is in it, and its crates without their curp_. Left out are the tests.
LAYERS = {
    "data": ("data", "messages, lines, bytes, words", "shared",
             "base io disk range cmd order items entries msg script report fields wire resp words same"),
    "definitions": ("definitions", "what nodes and worlds are", "shared", "model facts journal"),
    "laws": ("laws", "what holds in every script", "law", "rows"),
    "parts": ("parts of the nodes", "log, replies, witness, ..", "code",
              "slots backup rifl log tail rounds master recover client changes config"),
    "verdicts": ("verdicts", "claims; lines read and done", "code", "check runner law_print"),
    "nodes": ("the nodes", "each behind Core", "code", "nodes opening"),
    "world": ("the world", "all nodes of a script", "code", "line cluster world serve"),
    "threads": ("threads", "nodes with inboxes", "code", "seat ruled desk merge gather live"),
    "words": ("words", "play, make, manage, resp", "code", "play manage gen session"),
    "program": ("the program", "run, main", "code", "run"),
}
PLACES = {
    "program": (240, 20), "words": (20, 120), "threads": (460, 120), "world": (180, 220), "verdicts": (20, 320),
    "laws": (240, 320), "nodes": (460, 320), "parts": (460, 420), "definitions": (240, 520), "data": (240, 620),
}


def layer_of(crate):
    """The layer of a crate, if it has one."""
    name = crate.removeprefix("curp_")
    named = [layer for layer, (_, _, _, names) in LAYERS.items() if name in names.split()]
    return named[0] if named else "laws" if name.startswith("law_") else None


def stands_on():
    """Which layer stands on which other one, by crates.txt."""
    below = {layer: set() for layer in LAYERS}
    for row in CRATES.read_text(encoding="utf-8").splitlines():
        if not row or row.startswith("#"):
            continue
        crate, cited = row.split(":")
        upper = layer_of(crate.split()[0])
        below.setdefault(upper, set()).update(layer_of(word) for word in cited.split())
    return {layer: {lower for lower in below[layer] if lower not in (None, layer)} for layer in LAYERS}


def above_all(below):
    """The same without what follows from the others."""
    def reach(layer, seen=()):
        return {far for lower in below[layer] if lower not in seen for far in {lower} | reach(lower, (*seen, layer))}
    return {
        layer: {lower for lower in lowers if not any(lower in reach(other) for other in lowers - {lower})}
        for layer, lowers in below.items()
    }


def layers():
    """The layers of crates: an arrow goes from a layer to one that it stands on."""
    width, height = 180, 56
    parts = []
    for layer, lowers in above_all(stands_on()).items():
        x, y = PLACES[layer]
        for lower in sorted(lowers):
            end_x, end_y = PLACES[lower]
            across = max(-60, min(60, (end_x - x) / 3))
            parts.append(arrow([(x + width / 2 + across, y + height), (end_x + width / 2 - across / 2, end_y - 2)]))
    for layer, (name, rows, kind, _) in LAYERS.items():
        parts += box(*PLACES[layer], width, height, name, [rows], kind)
    return whole(660, 700, parts)


def drawn():
    """Each picture by its name."""
    return {"deployment": deployment(), "cluster": cluster(), "life-of-a-master": master(), "layers": layers()}
